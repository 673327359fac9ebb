"""The manifest of an adopted folder as a database: how it is opened, saved and sealed, and what it notes of the folder as a whole."""
from __future__ import annotations

import sqlite3
import time
from typing import Any, Optional, TypeVar

from .. import checks, names, opening
from ..checks import Odd
from ..manifest import now
from ..opening import BadManifest
from . import forms

B = TypeVar("B", bound="Book")
SECOND = 1.0
WHAT_TO_DO = ": move it away, and fzbatch adopt makes a new one; the second copy beside it is that of the last run"


class Book:
    """The manifest in a file. What is put into it is on the disk after `save`, which `saved_now_and_then` calls about once a second."""

    def __init__(self, path: bytes, writes: bool = True):
        self.path, self.writes, self.changed = path, writes, False
        # how many folders there are, and the sum of the hashes of their rows
        self._count = self._total = 0
        self._sql, self._room = opening.opened(path, writes)
        try:
            self._load()
        except BaseException as error:
            self._sql.close()
            opening.closed(self._room)
            # text in the database that is no text is a ValueError
            if isinstance(error, (sqlite3.Error, Odd, ValueError, OverflowError)):
                busy = isinstance(error, sqlite3.OperationalError)
                raise BadManifest(f"the manifest {names.shown(path)}: {names.told(str(error))}{'' if busy else WHAT_TO_DO}") from error
            raise

    def _load(self) -> None:
        if self.writes and not self._sql.execute("SELECT count(*) FROM sqlite_master").fetchone()[0]:
            self._sql.execute("BEGIN IMMEDIATE")
            for made in forms.schema().values():
                self._sql.execute(made)
            self._sql.execute("INSERT INTO facts VALUES ('version', ?)", (forms.VERSION,))
            self._seal()
            self._sql.commit()
        self._sql.execute("BEGIN")
        forms.check_tables(self._sql)
        self._check()
        self._sql.commit()
        self._saved = time.monotonic()

    def _check(self) -> None:
        """Reads the small tables, and compares the sums of all."""
        for table in ("facts", "left_out", "others", "runs", "seal"):
            for values in self._sql.execute(f"SELECT * FROM {table}"):
                forms.check_row(table, values)
        if self.fact("version") != forms.VERSION:
            raise Odd(f"it has version {self.fact('version')}; this fzbatch reads version {forms.VERSION}")
        if dict(self._sql.execute("SELECT name, value FROM seal")) != self._seals():
            raise Odd("rows are gone or changed: their number and the sum of their hashes are others than when it was written")

    def _seals(self) -> "dict[str, str]":
        count = total = 0
        for table in ("facts", "left_out", "others", "runs"):
            for values in self._sql.execute(f"SELECT * FROM {table}"):
                count, total = count + 1, checks.added(total, checks.hash_of(table, values))
        return {"folders": checks.seal_of(self._count, self._total), "rest": checks.seal_of(count, total)}

    def _seal(self) -> None:
        for it in self._seals().items():
            self._sql.execute("INSERT OR REPLACE INTO seal VALUES (?, ?)", it)

    def __enter__(self: B) -> B:
        return self

    def __exit__(self, *_: object) -> None:
        self.close()

    def close(self) -> None:
        """Saves and closes."""
        try:
            if self.writes:
                self.save()
        finally:
            self._sql.close()
            opening.closed(self._room)

    def give_up(self) -> None:
        """Drops what was put since it was saved: there is no room for it. Nothing more is written."""
        self.writes = False
        try:
            self._sql.rollback()
        except sqlite3.Error:
            pass

    def save(self) -> None:
        """Waits until the disk has all that was put."""
        if not self.writes:
            return
        try:
            if self._sql.in_transaction:
                self._flush()
                self._seal()
            self._sql.commit()
        except (sqlite3.Error, OverflowError) as error:
            raise self._unwritten(error) from error
        self._saved = time.monotonic()

    def _unwritten(self, error: Exception) -> BadManifest:
        return BadManifest(f"the manifest {names.shown(self.path)} cannot be written: {error}")

    def _write(self, statement: str, values: "tuple[Any, ...]" = ()) -> None:
        try:
            self._sql.execute(statement, values)
            self.changed = True
        except (sqlite3.Error, OverflowError) as error:
            raise self._unwritten(error) from error

    def _flush(self) -> None:
        """Writes what was kept back until now."""

    def saved_now_and_then(self) -> None:
        """Saves if the last time was more than a second ago."""
        if time.monotonic() - self._saved > SECOND:
            self.save()

    # facts and runs

    def fact(self, name: str) -> Any:
        """A fact of the whole folder, or None."""
        found = self._sql.execute("SELECT value FROM facts WHERE name = ?", (name,)).fetchone()
        return found[0] if found else None

    def tell(self, name: str, value: "int | bytes") -> None:
        """Sets a fact of the whole folder."""
        if self.fact(name) != value:
            self._write("INSERT OR REPLACE INTO facts VALUES (?, ?)", (name, value))

    def begin(self, token: str, verb: str, host: str, process: int, program: str) -> int:
        """Notes that a run begins, and gives its number."""
        number: int = self._sql.execute("SELECT coalesce(max(number), 0) + 1 FROM runs").fetchone()[0]
        self._write("INSERT INTO runs VALUES (?, ?, ?, ?, ?, ?, ?, NULL, NULL)", (number, token, verb, names.told(host), process, program, now()))
        self.save()
        return number

    def end(self, number: int, said: str) -> None:
        """Notes that a run ended by itself."""
        self._write("UPDATE runs SET ended = ?, said = ? WHERE number = ?", (now(), names.told(said), number))
        self.save()

    def runs(self) -> "list[tuple[int, str, str, str, int, str, str, Optional[str], Optional[str]]]":
        """All runs: number, token, verb, host, process, program, when it began and ended, and its last line."""
        return list(self._sql.execute("SELECT number, token, verb, host, process, program, began, ended, said FROM runs ORDER BY number"))

    def last_run(self) -> int:
        """The number of the last run, or 0."""
        found = self._sql.execute("SELECT coalesce(max(number), 0) FROM runs").fetchone()
        return int(found[0])

    def leave_out(self, left: Any, others: "dict[str, int]") -> None:
        """Notes what the last look left out, if that is something else than what an earlier one did."""
        now_left = sorted((it.path, names.told(it.why), names.told(it.advice)) for it in left)
        told = {names.told(suffix): count for suffix, count in others.items()}
        if now_left == self.left_out() and told == self.others():
            return
        self._write("DELETE FROM left_out")
        self._write("DELETE FROM others")
        for it in now_left:
            self._write("INSERT OR REPLACE INTO left_out VALUES (?, ?, ?)", it)
        for one in told.items():
            self._write("INSERT OR REPLACE INTO others VALUES (?, ?)", one)
        self.save()

    def left_out(self) -> "list[tuple[bytes, str, str]]":
        """Path, cause and advice of what was left out."""
        return list(self._sql.execute("SELECT path, why, advice FROM left_out ORDER BY path"))

    def others(self) -> "dict[str, int]":
        """How many files there were of other names, by their suffix."""
        return dict(self._sql.execute("SELECT suffix, count FROM others ORDER BY count DESC, suffix"))
