"""The manifest: a row in SQLite for each file, what was packed of it, and what the last look at it found.

Each row of a file has a hash, and the table `seal` has the number of rows and the sum of all hashes, so that a bit that changes
and a row that is gone are noticed. Others may have written the file: everything in it is checked when it is opened.
"""
from __future__ import annotations

import os
import secrets
import socket
import sqlite3
import time
from typing import Any, Iterator, Optional

from . import checks, names, opening
from .layout import COLUMNS, PUT, SCHEMAS, STRICT, VALUES, VERSION, Row
from .opening import BadManifest

__all__ = ["BadManifest", "Manifest", "Row", "now"]

# What a run says that did not end, after a later one did.
KILLED = "did not end by itself"


def now() -> str:
    """The time in UTC, to the second."""
    return time.strftime("%Y-%m-%dT%H:%M:%SZ", time.gmtime())


class Manifest:
    """The manifest in a file. What is put into it is on the disk after `save`, which `put` calls about once a second.

    With `whole` false its rows are not looked at, and only its facts can be asked for.
    """

    def __init__(self, path: bytes, writes: bool = True, whole: bool = True):
        self.path, self.changed = path, False
        self._rest: Optional[str] = None
        self._broken = ""
        self._sql, self._room = opening.opened(path, writes)
        try:
            self._load(writes, whole)
        except BaseException as error:
            self._sql.close()
            opening.closed(self._room)
            # text in the database that is no text is a ValueError
            if isinstance(error, (sqlite3.Error, checks.Odd, ValueError, OverflowError)):
                raise BadManifest(f"the manifest {names.shown(path)}: {names.told(str(error))}{opening.what_to_do(path, error)}") from error
            raise

    def _load(self, writes: bool, whole: bool) -> None:
        if writes and not self._sql.execute("SELECT count(*) FROM sqlite_master").fetchone()[0]:
            self._sql.execute("BEGIN IMMEDIATE")
            for made in SCHEMAS[0 if STRICT else 1].values():
                self._sql.execute(made)
            self._sql.execute("INSERT INTO facts VALUES ('version', ?)", (VERSION,))
            self._hashes: dict[bytes, bytes] = {}
            self._total = 0
            self._seal()
            self._sql.commit()
        # one look at all of it, also while another process writes
        self._sql.execute("BEGIN")
        self._check_version()
        checks.check_tables(self._sql, SCHEMAS)
        if not whole:
            self._check_rest(("facts",))
            self._sql.commit()
            return
        found = self._sql.execute("PRAGMA quick_check(1)").fetchone()[0]
        if found != "ok":
            raise checks.Odd(f"it is damaged ({found})")
        self._check_rows()
        self._sql.commit()
        self._saved = time.monotonic()

    def _check_version(self) -> None:
        tables = {it for (it,) in self._sql.execute("SELECT name FROM sqlite_master WHERE type = 'table'")}
        found = self._sql.execute("SELECT value FROM facts WHERE name = 'version'").fetchone() if "facts" in tables else None
        if not found or found[0] != VERSION:
            version = found[0] if found and isinstance(found[0], int) else "none"
            raise BadManifest(f"the manifest {names.shown(self.path)} has version {version}; this fzbatch reads version {VERSION}{opening.ANOTHER}")

    def _check_rows(self) -> None:
        """Reads all rows: the form of each field, the hash of each row, and the sums."""
        self._hashes, self._total, self._rest = {}, 0, None
        kept: list[Row] = []
        for *values, digest in self._sql.execute(f"SELECT {', '.join(COLUMNS)}, hash FROM files ORDER BY path"):
            checks.check_row("files", values)
            row = Row(*values)
            if digest != checks.hash_of("files", values):
                raise checks.Odd(f"the row of {names.shown(row.path)} is damaged: its hash is another")
            checks.check_file(row)
            self._hashes[row.path] = digest
            self._total = checks.added(self._total, digest)
            kept.append(row)
        self._check_rest(("facts", "left_out", "others", "runs", "seal"))
        if dict(self._sql.execute("SELECT name, value FROM seal")) != self._seals():
            raise checks.Odd("rows are gone or changed: their number and the sum of their hashes are others than when it was written")
        self._rows = {it.path: it for it in kept}

    def _check_rest(self, tables: "tuple[str, ...]") -> None:
        for table in tables:
            for values in self._sql.execute(f"SELECT * FROM {table}"):
                checks.check_row(table, values)

    def _seals(self) -> dict[str, str]:
        if self._rest is None:
            count = total = 0
            for table in ("facts", "left_out", "others", "runs"):
                for values in self._sql.execute(f"SELECT * FROM {table}"):
                    count, total = count + 1, checks.added(total, checks.hash_of(table, values))
            self._rest = checks.seal_of(count, total)
        return {"files": checks.seal_of(len(self._hashes), self._total), "rest": self._rest}

    def _seal(self) -> None:
        for it in self._seals().items():
            self._sql.execute("INSERT OR REPLACE INTO seal VALUES (?, ?)", it)

    def __enter__(self) -> "Manifest":
        return self

    def __exit__(self, *_: object) -> None:
        self.close()

    def close(self) -> None:
        """Saves and closes."""
        try:
            self.save()
        finally:
            self._sql.close()
            opening.closed(self._room)

    def give_up(self) -> None:
        """Drops what was put since it was saved: there is no room for it."""
        try:
            self._sql.rollback()
            self._check_rows()
        except (sqlite3.Error, checks.Odd, ValueError, OverflowError) as error:
            # it cannot even be read again: nothing more is written into it
            self._broken = str(error)

    def save(self) -> None:
        """Waits until the disk has all that was put."""
        if self._broken:
            return
        try:
            if self._sql.in_transaction:
                self._seal()
            self._sql.commit()
        except sqlite3.Error as error:
            raise BadManifest(f"the manifest {names.shown(self.path)} cannot be written: {error}") from error
        self._saved = time.monotonic()

    def _write(self, statement: str, values: "tuple[Any, ...]" = ()) -> None:
        if self._broken:
            raise BadManifest(f"the manifest {names.shown(self.path)} cannot be written: {names.told(self._broken)}")
        try:
            self._sql.execute(statement, values)
            self.changed = True
            if " files" not in statement:
                self._rest = None
        except sqlite3.Error as error:
            raise BadManifest(f"the manifest {names.shown(self.path)} cannot be written: {error}") from error

    def fact(self, name: str) -> Any:
        """A fact of the whole archive, or None."""
        found = self._sql.execute("SELECT value FROM facts WHERE name = ?", (name,)).fetchone()
        return found[0] if found else None

    def tell(self, name: str, value: "int | str | bytes") -> None:
        """Sets a fact of the whole archive."""
        self._write("INSERT OR REPLACE INTO facts VALUES (?, ?)", (name, value))

    def put(self, row: Row) -> None:
        """Sets the row of a file."""
        values = VALUES(row)
        try:
            checks.check_row("files", values)
            checks.check_file(row)
        except checks.Odd as error:
            raise BadManifest(f"a row of {names.shown(row.path)} cannot be written: {error}") from error
        digest = checks.hash_of("files", values)
        self._write(PUT, (*values, digest))
        self._drop_hash(row.path)
        self._hashes[row.path], self._total = digest, checks.added(self._total, digest)
        self._rows[row.path] = Row(*values)
        if time.monotonic() - self._saved > 1:
            self.save()

    def _drop_hash(self, path: bytes) -> None:
        before = self._hashes.pop(path, None)
        if before is not None:
            self._total = checks.added(self._total, before, -1)

    def forget(self, path: bytes) -> None:
        """Takes a row away."""
        self._write("DELETE FROM files WHERE path = ?", (path,))
        self._drop_hash(path)
        self._rows.pop(path, None)

    def rows(self) -> Iterator[Row]:
        """All rows, by their paths."""
        return (Row(*VALUES(self._rows[it])) for it in sorted(self._rows))

    def leave_out(self, left: Any, others: "dict[str, int]") -> None:
        """Notes what the last look at the source left out, in the place of what an earlier one did. The disk has it after `save`."""
        self._write("DELETE FROM left_out")
        self._write("DELETE FROM others")
        for it in left:
            self._write("INSERT INTO left_out VALUES (?, ?, ?)", (it.path, names.told(it.why), names.told(it.advice)))
        for suffix, count in others.items():
            self._write("INSERT INTO others VALUES (?, ?)", (names.told(suffix), count))

    def left_out(self) -> "list[tuple[bytes, str, str]]":
        """Path, cause and advice of what was left out."""
        return list(self._sql.execute("SELECT path, why, advice FROM left_out ORDER BY path"))

    def others(self) -> "dict[str, int]":
        """How many files there were of other names, by their suffix."""
        return dict(self._sql.execute("SELECT suffix, count FROM others ORDER BY count DESC, suffix"))

    def begin(self, token: str, verb: str, host: str, process: int) -> None:
        """Notes that a run begins, before it writes any file."""
        self._write("INSERT INTO runs VALUES (?, ?, ?, ?, ?, NULL, NULL)", (token, verb, names.told(host), process, now()))
        self.save()

    def end(self, token: str, said: str) -> None:
        """Notes that a run ended by itself."""
        self._write("UPDATE runs SET ended = ?, said = ? WHERE token = ?", (now(), names.told(said), token))
        # what earlier ones of pack left was looked at, whatever order the clock gives them
        pack = "verb LIKE 'pack%'"
        self._write(f"UPDATE runs SET ended = ?, said = ? WHERE ended IS NULL AND {pack} AND (SELECT {pack} FROM runs WHERE token = ?)", (now(), KILLED, token))
        self.save()

    def note(self, verb: str, began: str, said: str) -> None:
        """Notes a run that is over, and saves it with what it changed: so a manifest from before it is an older one."""
        ended = (secrets.token_hex(8), verb, names.told(socket.gethostname()), os.getpid(), began, now(), names.told(said))
        self._write("INSERT INTO runs VALUES (?, ?, ?, ?, ?, ?, ?)", ended)
        self.save()

    def take(self, runs: Any) -> None:
        """Takes the runs of another manifest, which are over: so this one is not older than it."""
        for *begun, ended, said in runs:
            self._write("INSERT OR IGNORE INTO runs VALUES (?, ?, ?, ?, ?, ?, ?)", (*begun, ended or now(), said or KILLED))

    def runs(self) -> "list[tuple[str, str, str, int, str, Optional[str], Optional[str]]]":
        """All runs: token, verb, host, process, when it began and ended, and its last line."""
        return list(self._sql.execute("SELECT token, verb, host, process, began, ended, said FROM runs ORDER BY began, token"))
