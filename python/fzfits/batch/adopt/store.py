"""The manifest of an adopted folder: a row in SQLite for each file and for each folder.

A row of a file has a hash. The row of its folder has the sum of these, the sum of the hashes of the names, lengths and times of its
files, counts, and a hash of its own; the table `seal` has the sum of the hashes of all folders. So each command checks what it reads
of the manifest, and one that needs the folders only reads no row of a file: of ten million files these are some thousands of rows.
"""
from __future__ import annotations

import hashlib
import json
from dataclasses import astuple
from typing import Any, Iterator, List, Optional, Tuple

from .. import checks, names
from ..checks import Odd
from ..opening import BadManifest
from . import forms
from .book import WHAT_TO_DO, Book
from .rows import COLUMNS, FOLDER_COLUMNS, GONE, NOT_WELL, WELL, Folder, Row

SELECT = f"SELECT {', '.join(COLUMNS)}, hash FROM files"
PUT = f"INSERT OR REPLACE INTO files ({', '.join(COLUMNS)}, hash) VALUES ({', '.join('?' * (len(COLUMNS) + 1))})"
PUT_FOLDER = f"INSERT OR REPLACE INTO folders ({', '.join(FOLDER_COLUMNS)}, hash) VALUES ({', '.join('?' * (len(FOLDER_COLUMNS) + 1))})"
STATUS, MADE_OF = map(COLUMNS.index, ("status", "made_of"))
WIDE = 1 << 128
# What of a file is hashed by a look: name, length and time.
LOOK = b"%b\0%d %d"
# Up to so many files all rows are checked whenever the manifest is opened; of more, those that a command reads.
CHECKED = 20_000


def look_of(name: bytes, size: int, mtime: int) -> int:
    """The hash of what a look at a folder sees of one file."""
    return int.from_bytes(hashlib.blake2b(LOOK % (name, size, mtime), digest_size=16).digest(), "big")


def sum_of(text: str) -> "Tuple[int, int]":
    """A count and a sum, from their text."""
    count, total = text.split(" ")
    return int(count), int(total, 16)


def text_of(count: int, total: int) -> str:
    """The text of a count and a sum."""
    return f"{count} {total:x}"


class Store(Book):
    """The manifest with its folders and files."""

    def __init__(self, path: bytes, writes: bool = True):
        self._held: "dict[bytes, Folder]" = {}
        self._dirty: "set[bytes]" = set()
        self.files = self.bytes = 0
        super().__init__(path, writes)

    def _check(self) -> None:
        """Reads all folders, and all files if they are not too many."""
        for *values, digest in self._sql.execute(f"SELECT {', '.join(FOLDER_COLUMNS)}, hash FROM folders"):
            forms.check_row("folders", values)
            if digest != checks.hash_of("folders", values):
                raise Odd(f"the row of the folder {names.shown(values[0] or b'.')} is damaged: its hash is another")
            self._count, self._total = self._count + 1, checks.added(self._total, digest)
            self.files, self.bytes = self.files + values[1], self.bytes + values[2]
        super()._check()
        if self.files <= CHECKED:
            found = self._sql.execute("PRAGMA quick_check(1)").fetchone()[0]
            if found != "ok":
                raise Odd(f"it is damaged ({found})")
            for _ in self.rows():
                pass

    # folders

    def folders(self) -> Iterator[Folder]:
        """All folders, by their paths."""
        self._flush()
        for values in self._sql.execute(f"SELECT {', '.join(FOLDER_COLUMNS)} FROM folders ORDER BY path"):
            yield Folder(*values)

    def folder(self, path: bytes) -> Optional[Folder]:
        """One folder, or None. Its fields are only to be read."""
        if path not in self._held:
            found = self._sql.execute(f"SELECT {', '.join(FOLDER_COLUMNS)}, hash FROM folders WHERE path = ?", (path,)).fetchone()
            if found is None:
                return None
            if found[-1] != checks.hash_of("folders", found[:-1]):
                raise BadManifest(f"the manifest {names.shown(self.path)}: the row of a folder is damaged{WHAT_TO_DO}")
            if len(self._held) > 4096:
                self._flush()
            self._held[path] = Folder(*found[:-1])
        return self._held[path]

    def _flush(self) -> None:
        """Writes the rows of the folders that changed."""
        for path in sorted(self._dirty):
            it = self._held[path]
            old = self._sql.execute("SELECT hash FROM folders WHERE path = ?", (path,)).fetchone()
            if old is not None:
                self._count, self._total = self._count - 1, checks.added(self._total, old[0], -1)
            if sum_of(it.seal)[0] == 0:
                self._write("DELETE FROM folders WHERE path = ?", (path,))
                continue
            values = astuple(it)
            digest = checks.hash_of("folders", values)
            self._write(PUT_FOLDER, (*values, digest))
            self._count, self._total = self._count + 1, checks.added(self._total, digest)
        self._dirty.clear()
        self._held.clear()

    def _count_in(self, row: Row, digest: bytes, sign: int) -> None:
        """Takes a row into the sums of its folder, or out of them."""
        it = self.folder(row.folder) or Folder(row.folder)
        self._held[row.folder] = it
        self._dirty.add(row.folder)
        counts = it.of_status
        counts[row.status] = counts.get(row.status, 0) + sign
        it.counts = json.dumps({name: count for name, count in sorted(counts.items()) if count}, separators=(",", ":"))
        count, total = sum_of(it.seal)
        it.seal = text_of(count + sign, checks.added(total, digest, sign))
        self.files += sign
        self.bytes += sign * row.size
        it.files, it.bytes = it.files + sign, it.bytes + sign * row.size
        it.unsure += sign * (row.unsure and row.status != GONE)
        if row.status != GONE:
            seen, look = sum_of(it.look)
            it.look = text_of(seen + sign, (look + sign * look_of(row.name, row.size, row.mtime)) % WIDE)

    # files

    def row(self, folder: bytes, name: bytes) -> Optional[Row]:
        """The row of a file, or None."""
        found = self._sql.execute(f"{SELECT} WHERE folder = ? AND name = ?", (folder, name)).fetchone()
        return None if found is None else self._checked(found)

    def _checked(self, found: "tuple[Any, ...]") -> Row:
        *values, digest = found
        try:
            forms.check_row("files", values)
            row = Row(*values)
            if digest != checks.hash_of("files", values):
                raise Odd(f"the row of {names.shown(row.path)} is damaged: its hash is another")
            if row.status not in WELL or row.made_of:
                forms.check_lines(row)
        except Odd as error:
            raise self._odd(error) from error
        return row

    def rows_of(self, folder: bytes) -> Iterator[Row]:
        """The rows of a folder, by their names. At their end their number and the sum of their hashes are compared with those of the folder."""
        return (Row(*it) for it in self.checked(folder))

    def checked(self, folder: bytes) -> "Iterator[Tuple[Any, ...]]":
        """The same as bare values, in the order of COLUMNS: there may be millions of them."""
        self._flush()
        count = total = 0
        number, check, hash_of = int.from_bytes, forms.check_row, checks.hash_of
        for found in self._sql.execute(f"{SELECT} WHERE folder = ? ORDER BY name", (folder,)):
            values, digest = found[:-1], found[-1]
            if digest != hash_of("files", values) or values[STATUS] not in WELL or values[MADE_OF]:
                self._checked(found)
            else:
                try:
                    check("files", values)
                except Odd as error:
                    raise self._odd(error) from error
            count += 1
            total += number(digest, "big")
            yield values
        held = self.folder(folder)
        if text_of(count, total % checks.WIDE) != (held.seal if held else "0 0"):
            raise BadManifest(f"the manifest {names.shown(self.path)}: rows of the folder {names.shown(folder or b'.')} are gone or changed{WHAT_TO_DO}")

    def _odd(self, error: Odd) -> BadManifest:
        return BadManifest(f"the manifest {names.shown(self.path)}: {error}{WHAT_TO_DO}")

    def rows(self) -> Iterator[Row]:
        """All rows, one folder after another."""
        for it in self.paths():
            yield from self.rows_of(it)

    def paths(self) -> "List[bytes]":
        """The paths of all folders."""
        self._flush()
        return [it for (it,) in self._sql.execute("SELECT path FROM folders ORDER BY path")]

    def not_well(self) -> Iterator[Row]:
        """The rows with which something is not well. Their number is that of the folders."""
        self._flush()
        wanted = sum(count for it in self.folders() for status, count in it.of_status.items() if status in NOT_WELL)
        places = ", ".join(repr(it) for it in NOT_WELL)
        for found in self._sql.execute(f"{SELECT} INDEXED BY not_well WHERE status IN ({places})"):
            wanted -= 1
            yield self._checked(found)
        if wanted:
            raise BadManifest(f"the manifest {names.shown(self.path)}: rows of files that are not well are gone or changed{WHAT_TO_DO}")

    def put(self, row: Row) -> None:
        """Sets the row of a file."""
        values = tuple(vars(row).values())
        try:
            forms.check_row("files", values)
            forms.check_lines(row)
        except Odd as error:
            raise BadManifest(f"a row of {names.shown(row.path)} cannot be written: {error}") from error
        self._drop(row.folder, row.name)
        digest = checks.hash_of("files", values)
        self._write(PUT, (*values, digest))
        self._count_in(row, digest, 1)
        self.saved_now_and_then()

    def _drop(self, folder: bytes, name: bytes) -> bool:
        found = self._sql.execute(f"{SELECT} WHERE folder = ? AND name = ?", (folder, name)).fetchone()
        if found is not None:
            self._count_in(Row(*found[:-1]), found[-1], -1)
        return found is not None

    def forget(self, folder: bytes, name: bytes) -> None:
        """Takes a row away."""
        if self._drop(folder, name):
            self._write("DELETE FROM files WHERE folder = ? AND name = ?", (folder, name))
