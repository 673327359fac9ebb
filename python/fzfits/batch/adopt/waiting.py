"""What waits to be read: a look at the folder beside its manifest. It is in a database of its own on a disk, whatever its number."""
from __future__ import annotations

import sqlite3
import time
from collections import Counter
from dataclasses import dataclass, field
from typing import Callable, Iterator, List, Optional, Tuple

from ..scan import Left
from .messages import One
from .rows import CHANGED, GONE, RENAMED, UNREAD, Row
from .store import Store, sum_of
from .walk import Entry, Seen, entries, walk

TABLES = (
    # what is to be read, in the order in which it is
    "CREATE TABLE todo (folder BLOB, name BLOB, size INTEGER, mtime INTEGER, sha256 BLOB, PRIMARY KEY (folder, name)) WITHOUT ROWID",
    # files of the manifest that are not there
    "CREATE TABLE gone (folder BLOB, name BLOB, PRIMARY KEY (folder, name)) WITHOUT ROWID",
    # the bytes that files had which are gone or look otherwise, to find them again under other names
    "CREATE TABLE before (sha256 BLOB, folder BLOB, name BLOB, PRIMARY KEY (sha256, folder, name)) WITHOUT ROWID",
    "CREATE TABLE walked (path BLOB PRIMARY KEY) WITHOUT ROWID",
    "CREATE TABLE here (name BLOB PRIMARY KEY, size INTEGER, mtime INTEGER) WITHOUT ROWID",
)
AT_ONCE = 4096
DAY = 86_400_000_000_000


@dataclass
class Look:
    """What a run looks for: new files, files that look otherwise, and of the others those that were not read for so many days.

    `days` is None if no other file is read again. `only_known` is for a run that takes no new file in, and `update` for one that takes
    files as they are: it also reads those that are changed or renamed by the manifest.
    """

    days: Optional[float] = None
    only_known: bool = False
    update: bool = False

    @property
    def again(self) -> "set[str]":
        """The states of files that are read again, also if they look the same."""
        return {GONE, UNREAD, CHANGED, RENAMED} if self.update else {GONE, UNREAD}


@dataclass
class Waiting:
    """The files that wait, and what the look saw."""

    look: Look
    count: int = 0
    size: int = 0
    same: int = 0
    here: int = 0
    new: int = 0
    gone: int = 0
    left: List[Left] = field(default_factory=list)
    others: "Counter[str]" = field(default_factory=Counter)
    shut: List[bytes] = field(default_factory=list)
    unknown: List[bytes] = field(default_factory=list)

    def __post_init__(self) -> None:
        self._sql = sqlite3.connect("", isolation_level=None)
        for it in TABLES:
            self._sql.execute(it)
        self._sql.execute("BEGIN")
        self._now = time.time_ns()

    def close(self) -> None:
        """Drops it."""
        self._sql.close()

    def fill(self, store: Store, root: bytes, jobs: int) -> None:
        """Looks at the folder and all below it."""
        for seen in walk(root, store.files, jobs):
            self.left += seen.left
            self.others.update(seen.others)
            self.here += seen.count
            if seen.shut:
                self.shut.append(seen.path)
            self._sql.execute("INSERT OR IGNORE INTO walked VALUES (?)", (seen.path,))
            if not self._looks_the_same(store, seen):
                self._compare(store, root, seen.path)
        for it in store.folders():
            if self._sql.execute("SELECT 1 FROM walked WHERE path = ?", (it.path,)).fetchone() is None and not self._is_shut(it.path):
                for row in store.rows_of(it.path):
                    self._gone(row)

    def _is_shut(self, path: bytes) -> bool:
        return any(it == b"" or path == it or path.startswith(it + b"/") for it in self.shut)

    def _looks_the_same(self, store: Store, seen: Seen) -> bool:
        if seen.shut:
            return True
        if self.look.days is not None:
            return False
        held = store.folder(seen.path)
        if held is None:
            return not seen.count
        same = not held.unsure and not self.look.again & set(held.of_status) and sum_of(held.look) == (seen.count, seen.look)
        self.same += seen.count if same else 0
        return same

    def _compare(self, store: Store, root: bytes, path: bytes) -> None:
        """Each file of a folder beside its row: both are read in the order of their names, and no list of them is made."""
        self._sql.execute("DELETE FROM here")
        self._sql.executemany("INSERT OR REPLACE INTO here VALUES (?, ?, ?)", entries(root, path))
        here: "Iterator[Entry]" = iter(self._sql.execute("SELECT name, size, mtime FROM here ORDER BY name"))
        rows = store.rows_of(path)
        file, row = next(here, None), next(rows, None)
        while file is not None or row is not None:
            if row is None or (file is not None and file[0] < row.name):
                assert file is not None
                self._new(path, file)
                file = next(here, None)
            elif file is None or row.name < file[0]:
                self._gone(row)
                row = next(rows, None)
            else:
                self._known(row, file)
                file, row = next(here, None), next(rows, None)

    def _new(self, folder: bytes, file: Entry) -> None:
        self.new += 1
        if self.look.only_known:
            self.unknown.append(folder + b"/" + file[0] if folder else file[0])
            return
        self._wait(folder, file, b"")

    def _known(self, row: Row, file: Entry) -> None:
        otherwise = (row.size, row.mtime) != file[1:]
        again = otherwise or row.unsure or row.status in self.look.again
        if not again and not self._is_due(row):
            self.same += 1
            return
        if otherwise:
            self._sql.execute("INSERT OR IGNORE INTO before VALUES (?, ?, ?)", (row.sha256, row.folder, row.name))
        self._wait(row.folder, file, row.sha256)

    def _is_due(self, row: Row) -> bool:
        """Whether its last reading is so long ago. One in the future was noted by a clock that was wrong, and says nothing."""
        days = self.look.days
        return days is not None and (days <= 0 or not self._now - days * DAY < row.looked <= self._now)

    def _wait(self, folder: bytes, file: Entry, sha256: bytes) -> None:
        self.count += 1
        self.size += file[1]
        self._sql.execute("INSERT OR REPLACE INTO todo VALUES (?, ?, ?, ?, ?)", (folder, *file, sha256))

    def _gone(self, row: Row) -> None:
        self.gone += 1
        self._sql.execute("INSERT OR IGNORE INTO before VALUES (?, ?, ?)", (row.sha256, row.folder, row.name))
        self._sql.execute("INSERT OR IGNORE INTO gone VALUES (?, ?)", (row.folder, row.name))

    # what comes of it

    def tasks(self) -> "Iterator[List[One]]":
        """The files that are to be read, some at a time."""
        found = self._sql.execute("SELECT folder, name, size, sha256 FROM todo ORDER BY folder, name")
        while True:
            some = found.fetchmany(AT_ONCE)
            if not some:
                return
            yield [One(*it) for it in some]

    def had(self, sha256: bytes, folder: bytes, name: bytes) -> "Optional[Tuple[bytes, bytes, bool]]":
        """Which other file had these bytes when the manifest saw it last, and whether that is gone."""
        found = self._sql.execute("SELECT b.folder, b.name, g.name IS NOT NULL FROM before b LEFT JOIN gone g ON g.folder = b.folder AND g.name = b.name WHERE b.sha256 = ? AND NOT (b.folder = ? AND b.name = ?) ORDER BY 3 DESC", (sha256, folder, name)).fetchone()
        return None if found is None else (found[0], found[1], bool(found[2]))

    def found_again(self, folder: bytes, name: bytes) -> None:
        """A file that is gone has another name now."""
        self.gone -= 1
        self._sql.execute("DELETE FROM gone WHERE folder = ? AND name = ?", (folder, name))
        self._sql.execute("DELETE FROM before WHERE folder = ? AND name = ?", (folder, name))

    def looks_otherwise(self, row: Row) -> bool:
        """Whether a file that is there has another length or time than its row says."""
        return self._sql.execute("SELECT 1 FROM before WHERE sha256 = ? AND folder = ? AND name = ?", (row.sha256, row.folder, row.name)).fetchone() is not None

    def row_there(self, store: Store) -> "Callable[[bytes, bytes], Optional[Row]]":
        """The rows of files that are there, by folder and name."""

        def found(folder: bytes, name: bytes) -> Optional[Row]:
            gone = self._sql.execute("SELECT 1 FROM gone WHERE folder = ? AND name = ?", (folder, name)).fetchone()
            return None if gone else store.row(folder, name)

        return found

    def still_gone(self) -> "Iterator[Tuple[bytes, bytes]]":
        """The files that are gone, by folder and name."""
        return iter(self._sql.execute("SELECT folder, name FROM gone ORDER BY folder, name"))



