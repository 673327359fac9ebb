"""The tables of a manifest, by their columns, and what it says of one file."""
from __future__ import annotations

import sqlite3
from dataclasses import dataclass, fields
from operator import attrgetter
from typing import Optional

VERSION = 2
DONE = ("packed", "copied")
STRICT = sqlite3.sqlite_version_info >= (3, 37)

COLUMNS_OF = {
    "facts": "name TEXT PRIMARY KEY, value ANY",
    "files": """path BLOB PRIMARY KEY,
    size INTEGER, mtime INTEGER, mode INTEGER, looked INTEGER, sha256 TEXT,
    packed_size INTEGER, packed_mtime INTEGER, packed_sha256 TEXT,
    status TEXT NOT NULL, kind INTEGER, cause TEXT NOT NULL, line TEXT NOT NULL, advice TEXT NOT NULL, fault TEXT NOT NULL,
    program TEXT NOT NULL, options TEXT NOT NULL, wrong_sums INTEGER NOT NULL, sums_line TEXT NOT NULL, seconds REAL NOT NULL,
    packed_at TEXT NOT NULL, checked_at TEXT NOT NULL, check_line TEXT NOT NULL, hash BLOB NOT NULL""",
    "left_out": "path BLOB PRIMARY KEY, why TEXT NOT NULL, advice TEXT NOT NULL",
    "others": "suffix TEXT PRIMARY KEY, count INTEGER NOT NULL",
    "runs": "token TEXT PRIMARY KEY, verb TEXT NOT NULL, host TEXT NOT NULL, process INTEGER NOT NULL, began TEXT NOT NULL, ended TEXT, said TEXT",
    "seal": "name TEXT PRIMARY KEY, value TEXT NOT NULL",
}


def _schema(strict: bool) -> dict[str, str]:
    end = ") WITHOUT ROWID, STRICT" if strict else ") WITHOUT ROWID"
    return {name: f"CREATE TABLE {name} ({columns if strict else columns.replace(' ANY', '')}{end}" for name, columns in COLUMNS_OF.items()}


SCHEMAS = (_schema(True), _schema(False))


@dataclass
class Row:
    """What the manifest says of one file; the fields are the columns of the table `files`, but for the hash.

    The first five are of the plain file: its path, size, time in nanoseconds, rights, and when it was read. `sha256` is that of the
    plain file before it was packed. `status` is packed, copied (it had nothing to pack), refused or failed. `fault` is what was
    found later of a packed file; `wrong_sums` is 1 if the plain file has a wrong DATASUM or CHECKSUM, which were accepted.
    """

    path: bytes
    size: Optional[int] = None
    mtime: Optional[int] = None
    mode: Optional[int] = None
    looked: Optional[int] = None
    sha256: Optional[str] = None
    packed_size: Optional[int] = None
    packed_mtime: Optional[int] = None
    packed_sha256: Optional[str] = None
    status: str = ""
    kind: Optional[int] = None
    cause: str = ""
    line: str = ""
    advice: str = ""
    fault: str = ""
    program: str = ""
    options: str = ""
    wrong_sums: int = 0
    sums_line: str = ""
    seconds: float = 0.0
    packed_at: str = ""
    checked_at: str = ""
    check_line: str = ""

    @property
    def done(self) -> bool:
        """Whether it has a packed file, as far as the manifest knows."""
        return self.status in DONE

    @property
    def unsure(self) -> bool:
        """Whether the plain file may be another one with the same time: it was read so soon after it was written, or its time is not known."""
        return self.mtime is None or self.looked is None or self.mtime > self.looked - 2_000_000_000


COLUMNS = tuple(it.name for it in fields(Row))
VALUES = attrgetter(*COLUMNS)
PUT = f"INSERT OR REPLACE INTO files ({', '.join(COLUMNS)}, hash) VALUES ({', '.join('?' * (len(COLUMNS) + 1))})"
