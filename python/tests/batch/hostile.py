"""Folders of packed files that others made: what each of them tries, for the tests and for tools/check_archive.

`reseal` gives a manifest the hashes and sums of what is in it, as somebody who knows how fzbatch makes them can do.
"""
from __future__ import annotations

import base64
import contextlib
import hashlib
import json
import os
import shutil
import sqlite3
from pathlib import Path
from typing import Callable, Dict

WIDE = 1 << 256
ESCAPE = "\x1b]0;title\x07\x1b[2J"


def hash_of(table: str, values) -> bytes:
    return hashlib.sha256(ascii((table, *values)).encode()).digest()


def reseal(manifest: Path) -> None:
    """Makes the hashes of a manifest right again; a manifest without hashes stays as it is."""
    sql = sqlite3.connect(manifest)
    columns = [it[1] for it in sql.execute("PRAGMA table_info(files)")]
    if "hash" in columns:
        plain = [it for it in columns if it != "hash"]
        total = count = 0
        for row in sql.execute(f"SELECT {', '.join(plain)} FROM files").fetchall():
            digest = hash_of("files", row)
            sql.execute("UPDATE files SET hash = ? WHERE path IS ?", (digest, row[0]))
            total, count = (total + int.from_bytes(digest, "big")) % WIDE, count + 1
        rest = others = 0
        for table in ("facts", "left_out", "others", "runs"):
            for row in sql.execute(f"SELECT * FROM {table}").fetchall():
                rest, others = (rest + int.from_bytes(hash_of(table, row), "big")) % WIDE, others + 1
        sql.execute("UPDATE seal SET value = ? WHERE name = 'files'", (f"{count} {total:064x}",))
        sql.execute("UPDATE seal SET value = ? WHERE name = 'rest'", (f"{others} {rest:064x}",))
    sql.commit()
    sql.close()


def change(packed: Path, *statements: "str | tuple[str, tuple]") -> None:
    """Changes a manifest by SQL, past all checks, and makes its hashes right."""
    path = packed / "fzbatch.sqlite"
    with contextlib.closing(sqlite3.connect(path)) as sql:
        sql.execute("PRAGMA writable_schema = ON")
        for it in statements:
            sql.execute(*((it,) if isinstance(it, str) else it))
        sql.commit()
    reseal(path)


def loose(packed: Path) -> None:
    """Makes the tables of a manifest take values of every type."""
    path = packed / "fzbatch.sqlite"
    sql = sqlite3.connect(path)
    sql.execute("PRAGMA writable_schema = ON")
    sql.execute("UPDATE sqlite_master SET sql = replace(sql, ', STRICT', '')")
    sql.execute("UPDATE sqlite_master SET sql = replace(sql, ' ANY', '')")
    sql.commit()
    sql.close()


def renamed(path: bytes) -> Callable[[Path, Path], None]:
    """A row gets another path, and so does its packed file if it can have it."""

    def make(packed: Path, _: Path) -> None:
        change(packed, ("UPDATE files SET path = ? WHERE path = ?", (path, b"a.fits")))

    return make


def link_to(name: str) -> Callable[[Path, Path], None]:
    """A name of PACKED is a link to a file of somebody."""

    def make(packed: Path, victim: Path) -> None:
        (packed / name).unlink(missing_ok=True)
        os.symlink(victim / "precious", packed / name)

    return make


def hard_link_to(name: str) -> Callable[[Path, Path], None]:
    """A name of PACKED is a second name of a file of somebody."""

    def make(packed: Path, victim: Path) -> None:
        (packed / name).unlink(missing_ok=True)
        os.link(victim / "precious", packed / name)

    return make


def fifo(name: str) -> Callable[[Path, Path], None]:
    """A name of PACKED is a pipe, on which a program could wait for ever."""

    def make(packed: Path, _: Path) -> None:
        (packed / name).unlink(missing_ok=True)
        os.mkfifo(packed / name)

    return make


def folder_link(packed: Path, victim: Path) -> None:
    """A folder of PACKED is a link to one outside."""
    shutil.rmtree(packed / "n")
    os.symlink(victim, packed / "n")


def results_link(packed: Path, victim: Path) -> None:
    """The folder of results is a link, and tasks wait."""
    tasks(packed, victim)
    shutil.rmtree(packed / "fzbatch.results", ignore_errors=True)
    os.symlink(victim, packed / "fzbatch.results")


def word(values: Dict[str, object]) -> str:
    plain = {name: {"b": base64.b64encode(it).decode()} if isinstance(it, bytes) else it for name, it in values.items()}
    return base64.urlsafe_b64encode(json.dumps(plain).encode()).decode()


def tasks(packed: Path, victim: Path) -> None:
    """Tasks of a Slurm array that name a program of their own and a folder of somebody."""
    (victim / "evil").write_text(f"#!/bin/sh\ntouch '{victim}/ran'\n")
    (victim / "evil").chmod(0o755)
    settings = {"verb": "restore", "plain": os.fsencode(victim), "packed": os.fsencode(packed), "token": "0" * 16, "program": str(victim / "evil"), "identity": "x"}
    task = {"path": b"../x.fits", "number": 0, "sha256": "0" * 64, "packed_sha256": "0" * 64}
    (packed / "fzbatch.results").mkdir(exist_ok=True)
    (packed / "fzbatch.results" / ("0" * 16 + ".0.a.1")).write_text("x\n")
    (packed / "fzbatch.tasks").write_text(word(settings) + "\n" + word(task) + "\n")


def super_journal(packed: Path, victim: Path) -> None:
    """A journal that names another file, which SQLite would delete once the journal is played back."""
    name = os.fsencode(victim / "precious") + b"\0"
    total = sum(name) & 0xFFFFFFFF
    page = (1).to_bytes(4, "big")
    head = bytes.fromhex("d9d505f920a163d7") + (0).to_bytes(4, "big") + bytes(4) + (1).to_bytes(4, "big") + (512).to_bytes(4, "big") + (4096).to_bytes(4, "big")
    end = page + name + len(name).to_bytes(4, "big") + total.to_bytes(4, "big") + bytes.fromhex("d9d505f920a163d7")
    (packed / "fzbatch.sqlite-journal").write_bytes(head.ljust(512, b"\0") + end)


def scratch(packed: Path, victim: Path) -> None:
    """The runs name a folder of TMPDIR that another program made."""
    change(packed, "INSERT OR REPLACE INTO runs VALUES ('theirs', 'pack', 'h', 1, '2026-01-01T00:00:00Z', NULL, NULL)")


def scratch_of_form(packed: Path, victim: Path) -> None:
    """The same, with a name that a folder of fzbatch may have."""
    change(packed, "INSERT OR REPLACE INTO runs VALUES ('0123456789abcdef', 'pack', 'h', 1, '2026-01-01T00:00:00Z', NULL, NULL)")


def view(packed: Path, _: Path) -> None:
    """The table of the files is a view that never ends."""
    change_schema(packed, "ALTER TABLE files RENAME TO kept", "CREATE VIEW files AS WITH RECURSIVE n(x) AS (SELECT 1 UNION ALL SELECT x + 1 FROM n) SELECT kept.* FROM n, kept")


def trigger(packed: Path, _: Path) -> None:
    """A trigger takes all rows away when a run is noted."""
    change_schema(packed, "CREATE TRIGGER t AFTER INSERT ON runs BEGIN DELETE FROM files; END")


def change_schema(packed: Path, *statements: str) -> None:
    sql = sqlite3.connect(packed / "fzbatch.sqlite")
    for it in statements:
        sql.execute(it)
    sql.commit()
    sql.close()


def typed(column: str, value: object) -> Callable[[Path, Path], None]:
    """A value of another type or form than fzbatch writes."""

    def make(packed: Path, _: Path) -> None:
        loose(packed)
        change(packed, (f"UPDATE files SET {column} = ? WHERE path IS (SELECT min(path) FROM files)", (value,)))

    return make


def fact(name: str, value: object) -> Callable[[Path, Path], None]:
    def make(packed: Path, _: Path) -> None:
        loose(packed)
        change(packed, ("INSERT OR REPLACE INTO facts VALUES (?, ?)", (name, value)))

    return make


def run_of(**fields: object) -> Callable[[Path, Path], None]:
    """A run with such fields."""
    row = {"token": "fedcba9876543210", "verb": "pack", "host": "h", "process": 1, "began": "2026-01-01T00:00:00Z", "ended": None, "said": None, **fields}

    def make(packed: Path, _: Path) -> None:
        loose(packed)
        change(packed, ("INSERT OR REPLACE INTO runs VALUES (?, ?, ?, ?, ?, ?, ?)", tuple(row.values())))

    return make


def lock_text(packed: Path, _: Path) -> None:
    """The lock has text that would control a terminal."""
    (packed / "fzbatch.lock").write_text(ESCAPE)


def garbage(packed: Path, _: Path) -> None:
    (packed / "fzbatch.sqlite").write_bytes(b"garbage" * 999)


def write_ahead(packed: Path, victim: Path) -> None:
    """The manifest says that it has a log beside it, which is a link."""
    path = packed / "fzbatch.sqlite"
    data = bytearray(path.read_bytes())
    data[18:20] = b"\2\2"
    path.write_bytes(data)
    for it in ("-wal", "-shm"):
        os.symlink(victim / "precious", packed / f"fzbatch.sqlite{it}")


# What others may have made of PACKED, by the name of the case.
CASES: Dict[str, Callable[[Path, Path], None]] = {
    **{f"{name} is a link": link_to(name) for name in ("fzbatch.lock", "fzbatch.sqlite", "fzbatch.sqlite-journal", "fzbatch.sqlite.copy", "SHA256SUMS", "fzbatch.tasks", "fzbatch.tasks.new", "a.fits.fz")},
    **{f"{name} is a hard link": hard_link_to(name) for name in ("fzbatch.lock", "fzbatch.sqlite-journal", "SHA256SUMS", "fzbatch.tasks.new")},
    **{f"{name} is a pipe": fifo(name) for name in ("fzbatch.lock", "fzbatch.sqlite", "fzbatch.sqlite-journal", "fzbatch.sqlite.copy", "SHA256SUMS", "fzbatch.tasks", "a.fits.fz")},
    "a folder is a link": folder_link,
    "the folder of results is a link": results_link,
    "tasks name a program": tasks,
    "a journal names another file": super_journal,
    "a run names a folder of another program": scratch,
    "a run names a folder of its form": scratch_of_form,
    "a view never ends": view,
    "a trigger": trigger,
    "the lock has escapes": lock_text,
    "no database": garbage,
    "a log beside the manifest": write_ahead,
    "a path leads out": renamed(b"../out.fits"),
    "a path leads out below": renamed(b"n/../../out.fits"),
    "a path is absolute": renamed(b"/tmp/fzbatch-hostile.fits"),
    "a path has a zero byte": renamed(b"a\0.fits"),
    "a path has an empty part": renamed(b"n//a.fits"),
    "a path is no FITS name": renamed(b".bash_profile"),
    "a path is text": typed("path", "a.fits"),
    "a source is a number": fact("source", 7),
    "a source has a zero byte": fact("source", b"/a\0b"),
    "a version is text": fact("version", "2"),
    "escapes in a line": typed("line", ESCAPE),
    "escapes in a cause": typed("cause", "<script>alert(1)</script>" + ESCAPE),
    "escapes in a run": run_of(host=ESCAPE, began="<script>alert(1)</script>"),
    "a script in a run": run_of(process="<script>alert(1)</script>"),
    "a script in what a run said": run_of(ended="2026-01-01T00:00:00Z", said="<script>alert(1)</script>"),
}
# Values of other types or forms than fzbatch writes.
COLUMNS = ("size", "mtime", "packed_size", "sha256", "packed_sha256", "status", "seconds", "wrong_sums", "packed_at", "fault")
TYPES = {f"{column} is {value!r:.20}": typed(column, value) for column in COLUMNS for value in ("x\0y", b"\xff", -1 << 62, 1e300)}
