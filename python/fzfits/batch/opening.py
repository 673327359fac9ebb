"""How a manifest is opened: what is no file of its own is not touched, and what a killed run left is repaired or read in a copy."""
from __future__ import annotations

import os
import shutil
import sqlite3
import stat
import tempfile
from typing import Optional, Tuple
from urllib.parse import quote

from . import files, inside, names

ANOTHER = ": move it away, and fzbatch pack makes a new one from the plain files and the packed files, or fzbatch rebuild from the packed files alone"
# The end of a journal that names another file, which SQLite would delete.
SUPER = bytes.fromhex("d9d505f920a163d7")
# SQLite reads these beside a database, whatever they are.
BESIDE = (b"-journal", b"-wal", b"-shm")
# What the name of the second copy has after that of the manifest.
COPY = b".copy"


class BadManifest(Exception):
    """The manifest cannot be read or written."""


def what_to_do(path: bytes, error: Exception) -> str:
    """What to do about a manifest that is damaged, or that others wrote."""
    if "STRICT" in str(error):
        return f": it needs SQLite 3.37 or later, and this Python has {sqlite3.sqlite_version}"
    if isinstance(error, sqlite3.OperationalError):
        return ""
    copy = os.path.join(os.path.dirname(path), names.COPY)
    has_copy = f"; {names.shown(copy)} is the copy that the last run made, which rebuild uses" if files.there(copy) else ""
    return ANOTHER + has_copy


def opened(path: bytes, writes: bool) -> "Tuple[sqlite3.Connection, Optional[bytes]]":
    """The database, and the folder with the copy that is read in its place, if it cannot be written.

    A journal that a killed run left is played back, which writes: so the database is opened to be written, or a copy is.
    """
    folder = os.path.dirname(path) or b"."
    try:
        _check(path, writes)
        room = None
        if not (os.access(folder, os.W_OK | os.X_OK) and (not files.there(path) or os.access(path, os.W_OK))):
            if writes:
                raise OSError(13, "Permission denied")
            room, path = _copy(path)
        sql = sqlite3.connect(f"file:{quote(os.path.abspath(path))}?mode={'rwc' if writes else 'rw'}", uri=True, timeout=30, isolation_level="IMMEDIATE")
    except (sqlite3.Error, OSError) as error:
        said = error.strerror or str(error) if isinstance(error, OSError) else str(error)
        raise BadManifest(f"the manifest {names.shown(path)}: {said}") from error
    for it in ("trusted_schema = OFF", "cell_size_check = ON", "mmap_size = 0", "temp_store = MEMORY", "synchronous = FULL", "journal_mode = DELETE"):
        try:
            sql.execute(f"PRAGMA {it}").fetchall()
        except (sqlite3.Error, ValueError):
            # a file that is no database is found to be none by the first look at its tables
            break
    sql.enable_load_extension(False) if hasattr(sql, "enable_load_extension") else None
    return sql, room


def closed(room: Optional[bytes]) -> None:
    """Removes the copy that was read."""
    if room is not None:
        shutil.rmtree(room, ignore_errors=True)


def _check(path: bytes, writes: bool) -> None:
    """Raises `BadManifest` for what SQLite would follow, make or delete outside: links, and journals that name other files."""
    is_new = not files.there(path)
    if not is_new:
        inside.is_own(path)
        with open(path, "rb") as file:
            head = file.read(100)
        if not head and files.there(path + COPY):
            raise BadManifest(f"the manifest {names.shown(path)} is empty, and its second copy is there: a full disk or a loss of power may have emptied it. Move it away, and start this again, which says what the copy is good for")
        if len(head) >= 20 and head[:16] == b"SQLite format 3\0" and head[18:20] != b"\1\1":
            raise BadManifest(f"the manifest {names.shown(path)} has a form that fzbatch does not write (a log beside it){ANOTHER}")
    for it in BESIDE:
        beside = path + it
        if not files.there(beside):
            continue
        if it != b"-journal" or is_new:
            raise BadManifest(f"{names.shown(beside)} is there, which fzbatch does not make without a manifest: find out what it is, and move it away")
        inside.is_own(beside)
        _check_journal(beside)
    if is_new and writes:
        rights = stat.S_IMODE(os.stat(os.path.dirname(path) or b".").st_mode) & 0o666
        number = inside.own(path, os.O_RDWR | os.O_CREAT | os.O_EXCL, rights)
        files.set_rights(number, rights)
        os.close(number)


def _check_journal(path: bytes) -> None:
    with open(path, "rb") as it:
        it.seek(max(0, os.fstat(it.fileno()).st_size - 8))
        # SQLite looks for a name at the end of the file, and there is none in a journal of one database
        if it.read(8) == SUPER:
            raise BadManifest(f"{names.shown(path)} names another file, which fzbatch never writes: move it away")


def _copy(path: bytes) -> "Tuple[bytes, bytes]":
    room = os.fsencode(tempfile.mkdtemp(prefix="fzbatch-manifest-"))
    try:
        for it in (b"", b"-journal"):
            if files.there(path + it):
                shutil.copyfile(path + it, os.path.join(room, b"copy" + it), follow_symlinks=False)
    except BaseException:
        shutil.rmtree(room, ignore_errors=True)
        raise
    return room, os.path.join(room, b"copy")
