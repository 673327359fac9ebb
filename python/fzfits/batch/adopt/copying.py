"""The second copy of a large manifest: only the rows of the folders that changed are written into it, in one transaction.

The copy has a journal of its own meanwhile, as the manifest has: if the run is killed, whoever opens the copy next has it as it was before.
"""
from __future__ import annotations

import os
import sqlite3
from typing import List
from urllib.parse import quote

from .. import files, opening
from ..checks import Odd
from ..opening import BadManifest
from . import forms
from .lists import is_due

SMALL = ("facts", "left_out", "others", "runs", "seal")
CHANGED = "SELECT path FROM (SELECT path, hash FROM of.folders EXCEPT SELECT path, hash FROM main.folders)"
GONE = "SELECT path FROM main.folders EXCEPT SELECT path FROM of.folders"
DIFFERS = "SELECT 1 FROM (SELECT * FROM of.files WHERE folder = ?1 EXCEPT SELECT * FROM main.files WHERE folder = ?1) LIMIT 1"
JOURNAL = b"-journal"


def follow(path: bytes, copy: bytes, run: int) -> bool:
    """Brings the second copy up to the manifest. False if there is no copy, if it is damaged, or if most of it is to be written: then it is to be made anew."""
    if not files.there(copy) or not os.stat(copy).st_size:
        return False
    try:
        sql, room = opening.opened(copy, True)
    except BadManifest:
        return False
    try:
        forms.check_tables(sql)
        sql.execute("ATTACH ? AS of", (f"file:{quote(os.path.abspath(path))}?mode=ro",))
        sql.execute("BEGIN IMMEDIATE")
        changed = _changed(sql, run)
        if changed is None:
            sql.rollback()
            return False
        _write(sql, changed)
        sql.commit()
    except (sqlite3.Error, Odd, ValueError):
        return False
    finally:
        sql.close()
        opening.closed(room)
    # also if nothing was written: it is not older than the manifest
    os.utime(copy)
    return True


def _changed(sql: sqlite3.Connection, run: int) -> "List[bytes] | None":
    """The folders whose rows are others than in the copy; of those that look the same some are compared, in turns. None if these are most."""
    changed = [it for (it,) in sql.execute(CHANGED)] + [it for (it,) in sql.execute(GONE)]
    if 2 * len(changed) > sql.execute("SELECT count(*) FROM of.folders").fetchone()[0]:
        return None
    known = set(changed)
    due = [it for (it,) in sql.execute("SELECT path FROM of.folders") if it not in known and is_due(it, run)]
    return changed + [it for it in due if sql.execute(DIFFERS, (it,)).fetchone() is not None]


def _write(sql: sqlite3.Connection, changed: "List[bytes]") -> None:
    for it in changed:
        for table, column in (("files", "folder"), ("folders", "path")):
            sql.execute(f"DELETE FROM main.{table} WHERE {column} = ?", (it,))
            sql.execute(f"INSERT INTO main.{table} SELECT * FROM of.{table} WHERE {column} = ?", (it,))
    for table in SMALL:
        sql.execute(f"DELETE FROM main.{table}")
        sql.execute(f"INSERT INTO main.{table} SELECT * FROM of.{table}")


def settle(copy: bytes) -> None:
    """Ends what a killed run was writing into the copy, so that it is whole by itself. The copy may be none of ours: then nothing is done."""
    if not files.there(copy + JOURNAL):
        return
    try:
        sql, room = opening.opened(copy, True)
    except BadManifest:
        return
    try:
        sql.execute("SELECT count(*) FROM sqlite_master").fetchone()
    except sqlite3.Error:
        pass
    finally:
        sql.close()
        opening.closed(room)
