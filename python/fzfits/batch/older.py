"""Whether a manifest is older than its second copy, or that of another archive: then nothing is called well by it.

The copy is written after the manifest, so it knows no run, and no end of a run, that the manifest does not, unless a backup of the
manifest alone came back.
"""
from __future__ import annotations

import os
import sqlite3
from typing import Any, Callable, Iterable, Optional, Tuple
from urllib.parse import quote

from . import checks, inside, names
from .layout import SCHEMAS
from .manifest import BadManifest, Manifest

# A file with more runs is none that fzbatch wrote in this life of a disk.
MOST = 1_000_000
# The token of a run, and whether it is its end that is known.
Known = Tuple[str, bool]


def runs_of(path: bytes, check_tables: "Callable[[sqlite3.Connection], None]") -> "set[Known]":
    """The runs that a second copy knows; none if there is no copy, or one of no use. Nothing is written, also no journal."""
    sql: Optional[sqlite3.Connection] = None
    try:
        if not inside.is_own(path):
            return set()
        sql = sqlite3.connect(f"file:{quote(os.path.abspath(path))}?mode=ro&immutable=1", uri=True)
        for it in ("trusted_schema = OFF", "cell_size_check = ON", "mmap_size = 0"):
            sql.execute(f"PRAGMA {it}").fetchall()
        check_tables(sql)
        return known(sql.execute(f"SELECT token, ended FROM runs LIMIT {MOST}"))
    except (sqlite3.Error, checks.Odd, ValueError, OSError):
        return set()
    finally:
        if sql is not None:
            sql.close()


def known(runs: "Iterable[Tuple[Any, Any]]") -> "set[Known]":
    """What is known of runs, by their tokens and when they ended: that they began, and of those that did that they ended."""
    return {(token, over) for token, ended in runs if isinstance(token, str) for over in ((False, True) if ended is not None else (False,))}


def is_older(manifest: Manifest, packed: bytes) -> bool:
    """Whether the second copy knows a run, or the end of one, that the manifest does not."""
    copy = runs_of(os.path.join(packed, names.COPY), lambda sql: checks.check_tables(sql, SCHEMAS))
    return not copy <= known((it[0], it[5]) for it in manifest.runs())


def check(manifest: Manifest, packed: bytes) -> None:
    """Raises `BadManifest` if the manifest is older than its second copy."""
    if is_older(manifest, packed):
        copy = names.shown(os.path.join(packed, names.COPY))
        said = f"the manifest {names.shown(manifest.path)} is an older one, or that of another archive: {copy}, its second copy, knows later runs"
        raise BadManifest(f"{said}. fzbatch rebuild makes it again from the copy and the packed files; if the copy is the wrong one, move it away")
