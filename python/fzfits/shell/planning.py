"""`fzfits plan`."""
from __future__ import annotations

import argparse
from typing import Sequence

from ..errors import shown
from ..plan import Try, plan
from ..readers import READERS
from . import told


def row_of(it: Try) -> "tuple[str, ...]":
    """One way to pack as a row of the table."""
    tile = ",".join(map(str, it.tile)) or "row"
    if it.refused:
        return (it.codec, "-", "-", "-", "-", f"rejected: {it.refused}")
    lacks = [one for one in READERS if one not in it.by]
    return (it.codec, tile, f"{it.size:,}", f"{it.ratio:.2f}", f"{it.stored} of {it.tiles}", f"all but {', '.join(lacks)}" if lacks else "all")


def best_of(tries: Sequence[Try]) -> "Try | None":
    """The smallest file, of those that the most readers read."""
    done = [it for it in tries if not it.refused]
    return min(done, key=lambda it: (-len(it.by), it.size)) if done else None


def plan_file(path: str, _asked: argparse.Namespace) -> int:
    """Tries codecs and tiles on one file, and prints what each makes of it."""
    tries = plan(path)
    best = best_of(tries)
    if best is None:
        raise ValueError(f"no codec packs it: fzfits why {told.name(path)} says why")
    print(f"{shown(path)}: {best.source_size:,} bytes; readers: {', '.join(READERS)}")
    print(told.table([("CODEC", "TILE", "BYTES", "RATIO", "STORED TILES", "READ BY"), *map(row_of, tries)]))
    words = (f" --codec {best.codec}" if best.codec != "rice" else "") + (f" --tile {','.join(map(str, best.tile))}" if best.tile else "")
    print(f"smallest of those that the most readers read: fzfits pack{words} {told.name(path)}")
    return 0
