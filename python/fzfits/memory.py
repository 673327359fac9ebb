"""How much `--memory` a job can need at most, from the headers of its file.

The program promises this bound (see MEMORY in `man fz`): with H bytes of the longest header, n pixels of the largest tile and W
workers, its buffers have together at most 2H + 5,760 + 2W(16n + 64) + 65,536 bytes.
"""
from __future__ import annotations

import math
from typing import Optional, Sequence, Tuple

from .headers import Header, Name, headers


def bound(longest_header: int, largest_tile: int, workers: int = 1) -> int:
    """The most bytes of buffers, for a header of so many bytes, a tile of so many pixels, and so many workers.

    >>> bound(2880, 4096)
    208256
    """
    return 2 * longest_header + 5760 + 2 * workers * (16 * largest_tile + 64) + 65536


def tile_for(axes: Sequence[int], tile: Optional[Sequence[int]] = None) -> Tuple[int, ...]:
    """The tile that `pack` makes: each length at most that of its axis, and 1 along axes without one; a row if none is given."""
    asked = list(tile) if tile else [axes[0]]
    return tuple(min(axis, length) for axis, length in zip(axes, asked + [1] * len(axes)))


def pixels_of(header: Header, command: str, tile: Optional[Sequence[int]]) -> int:
    """The pixels of the largest tile that the command works on in this HDU."""
    packed = math.prod(header.tile) if header.is_packed and header.axes else 0
    if command == "pack":
        return math.prod(tile_for(header.axes, tile)) if header.is_packable else 0
    if command == "retile" and (header.is_packed or header.is_packable) and header.axes:
        return max(packed, math.prod(tile_for(header.axes, tile)))
    return packed


def enough(
    path: Name,
    command: str = "unpack",
    *,
    tile: Optional[Sequence[int]] = None,
    workers: int = 1,
    hdu: Optional[int] = None,
    patch: Optional[Name] = None,
) -> Optional[int]:
    """A value of `--memory` with which the command does not end with `over limit`, or None if no header of the file can be read.

    It is the bound for this file and these options; the job may need less. `verify` and `patch` have one worker. `cut` looks at
    the headers up to its image only, and `patch` also at the first header of the file `patch`.
    """
    longest = largest = 0
    for it in headers(path):
        longest = max(longest, it.length)
        wanted = command not in ("cut", "patch") or (it.number == hdu if hdu is not None else it.is_packed)
        largest = max(largest, pixels_of(it, command, tile) if wanted else 0)
        if command == "cut" and wanted:
            break
    if longest == 0:
        return None
    if patch is not None:
        longest = max(longest, next((it.length for it in headers(patch)), 0))
    return bound(longest, largest, 1 if command in ("verify", "patch", "list") else workers)
