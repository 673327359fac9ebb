"""Which pixels the tiles of a packed image have, and boxes that are made of whole tiles: tiles are numbered as the rows of the table."""
from __future__ import annotations

import math
from typing import Iterator, List, Sequence, Tuple

from ...advice import counted

# Along each axis the first and the last of a run of tiles, or of pixels.
Spans = List[Tuple[int, int]]


def lost_of(many: int, box: str = "", article: str = "") -> str:
    """Pixels that are lost, in words.

    >>> lost_of(1024), lost_of(1, "[5:5,3:3]", "the ")
    ('1,024 pixels are lost', 'the 1 pixel [5:5,3:3] is lost')
    """
    return f"{article}{counted(many, 'pixel')}{' ' + box if box else ''} {'is' if many == 1 else 'are'} lost"


def grid_of(axes: Sequence[int], tile: Sequence[int]) -> "List[int]":
    """How many tiles there are along each axis."""
    return [-(-axis // length) for axis, length in zip(axes, tile)]


def runs(grid: Sequence[int], first: int, last: int) -> Iterator[Spans]:
    """The tiles from one number to another, both included, as boxes of tiles, in their order.

    >>> list(runs([3, 2], 1, 5))
    [[(1, 2), (0, 0)], [(0, 2), (1, 1)]]
    """
    if len(grid) == 1:
        yield [(first, last)]
        return
    below = math.prod(grid[:-1])
    low, high = first // below, last // below
    if low == high:
        for it in runs(grid[:-1], first % below, last % below):
            yield it + [(low, low)]
        return
    if first % below:
        for it in runs(grid[:-1], first % below, below - 1):
            yield it + [(low, low)]
        low += 1
    whole = high if last % below == below - 1 else high - 1
    if low <= whole:
        yield [(0, it - 1) for it in grid[:-1]] + [(low, whole)]
    if whole < high:
        for it in runs(grid[:-1], 0, last % below):
            yield it + [(high, high)]


def pixels(axes: Sequence[int], tile: Sequence[int], spans: Spans) -> Spans:
    """The pixels of a box of tiles, axis 1 first, counted from 1."""
    return [(low * length + 1, min(axis, (high + 1) * length)) for axis, length, (low, high) in zip(axes, tile, spans)]


def of_row(axes: Sequence[int], tile: Sequence[int], row: int) -> Spans:
    """The pixels of the tile of a row."""
    spans = []
    for many in grid_of(axes, tile):
        row, at = divmod(row, many)
        spans.append((at, at))
    return pixels(axes, tile, spans)


def number_of(spans: Spans) -> int:
    """How many pixels a box has."""
    return math.prod(high - low + 1 for low, high in spans)


def text_of(spans: Spans) -> str:
    """A box for people: [1:300,8:8]."""
    return "[" + ",".join(f"{low}:{high}" for low, high in spans) + "]"


def words_of(spans: Spans) -> str:
    """A box for --box."""
    return ",".join(f"{low}:{high}" for low, high in spans)
