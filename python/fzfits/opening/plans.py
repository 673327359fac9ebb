"""What the layers give: where an HDU is, how a packed image is packed, and where the bytes of a tile are.

The names are those of the structs of include/fz.h.
"""
from __future__ import annotations

import math
from dataclasses import dataclass
from typing import Any, NamedTuple, Optional, Tuple

SORTS = ("PRIMARY", "IMAGE", "BINTABLE", "OTHER")


@dataclass(frozen=True)
class At:
    """Where an HDU begins: byte `start` of a file of `length` bytes. `after_empty`: it is HDU 1 after a primary with NAXIS 0."""

    start: int
    length: int
    hdu: int
    after_empty: bool = False


@dataclass(frozen=True)
class Said:
    """What the header of an HDU says. `sort` is one of `SORTS`, and `next_at` is where the next HDU begins, or the length of the file."""

    header_len: int
    data_at: int
    data_len: int
    next_at: int
    sort: str
    is_packed: bool
    bitpix: int
    lengths: Tuple[int, ...]
    own: Any = None  # what a layer keeps of it


class Arrays(NamedTuple):
    """A column of array descriptors: its byte in a row, whether they have 64 bits, and the bytes of an element."""

    at: int
    wide: bool
    unit: int


@dataclass(frozen=True)
class Plan:
    """How a packed image is packed, and where its table is in the file. Lengths are in the order of FITS, axis 1 first."""

    rows_at: int
    heap_at: int
    heap_len: int
    row_bytes: int
    rows: int
    coded: Optional[Arrays]
    stored: Optional[Arrays]
    gzip: Optional[Arrays]
    codec: int
    block: int
    bytepix: int
    bitpix: int
    lengths: Tuple[int, ...]
    tile: Tuple[int, ...]
    primary: bool
    own: Any = None  # what a layer keeps of it

    @property
    def most(self) -> int:
        """The pixels of the largest tile."""
        return math.prod(self.tile)


# Where the bytes of a tile are: the byte of the file at which they begin, how many there are, how many of them are read, the number of
# the column, 0 for COMPRESSED_DATA, and what a layer keeps of it. (A tuple, and no class: a line of 4,096 pixels takes 20 microseconds.)
Record = Tuple[int, int, int, int, Any]
