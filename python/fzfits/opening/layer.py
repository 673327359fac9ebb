"""The layer that knows what a file means: it gives plans of HDUs, records of rows and pixels of tiles, and reads no file.

It has two bodies: `by_library`, if libfz has the calls for packed images (`fz_plan`, `fz_row`, `fz_tile`), and otherwise `by_python`,
which reads headers and rows in Python and decodes tiles by `fz_decode_tile`. Both give and refuse the same.
"""
from __future__ import annotations

from functools import lru_cache
from typing import Callable, List, Optional, Protocol, Sequence, Tuple

from .. import errors
from ..library import load
from .faults import Fault
from .plans import At, Plan, Record, Said

# Decodes a tile by its record into so many 32-bit numbers at an address. Answers 0, or minus the number of the kind that it refuses.
Decoder = Callable[[int, Record, int, int], int]


class Layer(Protocol):
    """What both bodies do. A `Fault` says what is refused."""

    def more(self, front: bytes, at: At) -> int:
        """How many bytes of the header of an HDU are wanted after those of `front`; 0 if it is whole."""

    def said(self, front: bytes, at: At) -> Said:
        """What a whole header says."""

    def plan(self, front: bytes, at: At, said: Said) -> Plan:
        """The plan of the packed image of an HDU, of which `said` is what the header says."""

    def records(self, plan: Plan, tiles: Sequence[int], pixels: Sequence[int], rows: bytes, first: int) -> Tuple[List[Record], Optional[Fault]]:
        """Where the bytes of these tiles are, which have so many pixels each, up to the first whose row is refused. `rows` begin with row `first`."""

    def decoder(self, plan: Plan, base: int) -> Decoder:
        """What decodes tiles, of which byte 0 of the file would be at the address `base`."""


@lru_cache(maxsize=None)
def layer() -> Layer:
    """The body that this machine has."""
    from . import by_library, by_python  # pylint: disable=import-outside-toplevel

    try:
        return by_library.ByLibrary(load())
    except (errors.NoLibrary, AttributeError):
        return by_python.ByPython()
