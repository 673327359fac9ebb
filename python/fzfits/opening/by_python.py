"""Headers and rows read in Python, with the checks of `fz`, and tiles decoded by `fz_decode_tile` of libfz."""
from __future__ import annotations

from typing import Any, List, Optional, Sequence, Tuple

from ..library import load
from . import fronts, images, rows
from .faults import Fault
from .layer import Decoder
from .plans import At, Plan, Record, Said


class ByPython:
    """The layer over the calls that every libfz has. It is loaded when the first tile is decoded."""

    def __init__(self) -> None:
        self.call: Optional[Any] = None

    def more(self, front: bytes, at: At) -> int:
        """How many bytes of the header are wanted after those of `front`."""
        return fronts.more_of(front, at)

    def said(self, front: bytes, at: At) -> Said:
        """What a whole header says."""
        return fronts.said_of(front, at)

    def plan(self, front: bytes, at: At, said: Said) -> Plan:
        """The plan of the packed image of an HDU."""
        return images.plan_of(said.own, said, at)

    def records(self, plan: Plan, tiles: Sequence[int], pixels: Sequence[int], table: bytes, first: int) -> Tuple[List[Record], Optional[Fault]]:
        """Where the bytes of these tiles are."""
        return rows.records_of(plan, tiles, pixels, table, first)

    def decoder(self, plan: Plan, base: int) -> Decoder:
        """What decodes tiles."""
        if self.call is None:
            self.call = load().fz_decode_tile
        call: Any = self.call
        codec, block, bytepix, bitpix = plan.codec, plan.block, plan.bytepix, plan.bitpix

        def decode(_: int, record: Record, numbers: int, places: int) -> int:
            start, total, read, column, _ = record
            return call(codec, block, bytepix, bitpix, column, base + start, read, total, numbers, places)  # type: ignore[no-any-return]

        return decode
