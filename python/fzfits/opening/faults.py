"""Why an HDU is refused, and where: the faults that fz names, as they are found, and as the error `Refused` that a caller gets."""
from __future__ import annotations

from enum import IntEnum
from typing import Optional

from .. import refusals
from ..errors import Refused
from ..headers import Header, Name
from ..results import Place


class Kind(IntEnum):
    """The kinds of refusal that a reader comes to, by their numbers in docs/REFUSALS.md."""

    NotFits = 1
    Truncated = 2
    LongHeader = 3
    BadCard = 4
    Duplicate = 5
    TrailingBytes = 8
    Limit = 11
    Groups = 12
    UnknownCodec = 13
    Quantised = 14
    CompressedTable = 15
    BadTable = 16
    RowCount = 17
    DescriptorRange = 18
    TileMissing = 19
    GzipTile = 20
    CodeShort = 21
    CodeValue = 22
    LineList = 23
    PixelRange = 24
    TileSize = 25
    MisplacedPrimary = 26
    NotPacked = 27
    PlioOffset = 29


class Fault(Exception):
    """A fault of an HDU: its kind, and the byte of the file, the card of the header or the row of the table that has it."""

    def __init__(self, kind: int, unit: str, place: int) -> None:
        super().__init__(kind, unit, place)
        self.kind, self.unit, self.place = Kind(kind), unit, place


def at_card(kind: Kind, index: int) -> Fault:
    """A fault of the card with this index."""
    return Fault(kind, "card", index)


def refused(fault: Fault, hdu: int, name: Optional[Name], header: Optional[Header] = None, advice: str = "") -> Refused:
    """The error for a fault of this HDU of the file, with the card that is at fault if the header is known."""
    told = refusals.kind(int(fault.kind))
    error = Refused(fault.kind.name, int(fault.kind), hdu, Place(fault.unit, fault.place), path=name, command="open")
    error.meaning = f"{told.text} {told.common}".strip() if told else ""
    error.advice = advice
    if header is not None and fault.unit == "card" and fault.place < len(header.cards):
        error.card = header.cards[fault.place]
    codec = header.value("ZCMPTYPE") if header is not None and header.is_packed else None
    error.codec = codec if isinstance(codec, str) else None
    return error
