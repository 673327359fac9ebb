"""The checks that every header passes (1 to 14 of docs/FORMAT.md, section 10), as `fz` makes them."""
from __future__ import annotations

import math
from typing import Optional, Tuple

from .cards import CARD, Cards, keyword
from .faults import Fault, Kind, at_card
from .plans import At, Said

BLOCK = 2880
MOST_BLOCKS = 256
MOST_HDUS = 65_536
MOST_AXES = 9
MOST_LENGTH = 2_147_483_647
MOST_BYTES = 1 << 62
END = b"END     "
BITS = (8, 16, 32, 64, -32, -64)


def more_of(front: bytes, at: At) -> int:
    """How many bytes of the header are wanted after those of `front`; 0 if it is whole. `front` is in the file."""
    if len(front) < BLOCK:
        check_begin(front, at)
    blocks = len(front) // BLOCK
    if end_of(front, at, blocks) is not None:
        return 0
    check_block(at, blocks)
    return BLOCK * (blocks + 1) - len(front)


def check_begin(front: bytes, at: At) -> None:
    """An HDU may begin here: it is not one too many, and an extension begins with XTENSION."""
    if at.hdu >= MOST_HDUS:
        raise Fault(Kind.Limit, "byte", at.start)
    if at.hdu > 0 and (at.length - at.start < 8 or len(front) >= 8 and front[:8] != b"XTENSION"):
        raise Fault(Kind.TrailingBytes, "byte", at.start)


def check_block(at: At, number: int) -> None:
    """The header may have a block of this number, and the file has it."""
    if number >= MOST_BLOCKS:
        raise Fault(Kind.LongHeader, "byte", at.start)
    if at.start + BLOCK * (number + 1) > at.length:
        raise Fault(Kind.Truncated, "byte", at.length)


def end_of(front: bytes, at: At, blocks: int) -> Optional[int]:
    """The index of END among the cards of the first blocks, or None. The first block is looked at as `fz` does."""
    if blocks == 0:
        return None
    check_begin(front, at)
    if at.hdu == 0 and not (front.startswith(b"SIMPLE  ") and Cards(front, 1).is_true(0)):
        raise at_card(Kind.NotFits, 0)
    place = front.find(END)
    last = BLOCK * min(blocks, MOST_BLOCKS)
    while 0 <= place < last and place % CARD:
        place = front.find(END, place + 1)
    return place // CARD if 0 <= place < last else None


def said_of(front: bytes, at: At) -> Said:
    """What the header says, and its cards."""
    end = end_of(front, at, len(front) // BLOCK)
    if end is None:
        raise ValueError("the header goes on after these bytes")
    cards = Cards(front, end)
    bitpix, lengths, (pcount, gcount) = mandatory(cards, at.hdu)
    if at.hdu == 0 and lengths and lengths[0] == 0:
        groups = cards.first_true("GROUPS")
        if groups is not None:
            raise at_card(Kind.Groups, groups)
    header_len = BLOCK * (CARD * end // BLOCK + 1)
    data_len = abs(bitpix) // 8 * gcount * (pcount + math.prod(lengths)) if lengths else 0
    next_at = at.start + header_len + data_len + -data_len % BLOCK
    if next_at > MOST_BYTES:
        raise at_card(Kind.Limit, 2)
    if next_at > at.length:
        raise Fault(Kind.Truncated, "byte", at.length)
    sort = sort_of(cards, at.hdu)
    is_packed = sort == "BINTABLE" and cards.first_true("ZIMAGE") is not None
    return Said(header_len, at.start + header_len, data_len, next_at, sort, is_packed, bitpix, lengths, cards)


def mandatory(cards: Cards, hdu: int) -> Tuple[int, Tuple[int, ...], Tuple[int, int]]:
    """BITPIX, the lengths of the axes, and PCOUNT and GCOUNT, each from its place."""
    if hdu > 0 and (cards.name(0) != b"XTENSION" or cards.text(0) is None):
        raise at_card(Kind.BadCard, 0)
    bitpix = cards.integer(1)
    if cards.name(1) != keyword("BITPIX") or bitpix not in BITS:
        raise at_card(Kind.BadCard, 1)
    assert bitpix is not None
    axes = size(cards, 2, keyword("NAXIS"))
    if axes > MOST_AXES:
        raise at_card(Kind.Limit, 2)
    lengths = tuple(length(cards, it) for it in range(1, axes + 1))
    counts = (0, 1) if hdu == 0 else (size(cards, 3 + axes, keyword("PCOUNT")), size(cards, 4 + axes, keyword("GCOUNT")))
    return bitpix, lengths, counts


def length(cards: Cards, axis: int) -> int:
    """NAXISi."""
    found = size(cards, 2 + axis, keyword("NAXIS", axis))
    if found > MOST_LENGTH:
        raise at_card(Kind.Limit, 2 + axis)
    return found


def size(cards: Cards, index: int, name: bytes) -> int:
    """What the card of this index says, if it has the name and says a number of 0 or more."""
    found = cards.integer(index)
    if found is None or found < 0 or cards.name(index) != name:
        raise at_card(Kind.BadCard, index)
    return found


def sort_of(cards: Cards, hdu: int) -> str:
    """The sort of an HDU."""
    text = cards.text(0)
    if hdu == 0:
        return "PRIMARY"
    return "IMAGE" if text == b"IMAGE" else "BINTABLE" if text == b"BINTABLE" else "OTHER"
