"""How long a packed file would be when it is unpacked, by its headers, before anything is decoded."""
from __future__ import annotations

import os
import re

BLOCK, CARD, BLOCKS_OF_A_HEADER = 2880, 80, 256
# A packed file that would become so many times as long is named: no image that was packed to be kept has that ratio.
RATIO = 1000
# No file is longer; a header may say more, in numbers of thousands of digits.
LONGEST = 1 << 62
KEYS = re.compile(rb"(Z?NAXIS[0-9]{0,3}|Z?BITPIX|PCOUNT|GCOUNT) *= +([+-]?[0-9]{1,18}) *(?:/.*)?")
PACKED = re.compile(rb"ZIMAGE  = +T *(?:/.*)?")
# How the cards begin that are looked at more closely: most others are passed by without a pattern.
SIZES, ZIMAGE, END = (b"NAXIS", b"ZNAXIS", b"BITPIX", b"ZBITPIX", b"PCOUNT", b"GCOUNT"), b"ZIMAGE  =", b"END     "


def unpacked(number: int, size: int) -> int:
    """About the bytes of the file that an open packed file restores; at least its own."""
    total = start = 0
    while start < size:
        cards, length = _header(number, start)
        if not length:
            break
        data = _bytes_of(cards, b"")
        total += length + (_bytes_of(cards, b"Z") if cards.get(b"ZIMAGE") else data)
        start += length + data + -data % BLOCK
    return min(max(total, size), LONGEST)


def believed(found: int, size: int) -> int:
    """As much of such a length as is taken from a file of `size` bytes without asking: time is not given for what a header claims alone."""
    return min(found, RATIO * max(1, size))


def warning(found: int, size: int) -> str:
    """A line about a file of `size` bytes that would become far longer, or the empty text."""
    return f"it would unpack to {found:,} bytes, {found // max(1, size):,} times its size" if found > RATIO * max(1, size) else ""


def _header(number: int, start: int) -> "tuple[dict[bytes, int], int]":
    """The cards that say how long the data of an HDU are, and the length of its header, 0 if it has no end."""
    cards: dict[bytes, int] = {}
    for at in range(BLOCKS_OF_A_HEADER):
        block = os.pread(number, BLOCK, start + at * BLOCK)
        if len(block) < BLOCK:
            break
        for it in range(0, BLOCK, CARD):
            if block.startswith(SIZES, it):
                found = KEYS.fullmatch(block, it, it + CARD)
                if found:
                    cards.setdefault(found[1], int(found[2]))
            elif block.startswith(END, it):
                return cards, (at + 1) * BLOCK
            elif block.startswith(ZIMAGE, it) and PACKED.fullmatch(block, it, it + CARD):
                cards[b"ZIMAGE"] = 1
    return cards, 0


def _bytes_of(cards: "dict[bytes, int]", z: bytes) -> int:
    axes = [cards.get(z + b"NAXIS%d" % it, 0) for it in range(1, min(cards.get(z + b"NAXIS", 0), 999) + 1)]
    if not axes or any(it < 0 for it in axes):
        return 0
    count = 1
    for it in axes:
        count = min(count * it, LONGEST)
    beside, groups = (0, 1) if z else (max(0, cards.get(b"PCOUNT", 0)), max(1, cards.get(b"GCOUNT", 1)))
    return min(abs(cards.get(z + b"BITPIX", 8)) // 8 * groups * (beside + count), LONGEST)
