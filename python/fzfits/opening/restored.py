"""The header of the image that a packed table stands for, as `fz unpack` restores it (docs/FORMAT.md, 5.4 and 6.4)."""
from __future__ import annotations

import re
from typing import List

from ..headers import BLOCK, END, Header, card_of
from .cards import CARD, Cards, keyword

# Names of the table for those of the image.
PLAIN = {
    keyword(packed): keyword(plain)
    for packed, plain in (
        ("ZSIMPLE", "SIMPLE"), ("ZTENSION", "XTENSION"), ("ZBITPIX", "BITPIX"), ("ZNAXIS", "NAXIS"), ("ZEXTEND", "EXTEND"), ("ZBLOCKED", "BLOCKED"),
        ("ZPCOUNT", "PCOUNT"), ("ZGCOUNT", "GCOUNT"), ("ZHECKSUM", "CHECKSUM"), ("ZDATASUM", "DATASUM"), *((f"ZNAXIS{it}", f"NAXIS{it}") for it in range(1, 10)),
    )
}
# Cards of the table itself.
DROPPED = re.compile(
    rb"(?:XTENSION|BITPIX|NAXIS|PCOUNT|GCOUNT|CHECKSUM|DATASUM|TFIELDS|THEAP|ZIMAGE|ZCMPTYPE|ZBLANK|ZQUANTIZ|ZDITHER0|ZMASKCMP"
    rb"|(?:NAXIS|TTYPE|TFORM|ZTILE|ZNAME|ZVAL)[1-9][0-9]{0,2}) *"
)
MADE = {b"XTENSION": b"XTENSION= 'IMAGE   '", b"PCOUNT  ": b"PCOUNT  =                    0", b"GCOUNT  ": b"GCOUNT  =                    1"}


def translated(card: bytes) -> bytes:
    """A card with the name that it has in the image."""
    return PLAIN.get(card[:8], card[:8]) + card[8:]


def restored(raw: bytes, count: int, number: int, start: int) -> Header:
    """The header of the image of a packed table with `count` cards before END; `number` and `start` are those of the table."""
    cards = Cards(raw, count)
    primary = cards.find("ZSIMPLE") is not None
    axes = cards.integer(cards.find("ZNAXIS")) or 0
    sort = "ZSIMPLE" if primary else "ZTENSION"
    first = [keyword(it) for it in (sort, "ZBITPIX", "ZNAXIS", *(f"ZNAXIS{it}" for it in range(1, axes + 1)), *(() if primary else ("ZPCOUNT", "ZGCOUNT")))]
    found: List[bytes] = []
    for name in first:
        index = cards.first.get(name)
        found.append(MADE[PLAIN[name]].ljust(CARD) if index is None else translated(raw[CARD * index : CARD * index + CARD]))
    taken = {*first, *(keyword("ZNAXIS", it) for it in range(1, 100)), b"ZSIMPLE ", b"ZTENSION"}
    for it, name in enumerate(cards.names()):
        own = name == b"EXTNAME " and cards.text(it) == b"COMPRESSED_IMAGE"
        if name not in taken and not own and not DROPPED.fullmatch(name):
            found.append(translated(raw[CARD * it : CARD * it + CARD]))
    whole = b"".join([*found, END.ljust(CARD)])
    return Header(number, start, whole + b" " * (-len(whole) % BLOCK), tuple(card_of(it, card) for it, card in enumerate(found)))
