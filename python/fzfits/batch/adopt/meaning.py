"""What the bytes of the data of an HDU mean, by its header: two HDUs with the same bytes have the same pixels only if this is the same too."""
from __future__ import annotations

import re
from typing import Iterator, Optional, Tuple

from ...headers import Header, Value
from ...rows import MOST_COLUMNS

# Keywords by which the same bytes are other numbers, or others of them (FITS 4.0, sections 4.4 and 7); of those without a value, what they mean then.
KEYWORDS = re.compile(r"BITPIX|NAXIS\d*|PCOUNT|GCOUNT|GROUPS|BSCALE|BZERO|BLANK|TFIELDS|THEAP|(TFORM|TBCOL|TSCAL|TZERO|TNULL|TDIM)\d+")
MISSING: "dict[str, Value]" = {"PCOUNT": 0, "GCOUNT": 1, "GROUPS": False, "BSCALE": 1, "BZERO": 0, "TSCAL": 1, "TZERO": 0}

# A keyword, and its values in two HDUs.
Pairs = Iterator[Tuple[str, Value, Value]]


def _value(header: Header, keyword: str) -> Value:
    card = header.card(keyword)
    return MISSING.get(keyword.rstrip("0123456789")) if card is None else card.value


def _said(value: Value) -> str:
    return "not there" if value is None else str(value)


def other_than(mine: Header, other: Header) -> str:
    """The first thing by which the same bytes mean something else in another header, or the empty text."""
    if mine.sort != other.sort:
        return f"it is {mine.sort}, and {other.sort} in the plain file"
    for keyword in dict.fromkeys(it.keyword for it in (*mine.cards, *other.cards) if KEYWORDS.fullmatch(it.keyword)):
        one, two = _value(mine, keyword), _value(other, keyword)
        if one != two:
            return f"{keyword} is {_said(one)}, and {_said(two)} in the plain file"
    return ""


def other_packed(packed: Header, other: Optional[Header]) -> str:
    """Why a packed image or table that is not decoded cannot be that of another HDU, or the empty text: its lengths and its types are others."""
    if other is None:
        return "the plain file has no such HDU"
    sort = "BINTABLE" if packed.value("ZTABLE") is True else "IMAGE"
    if other.sort != sort:
        return f"it is {sort}, and {other.sort} in the plain file"
    pairs = _of_table(packed, other) if sort == "BINTABLE" else _of_image(packed, other)
    return next((f"{name} is {_said(one)}, and {_said(two)} in the plain file" for name, one, two in pairs if one != two), "")


def _of_image(packed: Header, other: Header) -> Pairs:
    mine, theirs = (packed.integer("ZBITPIX"), *packed.axes), (other.integer("BITPIX"), *other.lengths())
    yield "NAXIS", len(mine) - 1, len(theirs) - 1
    yield from zip(("BITPIX", *(f"NAXIS{it}" for it in range(1, len(mine)))), mine, theirs)
    if mine[0] > 0:
        # those of floats may say how they were made integers
        yield from ((it, _value(packed, it), _value(other, it)) for it in ("BSCALE", "BZERO", "BLANK"))


def _of_table(packed: Header, other: Header) -> Pairs:
    yield from ((it, packed.integer(f"Z{it}"), other.integer(it)) for it in ("NAXIS1", "NAXIS2", "PCOUNT"))
    yield "TFIELDS", packed.integer("TFIELDS"), other.integer("TFIELDS")
    for it in range(1, min(packed.integer("TFIELDS"), MOST_COLUMNS) + 1):
        yield f"TFORM{it}", packed.value(f"ZFORM{it}"), other.value(f"TFORM{it}")
        yield from ((f"{name}{it}", _value(packed, f"{name}{it}"), _value(other, f"{name}{it}")) for name in ("TSCAL", "TZERO", "TNULL"))
