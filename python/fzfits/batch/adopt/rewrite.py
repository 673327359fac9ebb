"""The header of a packed image, changed in a copy so that fz reads its tiles: of floats as the integers that stand for them."""
from __future__ import annotations

import re
from typing import Optional

from ...headers import CARD, Header

# Columns and cards that say how floats were made integers (FITS 4.0, section 10.2).
QUANTISED = ("ZSCALE", "ZZERO", "ZBLANK", "NULL_PIXEL_MASK")
RICE = ("RICE_1", "RICE_ONE")
BLANK = b" " * CARD
# How the sort of the image is said: of a primary one, and of an extension.
SORTS = ("ZSIMPLE", "ZTENSION")


def as_integers(header: Header, before: bytes) -> Optional[bytes]:
    """Of floats that were made integers and packed by Rice codes: the header of these integers, made of the bytes `before`. None for other images."""
    if header.value("ZCMPTYPE") not in RICE:
        return None
    raw = bytearray(before)
    for it in header.cards:
        at = slice(it.number * CARD, (it.number + 1) * CARD)
        if it.keyword == "ZBITPIX" and header.integer("ZBITPIX") < 0:
            raw[at] = f"ZBITPIX = {32:>20}".ljust(CARD).encode()
        elif it.keyword in ("ZSCALE", "ZZERO"):
            raw[at] = BLANK
        elif re.fullmatch(r"TTYPE\d+", it.keyword) and str(it.value).upper() in QUANTISED:
            raw[at] = f"{it.keyword:<8}= 'Q_{it.number:<6}'".ljust(CARD).encode()
    return bytes(raw)


def with_one_sort(header: Header) -> Optional[bytes]:
    """astropy from 6 on writes ZSIMPLE beside ZTENSION: the header without ZSIMPLE. None if it has not one of each."""
    both = [it for it in header.cards if it.keyword in SORTS]
    if not header.is_packed or sorted(it.keyword for it in both) != [*SORTS]:
        return None
    raw = bytearray(header.raw)
    for it in both:
        if it.keyword == SORTS[0]:
            raw[it.number * CARD : (it.number + 1) * CARD] = BLANK
    return bytes(raw)
