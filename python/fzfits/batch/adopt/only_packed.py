"""What a packed file has that the file which it stands for has not: cards and columns that are gone once it is packed again."""
from __future__ import annotations

import re
from typing import Iterator, List, Sequence

from ...headers import CARD, Header
from .. import names

# Cards that say how an image is packed, that stand for a card of the image, or that every table has.
HOW = re.compile(r"XTENSION|BITPIX|NAXIS\d*|PCOUNT|GCOUNT|TFIELDS|T(TYPE|FORM)\d+|THEAP|CHECKSUM|DATASUM|Z(IMAGE|CMPTYPE|BITPIX|NAXIS\d*|TILE\d+|NAME\d+|VAL\d+|SIMPLE|TENSION|EXTEND|BLOCKED|PCOUNT|GCOUNT|HECKSUM|DATASUM)")
COLUMNS = ("COMPRESSED_DATA", "UNCOMPRESSED_DATA", "GZIP_COMPRESSED_DATA")
# Cards of the empty primary HDU that packers put before a packed primary image, and the comments that cfitsio has in it.
EMPTY = re.compile(r"SIMPLE|BITPIX|NAXIS|EXTEND|CHECKSUM|DATASUM")
COMMENTS = ("COMMENT   FITS (Flexible Image Transport System) format is", "COMMENT   and Astrophysics', volume 376, page 359;")


def _cards(header: Header) -> "set[bytes]":
    return {header.raw[at : at + CARD] for at in range(0, header.length, CARD)}


def _lost(packed: Header, restored: Header) -> Iterator[str]:
    kept = _cards(restored)
    is_empty = not packed.is_packed
    for it in packed.cards:
        if not it.text or packed.raw[it.number * CARD : (it.number + 1) * CARD] in kept:
            continue
        if re.fullmatch(r"TTYPE\d+", it.keyword) and not is_empty and it.value not in COLUMNS:
            yield f"a column {it.value}"
        elif not (EMPTY if is_empty else HOW).fullmatch(it.keyword) and not (is_empty and it.text.startswith(COMMENTS)) and not it.text.startswith("EXTNAME = 'COMPRESSED_IMAGE'"):
            yield f"a card {it.text[:40]!r}" if it.keyword in ("COMMENT", "HISTORY", "") else f"a card {it.keyword}"


def lost(packed: "Sequence[Header]", restored: "Sequence[Header]") -> str:
    """The first things that are in a packed file only, or the empty text. `packed` and `restored` are all headers of both files.

    An HDU that is not packed is the same in both; but the empty primary HDU before a packed primary image is in the packed file only.
    """
    shift = len(packed) - len(restored)
    found: "List[str]" = []
    for it in packed:
        if it.is_packed or it.number < shift:
            found += [f"HDU {it.number} has {what}" for what in _lost(it, restored[max(0, it.number - shift)])]
    more = f" and {len(found) - 3} more" if len(found) > 3 else ""
    return names.told("; ".join(found[:3]) + more)
