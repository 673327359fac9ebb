"""How the tiles of a packed image are kept: which are coded, and which are stored as plain bytes, by the rows of its table."""
from __future__ import annotations

import re
from dataclasses import dataclass
from typing import Dict, Optional, Tuple

from .headers import Header, Name

FORM = re.compile(r"(\d*)([A-Z])")
SIZES = {"L": 1, "B": 1, "A": 1, "I": 2, "J": 4, "E": 4, "K": 8, "D": 8, "C": 8, "P": 8, "M": 16, "Q": 16}
ROWS_AT_ONCE = 1 << 14
# FITS 4.0, section 7.3.1: a header that claims more columns is damaged, and costs no time.
MOST_COLUMNS = 999


@dataclass(frozen=True)
class Tiles:
    """How many tiles of a packed image are coded, stored as plain bytes, coded by gzip, or missing."""

    coded: int = 0
    stored: int = 0
    gzip: int = 0
    missing: int = 0


def pixels_of_row(header: Header, row: int) -> str:
    """The pixels of the tile that a row of the table has, axis 1 first, counted from 1: [1:2,3:3]; empty if it has none."""
    spans = []
    for axis, length in zip(header.axes, header.tile):
        if length < 1:
            return ""
        row, at = divmod(row, -(-axis // length))
        spans.append(f"{at * length + 1}:{min(axis, (at + 1) * length)}")
    return f"[{','.join(spans)}]" if spans and row == 0 else ""


def columns_of(header: Header) -> Dict[str, Tuple[int, int]]:
    """Where the descriptor of each column stands in a row, and the bytes of its count."""
    found, at = {}, 0
    for number in range(1, min(header.integer("TFIELDS"), MOST_COLUMNS) + 1):
        form = FORM.match(str(header.value(f"TFORM{number}")))
        if form is None:
            break
        repeat, letter = int(form[1] or 1), form[2]
        if letter in "PQ" and repeat == 1:
            found[str(header.value(f"TTYPE{number}")).upper()] = (at, SIZES[letter] // 2)
        at += (repeat + 7) // 8 if letter == "X" else repeat * SIZES.get(letter, 0)
    return found


def kept_as(row: bytes, columns: Dict[str, Tuple[int, int]], by_code: str) -> Optional[str]:
    """The column that has something for the tile of this row, in the order in which readers look."""
    for name, kept in (("COMPRESSED_DATA", by_code), ("GZIP_COMPRESSED_DATA", "gzip"), ("UNCOMPRESSED_DATA", "stored")):
        if name in columns:
            at, size = columns[name]
            if any(row[at : at + size]):
                return kept
    return None


def tiles_of(path: Name, header: Header) -> Tiles:
    """The tiles of a packed image, by the rows of its table; with the codec NOCOMPRESS all are stored."""
    width, many = header.integer("NAXIS1"), header.integer("NAXIS2")
    columns = columns_of(header)
    by_code = "stored" if header.value("ZCMPTYPE") == "NOCOMPRESS" else "coded"
    counts = {"coded": 0, "stored": 0, "gzip": 0, None: 0}
    with open(path, "rb") as file:
        file.seek(header.data)
        while many > 0 and width > 0:
            rows = file.read(width * min(many, ROWS_AT_ONCE))
            if not rows:
                break
            for at in range(0, len(rows), width):
                counts[kept_as(rows[at : at + width], columns, by_code)] += 1
            many -= len(rows) // width
    return Tiles(counts["coded"], counts["stored"], counts["gzip"], counts[None])
