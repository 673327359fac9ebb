"""The rows of a table that stands for an image, and the gzip records in its heap: what can be checked without decoding pixels."""
from __future__ import annotations

import os
import zlib
from dataclasses import dataclass
from typing import Callable, Dict, Iterator, List, Tuple

from ...headers import Header
from ...rows import FORM, MOST_COLUMNS, SIZES, columns_of

ROWS_AT_ONCE = 4096
# A column of records whose bytes are those of gzip, by its name; for others it is the codec that says so.
GZIP = "GZIP_COMPRESSED_DATA"
# A record is inflated in pieces of so many bytes, and is not more than so many times as long as the record.
PIECE, RATIO = 1 << 20, 2000


@dataclass(frozen=True)
class Column:
    """A column with descriptors: its name, where it stands in a row, the bytes of a count, and those of an element."""

    name: str
    at: int
    wide: int
    element: int
    codec: str


def columns(header: Header) -> "List[Column]":
    """The columns with descriptors of a table."""
    elements: Dict[str, Tuple[int, str]] = {}
    for number in range(1, min(header.integer("TFIELDS"), MOST_COLUMNS) + 1):
        form = FORM.match(str(header.value(f"TFORM{number}")))
        rest = str(header.value(f"TFORM{number}"))[form.end() :] if form else ""
        letter = rest[:1]
        codec = header.value(f"ZCTYP{number}") if header.value("ZTABLE") is True else header.value("ZCMPTYPE")
        elements[str(header.value(f"TTYPE{number}")).upper()] = (SIZES.get(letter, 1), str(codec))
    return [Column(name, at, wide, *elements.get(name, (1, ""))) for name, (at, wide) in columns_of(header).items()]


def descriptors(number: int, header: Header, found: "List[Column]", size: int) -> "Iterator[Tuple[int, List[Tuple[Column, int, int]]]]":
    """Of each row that is there: the columns that have something, with the bytes of the record and its place in the file."""
    width, many = header.integer("NAXIS1"), header.integer("NAXIS2")
    heap = header.data + header.integer("THEAP", width * many)
    for first in range(0, many if width > 0 else 0, ROWS_AT_ONCE):
        count = min(ROWS_AT_ONCE, many - first)
        at = header.data + first * width
        # a header may claim rows that no memory has room for
        piece = os.pread(number, max(0, min(width * count, size - at)), at)
        for row in range(len(piece) // width):
            line = piece[row * width : (row + 1) * width]
            here = []
            for it in found:
                length = int.from_bytes(line[it.at : it.at + it.wide], "big", signed=True)
                offset = int.from_bytes(line[it.at + it.wide : it.at + 2 * it.wide], "big", signed=True)
                if length:
                    here.append((it, length * it.element, heap + offset))
            yield first + row, here
        if len(piece) < width * count:
            return


def fault_of(number: int, header: Header, here: "List[Tuple[Column, int, int]]", is_image: bool, check_time: "Callable[[], object]") -> str:
    """What is wrong with the records of a row, as far as that shows without decoding; empty if nothing.

    `check_time` raises if it takes too long: rows may share a record.
    """
    heap = header.data + header.integer("THEAP", header.integer("NAXIS1") * header.integer("NAXIS2"))
    end = header.data + header.size
    if is_image and not here:
        return "it has no record"
    for column, length, at in here:
        if length < 0 or at < heap or at + length > end:
            return f"its record ({column.name}) would be outside of the heap"
        if column.name == GZIP or column.codec.startswith("GZIP"):
            said = gzip_fault(number, at, length, check_time)
            if said:
                return f"its record ({column.name}) cannot be inflated: {said}"
    return ""


def gzip_fault(number: int, at: int, length: int, check_time: "Callable[[], object]") -> str:
    """Why a gzip record cannot be inflated, or the empty text. Its CRC is compared too."""
    left, made = zlib.decompressobj(wbits=47), 0
    end = at + length
    try:
        while at < end and not left.eof:
            piece = os.pread(number, min(PIECE, end - at), at)
            if not piece:
                return "the file ends before"
            at += len(piece)
            while piece:
                check_time()
                made += len(left.decompress(piece, PIECE))
                piece = left.unconsumed_tail
                if made > RATIO * length + PIECE:
                    return "it would become far longer than an image of its size"
    except zlib.error as error:
        return str(error)
    return "" if left.eof else "it has no end"


def after_the_end(number: int, header: Header, size: int, many: int) -> "List[Tuple[int, int]]":
    """Of a table of `many` rows that is cut: the spans of rows, first and last, that are not there or whose record would end after the file does."""
    lost: "List[Tuple[int, int]]" = []
    seen = 0
    for row, here in descriptors(number, header, columns(header), size):
        if row >= many:
            break
        seen = row + 1
        if any(at + length > size for _, length, at in here):
            _add(lost, row, row)
    if seen < many:
        _add(lost, seen, many - 1)
    return lost


def _add(spans: "List[Tuple[int, int]]", first: int, last: int) -> None:
    if spans and spans[-1][1] == first - 1:
        spans[-1] = (spans[-1][0], last)
    else:
        spans.append((first, last))
