"""The headers of a FITS file, read without its data: cards by number, HDUs by EXTNAME, and where each HDU begins and ends.

The program decides what a file is; this module looks up what the program's lines only number, so it also reads headers that the
program rejects. It stops, without an error, at the first HDU that it cannot find its way through.
"""
from __future__ import annotations

import math
import os
import re
from dataclasses import dataclass
from typing import IO, Iterator, List, Optional, Tuple, Union

BLOCK = 2880
CARD = 80
BLOCKS_OF_A_HEADER = 256
END = b"END     "
INTEGER = re.compile(r"[+-]?[0-9]{1,18}")
NUMBER = re.compile(r"[+-]?(?:[0-9]+\.?[0-9]*|\.[0-9]+)(?:[EeDd][+-]?[0-9]+)?")

Value = Union[None, bool, int, float, str]
Name = Union[str, bytes, "os.PathLike[str]", "os.PathLike[bytes]"]


def padded(length: int) -> int:
    """The length, raised to whole blocks."""
    return length + -length % BLOCK


def value_of(field: str) -> Value:
    """The value of a value field (columns 11 to 80), or None if it has none of a known form."""
    field = field.lstrip(" ")
    if field.startswith("'"):
        found = re.match(r"'((?:[^']|'')*)'", field)
        return found[1].replace("''", "'").rstrip(" ") if found else None
    text = field.split("/", 1)[0].strip(" ")
    if text in ("T", "F"):
        return text == "T"
    if INTEGER.fullmatch(text):
        return int(text)
    if NUMBER.fullmatch(text):
        return float(text.upper().replace("D", "E"))
    return None


@dataclass(frozen=True)
class Card:
    """One card of a header: its number, counted from 0, its keyword, its value, and its 80 characters without blanks at the end."""

    number: int
    keyword: str
    value: Value
    text: str

    def __str__(self) -> str:
        if self.text[8:10] != "= ":
            return self.text
        return f"{self.keyword} = {self.text[10:].split('/')[0].strip() if not isinstance(self.value, str) else repr(self.value)}"


def card_of(number: int, raw: bytes) -> Card:
    """The card that 80 bytes hold."""
    text = raw.decode("latin-1")
    return Card(number, text[:8].rstrip(" "), value_of(text[10:]) if text[8:10] == "= " else None, text.rstrip(" "))


@dataclass(frozen=True)
class Header:
    """One header: the number of its HDU, where that begins in the file, its bytes, and its cards before END."""

    number: int
    start: int
    raw: bytes
    cards: Tuple[Card, ...]

    def card(self, keyword: str) -> Optional[Card]:
        """The first card with this keyword, or None."""
        return next((it for it in self.cards if it.keyword == keyword), None)

    def value(self, keyword: str) -> Value:
        """The value of the first card with this keyword, or None."""
        found = self.card(keyword)
        return None if found is None else found.value

    def integer(self, keyword: str, other: int = 0) -> int:
        """The value of the first card with this keyword if it is an integer, or `other`."""
        found = self.value(keyword)
        return found if isinstance(found, int) and not isinstance(found, bool) else other

    def lengths(self, stem: str = "NAXIS") -> Tuple[int, ...]:
        """The lengths of the axes, axis 1 first: NAXISi, or with another stem ZNAXISi."""
        return tuple(self.integer(f"{stem}{it}") for it in range(1, min(self.integer(stem), 999) + 1))

    @property
    def sort(self) -> str:
        """The text of XTENSION, or IMAGE for a primary HDU."""
        return "IMAGE" if self.number == 0 else str(self.value("XTENSION"))

    @property
    def is_packed(self) -> bool:
        """Whether the HDU is a packed image."""
        return self.sort == "BINTABLE" and self.value("ZIMAGE") is True

    @property
    def axes(self) -> Tuple[int, ...]:
        """The axes of the image, axis 1 first, also if it is packed."""
        return self.lengths("ZNAXIS") if self.is_packed else self.lengths()

    @property
    def tile(self) -> Tuple[int, ...]:
        """The lengths of a tile of a packed image, each at most that of its axis."""
        axes = self.axes
        given = [self.integer(f"ZTILE{it}", axes[0] if it == 1 else 1) for it in range(1, len(axes) + 1)]
        return tuple(min(axis, length) for axis, length in zip(axes, given))

    @property
    def is_packable(self) -> bool:
        """Whether `pack` makes a packed image of the HDU: an integer image with a pixel, and nothing beside its array."""
        if self.sort != "IMAGE" or self.integer("BITPIX") not in (8, 16, 32, 64):
            return False
        beside = self.number > 0 and (self.integer("PCOUNT") != 0 or self.integer("GCOUNT", 1) != 1)
        return not beside and bool(self.axes) and 0 not in self.axes

    @property
    def name(self) -> str:
        """The text of EXTNAME, or the empty text."""
        found = self.value("EXTNAME")
        return found if isinstance(found, str) and found != "COMPRESSED_IMAGE" else ""

    @property
    def version(self) -> int:
        """The value of EXTVER, or 1."""
        return self.integer("EXTVER", 1)

    @property
    def length(self) -> int:
        """The bytes of the header."""
        return len(self.raw)

    @property
    def data(self) -> int:
        """Where the data begin in the file."""
        return self.start + self.length

    @property
    def size(self) -> int:
        """The bytes of the data, without what fills the last block."""
        axes = self.lengths()
        if not axes:
            return 0
        groups = (0, 1) if self.number == 0 else (self.integer("PCOUNT"), self.integer("GCOUNT", 1))
        return max(0, abs(self.integer("BITPIX")) // 8 * groups[1] * (groups[0] + math.prod(axes)))

    @property
    def end(self) -> int:
        """Where the next HDU begins."""
        return self.data + padded(self.size)


def read_header(file: IO[bytes], number: int, start: int) -> Optional[Header]:
    """The header that begins at this byte, or None if none is there whole."""
    file.seek(start)
    raw, cards = b"", []  # type: Tuple[bytes, List[Card]]
    for _ in range(BLOCKS_OF_A_HEADER):
        block = file.read(BLOCK)
        if len(block) < BLOCK:
            return None
        raw += block
        for at in range(0, BLOCK, CARD):
            if block[at : at + 8] == END:
                return Header(number, start, raw, tuple(cards))
            cards.append(card_of(len(cards), block[at : at + CARD]))
    return None


def headers(path: Name) -> Iterator[Header]:
    """The headers of a file, one HDU after another, as far as they can be followed."""
    with open(path, "rb") as file:
        length = os.fstat(file.fileno()).st_size
        number = start = 0
        while start < length:
            found = read_header(file, number, start)
            first = b"SIMPLE  " if number == 0 else b"XTENSION"
            if found is None or not found.raw.startswith(first):
                return
            yield found
            number, start = number + 1, found.end


def header_of(path: Name, number: int) -> Optional[Header]:
    """The header of one HDU, or None if the file has none of that number."""
    try:
        return next((it for it in headers(path) if it.number == number), None)
    except OSError:
        return None
