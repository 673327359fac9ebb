"""The cards of a header, with values exactly as docs/FORMAT.md (2.2) has them.

`fzfits.headers` reads headers for people, and is generous; what decides whether an image is refused is read here.
"""
from __future__ import annotations

import re
from functools import lru_cache
from typing import Dict, Iterator, Optional

CARD = 80
INTEGER = re.compile(rb" *([+-]?[0-9]{1,18}) *(?:/.*)?", re.DOTALL)
TRUE = re.compile(rb" *T *(?:/.*)?", re.DOTALL)
TEXT = re.compile(rb" *'((?:[^']|'')*)' *(?:/.*)?", re.DOTALL)
BLANK = re.compile(rb" *(?:/.*)?", re.DOTALL)
ZERO = re.compile(rb" *[+-]?(?:0+\.?0*|\.0+)(?:[ED][+-]?[0-9]+)? *(?:/.*)?", re.DOTALL)


@lru_cache(maxsize=1 << 13)
def keyword(name: str, number: Optional[int] = None) -> bytes:
    """The first 8 bytes of a card with this name, such as those of NAXIS1."""
    return f"{name}{'' if number is None else number}".encode("ascii").ljust(8)


class Cards:
    """The cards of a header before END, of which `count` there are. Of several cards with one name the first counts."""

    def __init__(self, raw: bytes, count: int) -> None:
        self.raw, self.count = raw, count
        self.first: Dict[bytes, int] = {}
        for it in range(count - 1, -1, -1):
            self.first[raw[CARD * it : CARD * it + 8]] = it

    def name(self, index: int) -> bytes:
        """The name of a card, with its blanks; that of END is `END` and blanks."""
        return self.raw[CARD * index : CARD * index + 8]

    def names(self) -> Iterator[bytes]:
        """The names of all cards."""
        return (self.raw[at : at + 8] for at in range(0, CARD * self.count, CARD))

    def field(self, index: Optional[int]) -> Optional[bytes]:
        """The value field of a card, or None if it has no value or is not there."""
        if index is None or index >= self.count or self.raw[CARD * index + 8 : CARD * index + 10] != b"= ":
            return None
        return self.raw[CARD * index + 10 : CARD * index + CARD]

    def find(self, name: str, number: Optional[int] = None) -> Optional[int]:
        """The index of the first card with this name, or None."""
        return self.first.get(keyword(name, number))

    def integer(self, index: Optional[int]) -> Optional[int]:
        """The value of a card if it is an integer."""
        field = self.field(index)
        found = None if field is None else INTEGER.fullmatch(field)
        return int(found[1]) if found else None

    def text(self, index: Optional[int]) -> Optional[bytes]:
        """The value of a card if it is a text, without blanks at its end."""
        field = self.field(index)
        found = None if field is None else TEXT.fullmatch(field)
        return found[1].replace(b"''", b"'").rstrip(b" ") if found else None

    def is_true(self, index: Optional[int]) -> bool:
        """Whether a card has the value T."""
        field = self.field(index)
        return field is not None and TRUE.fullmatch(field) is not None

    def first_true(self, name: str) -> Optional[int]:
        """The index of the first of the cards with this name that has the value T."""
        return next((it for it in self.all(name) if self.is_true(it)), None)

    def first_offset(self) -> Optional[int]:
        """The index of the first card BZERO whose value is not zero; one without a value, or with a blank field, is neither."""
        fields = ((it, self.field(it)) for it in self.all("BZERO"))
        return next((it for it, field in fields if field is not None and not BLANK.fullmatch(field) and not ZERO.fullmatch(field)), None)

    def all(self, name: str) -> Iterator[int]:
        """The indices of all cards with this name."""
        wanted = keyword(name)
        if wanted not in self.first:
            return iter(())
        return (it for it, found in enumerate(self.names()) if found == wanted)
