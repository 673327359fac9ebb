"""FITS files as cards and bytes: made, and read again as far as they go."""
import math
import re
from dataclasses import dataclass

BLOCK = 2880
CARD = 80
END = b"END".ljust(CARD)
INTEGER = re.compile(rb" *([+-]?[0-9]{1,18}) *(?:/.*)?", re.DOTALL)
LOGICAL = re.compile(rb" *([TF]) *(?:/.*)?", re.DOTALL)
TEXT = re.compile(rb" *'((?:[^']|'')*)' *(?:/.*)?", re.DOTALL)
FORMATS = {8: ("big", False), 16: ("big", True), 32: ("big", True), 64: ("big", True)}


def card(name, value):
    """A card with an integer, a logical value or a text."""
    if isinstance(value, bool):
        value = "T" if value else "F"
    elif isinstance(value, str):
        return f"{name:<8}= {chr(39) + value.ljust(8) + chr(39)}".ljust(CARD).encode("latin-1")
    return f"{name:<8}= {value:>20}".ljust(CARD).encode("latin-1")


def words(name, text):
    """A card without a value: a name, and text from column 9 on."""
    return (f"{name:<8}" + text).ljust(CARD)[:CARD].encode("latin-1")


def filled(data, fill=b"\0"):
    return data + fill * (-len(data) % BLOCK)


def header(cards):
    return filled(b"".join(cards) + END, b" ")


def size_of(bitpix):
    return abs(bitpix) // 8


def plain_bytes(bitpix, numbers):
    order, signed = FORMATS[bitpix]
    return b"".join(it.to_bytes(bitpix // 8, order, signed=signed) for it in numbers)


def lowest(bitpix):
    return 0 if bitpix == 8 else -(1 << (bitpix - 1))


def highest(bitpix):
    return 255 if bitpix == 8 else (1 << (bitpix - 1)) - 1


@dataclass
class Hdu:
    """One HDU of a file: where it begins, its cards before END, the bytes of its header, and the bytes of its data."""

    start: int
    cards: list
    header: bytes
    data: bytes

    def field(self, name):
        """The value field of the first card of the name, or None."""
        wanted = name.ljust(8).encode()
        for it in self.cards:
            if it[:8] == wanted:
                return it[10:] if it[8:10] == b"= " else None
        return None

    def integer(self, name, other=None):
        found = self.field(name)
        matched = found is not None and INTEGER.fullmatch(found)
        return int(matched[1]) if matched else other

    def logical(self, name):
        found = self.field(name)
        matched = found is not None and LOGICAL.fullmatch(found)
        return matched[1] == b"T" if matched else None

    def text(self, name):
        found = self.field(name)
        matched = found is not None and TEXT.fullmatch(found)
        return matched[1].replace(b"''", b"'").rstrip(b" ").decode("latin-1") if matched else None

    def axes(self, stem="NAXIS"):
        """The lengths of the axes, at most 9: what a damaged header says beyond that is refused."""
        return [self.integer(f"{stem}{it + 1}", 0) for it in range(min(9, self.integer(stem, 0)))]

    def is_packed(self):
        return self.text("XTENSION") == "BINTABLE" and self.logical("ZIMAGE") is True


def header_end(file, start):
    """Where the header that begins at `start` ends, or None where no whole block of it has END, or 256 have none."""
    for block in range(256):
        at = start + block * BLOCK
        if at + BLOCK > len(file):
            return None
        if any(file[it : it + 8] == b"END     " for it in range(at, at + BLOCK, CARD)):
            return at + BLOCK
    return None


def cards_of(header_bytes):
    cards = [header_bytes[it : it + CARD] for it in range(0, len(header_bytes), CARD)]
    return cards[: next(it for it, found in enumerate(cards) if found[:8] == b"END     ")]


def data_length(hdu, first):
    axes = hdu.axes()
    if not axes:
        return 0
    each = size_of(hdu.integer("BITPIX", 0))
    pcount, gcount = (0, 1) if first else (hdu.integer("PCOUNT", 0), hdu.integer("GCOUNT", 1))
    return max(0, each * gcount * (pcount + math.prod(axes)))


def hdus_of(file):
    """The HDUs of a file, to its end or as far as there are headers."""
    found, at = [], 0
    while at < len(file):
        end = header_end(file, at)
        if end is None:
            break
        hdu = Hdu(at, cards_of(file[at:end]), file[at:end], b"")
        length = data_length(hdu, not found)
        hdu.data = file[end : end + length]
        found.append(hdu)
        at = end + length + -length % BLOCK
    return found
