"""Files to be packed: images of every kind, and what may stand beside them."""
import math
import struct
from dataclasses import dataclass

from .fits import card, filled, header, highest, lowest, plain_bytes, words

COMMENTS = ("", "made at random", "it's a quote", "a / in the middle", "x" * 70)


@dataclass
class Image:
    bitpix: int
    axes: list
    numbers: list


def lengths(rng):
    """The lengths of the axes, of at most some thousand pixels."""
    many = rng.choice((1, 1, 2, 2, 2, 2, 3, 3, 4, 9))
    most = {1: 3000, 2: 60, 3: 14, 4: 7, 9: 2}[many]
    return [rng.randint(1, most) for _ in range(many)]


def pixel_lines(rng, bitpix, count):
    """The pixels of an image, by one of several kinds of contents."""
    low, high = lowest(bitpix), highest(bitpix)
    kind = rng.choice(("one", "noise", "slope", "flags", "extremes", "all", "mostly", "steps"))
    middle = rng.randint(low // 2, high // 2)
    if kind == "one":
        return [rng.choice((0, low, high, middle))] * count
    if kind == "noise":
        spread = rng.choice((1, 3, 30, 3000))
        return [min(high, max(low, middle + round(rng.gauss(0, spread)))) for _ in range(count)]
    if kind == "slope":
        step = rng.randint(1, 300)
        return [low + (middle - low + it * step) % (high - low + 1) for it in range(count)]
    if kind == "flags":
        made = []
        while len(made) < count:
            flag = rng.choice((0, 0, 0, 1, 2, min(high, 5000), min(high, (1 << 24) - 1)))
            made += [flag] * rng.choice((1, 1, 2, rng.randint(1, 5000)))
        return made[:count]
    if kind == "extremes":
        return [rng.choice((low, high)) for _ in range(count)]
    if kind == "mostly":
        return [rng.randint(low, high) if rng.random() < 0.02 else middle for _ in range(count)]
    if kind == "steps":
        return [min(high, max(low, 1 << rng.randrange(bitpix - 1))) for _ in range(count)]
    return [rng.randint(low, high) for _ in range(count)]


def image(rng, bitpix=None):
    axes = lengths(rng)
    bitpix = bitpix or rng.choice((8, 16, 16, 32, 32, 64))
    return Image(bitpix, axes, pixel_lines(rng, bitpix, math.prod(axes)))


def further_cards(rng):
    """Cards of any kind that an image may have."""
    made = []
    for _ in range(rng.choice((0, 0, 1, 3, 12, 30, 31, 32, 33, 36, 70))):
        kind = rng.randrange(9)
        if kind == 0:
            made.append(card("OBJECT", rng.choice(("M 31", "it''s", "", "a/b"))))
        elif kind == 1:
            made.append(words(rng.choice(("HISTORY", "COMMENT", "")), " " + rng.choice(COMMENTS)))
        elif kind == 2:
            made.append(words(f"KEY{rng.randrange(1000)}", "=" + " " * rng.randrange(30) + str(rng.randint(-9, 9)) + " / " + rng.choice(COMMENTS)))
        elif kind == 3:
            made.append(card(rng.choice(("BSCALE", "CRPIX1", "EXPTIME")), rng.randint(-100, 100)))
        elif kind == 4:
            made.append(words("CONTINUE", "  'and so on&'"))
        elif kind == 5:
            made.append(card(rng.choice(("EXTEND", "BLOCKED", "FLAG")), rng.random() < 0.5))
        elif kind == 6:
            made.append(words("HIERARCH", " ESO DET ID = 7"))
        elif kind == 7:
            made.append(bytes(rng.choice((32, 65, 61, 39, 47, 126)) for _ in range(8)).replace(b"'", b"Q") + bytes(rng.randint(32, 126) for _ in range(72)))
        else:
            made.append(card(rng.choice(("CHECKSUM", "DATASUM")), rng.choice(("hcHjjc9ghcEghc9g", "868229149", ""))))
    return made


def offset_cards(rng, bitpix):
    """BZERO, as images of unsigned numbers have it, or none."""
    if bitpix == 8 or rng.random() < 0.6:
        return []
    return [card("BZERO", rng.choice((0, 1 << (bitpix - 1)))), card("BSCALE", 1)]


def image_hdu(found, first, further=()):
    """The HDU of an image, with further cards behind those that it must have."""
    cards = [card("SIMPLE", True) if first else card("XTENSION", "IMAGE")]
    cards += [card("BITPIX", found.bitpix), card("NAXIS", len(found.axes))]
    cards += [card(f"NAXIS{it + 1}", length) for it, length in enumerate(found.axes)]
    if not first:
        cards += [card("PCOUNT", 0), card("GCOUNT", 1)]
    return header([*cards, *further]) + filled(plain_bytes(found.bitpix, found.numbers))


def any_image_hdu(rng, first):
    found = image(rng)
    return image_hdu(found, first, offset_cards(rng, found.bitpix) + further_cards(rng))


def bare_hdu(rng, first, bitpix, axes, pcount, data):
    """An HDU that is copied, with the data given."""
    cards = [card("SIMPLE", True) if first else card("XTENSION", "IMAGE"), card("BITPIX", bitpix), card("NAXIS", len(axes))]
    cards += [card(f"NAXIS{it + 1}", length) for it, length in enumerate(axes)]
    if not first:
        cards += [card("PCOUNT", pcount), card("GCOUNT", 1)]
    return header(cards + further_cards(rng)) + filled(data)


def table_hdu(rng):
    """A binary table, or an extension of another kind, which is copied."""
    rows, width, heap = rng.randint(0, 20), rng.randint(1, 30), rng.choice((0, 0, 40))
    sort = rng.choice(("BINTABLE", "BINTABLE", "TABLE", "IUEIMAGE", "X"))
    cards = [card("XTENSION", sort), card("BITPIX", 8), card("NAXIS", 2), card("NAXIS1", width), card("NAXIS2", rows)]
    cards += [card("PCOUNT", heap), card("GCOUNT", 1), card("TFIELDS", 1), card("TFORM1", f"{width}B")]
    return header(cards + further_cards(rng)) + filled(rng.randbytes(rows * width + heap), rng.choice((b"\0", b" ")))


def other_hdu(rng, first):
    """An HDU that is no image to be packed."""
    kind = rng.choice(("empty", "floats", "axis", "parameters", "table"))
    if kind == "empty" or kind == "table" and first:
        return bare_hdu(rng, first, rng.choice((8, 16, -32)), [], 0, b"")
    if kind == "floats":
        return bare_hdu(rng, first, -32, [7], 0, struct.pack(">7f", *[rng.gauss(0, 1) for _ in range(7)]))
    if kind == "axis":
        return bare_hdu(rng, first, 16, [5, 0, 3], 0, b"")
    if kind == "parameters" and not first:
        return bare_hdu(rng, first, 8, [5], 11, rng.randbytes(16))
    return bare_hdu(rng, first, 16, [0], 0, b"") if first else table_hdu(rng)


def plain_file(rng):
    """A file of one or more HDUs, most of them images."""
    many = rng.choice((1, 1, 1, 2, 3, 5))
    made = b""
    for it in range(many):
        made += any_image_hdu(rng, it == 0) if rng.random() < 0.7 else other_hdu(rng, it == 0)
    return made


def pack_words(rng):
    """Options of pack, each at most once, as pairs of name and value."""
    made = {}
    codec = rng.choice((None, "rice", "rice", "plio", "none"))
    if codec:
        made["--codec"] = codec
    if codec in (None, "rice") and rng.random() < 0.4:
        made["--block"] = str(rng.choice((1, 2, 16, 31, 32, 33, 32767, rng.randint(1, 64))))
    if rng.random() < 0.6:
        made["--tile"] = ",".join(str(rng.choice((1, 2, 3, 7, 32, 2147483647))) for _ in range(rng.randint(1, 4)))
    if rng.random() < 0.3:
        made["--sums"] = None
    return made
