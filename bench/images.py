"""FITS images for the benches, made from a seed with the standard library."""
import random
import sys
from array import array
from functools import lru_cache
from pathlib import Path

sys.path.insert(0, str(Path(__file__).resolve().parent.parent / "tools"))
from making.fits import BLOCK, card, header

__all__ = ["BLOCK", "card", "image_header", "noise", "write_file"]


def image_header(bitpix, axes, first=True, more=()):
    """The header of a primary image, or of an extension, with further cards at its end."""
    cards = [card("SIMPLE", True) if first else card("XTENSION", "IMAGE"), card("BITPIX", bitpix), card("NAXIS", len(axes))]
    cards += [card(f"NAXIS{it + 1}", length) for it, length in enumerate(axes)]
    if not first:
        cards += [card("PCOUNT", 0), card("GCOUNT", 1)]
    return header([*cards, *more])


@lru_cache(maxsize=1)
def million(seed):
    """A million pixels of 16 bits, noise with a standard deviation of 12, and the state of the generator after them."""
    rng = random.Random(seed)
    pixels = array("h", [round(1000 + rng.gauss(0, 12)) for _ in range(1_000_000)])
    pixels.byteswap()
    return pixels, rng.getstate()


def noise(seed, columns, rows):
    """Rows of noise, each a piece of the same million pixels."""
    pixels, state = million(seed)
    rng = random.Random()
    rng.setstate(state)
    for _ in range(rows):
        at = rng.randrange(len(pixels) - columns)
        yield pixels[at : at + columns].tobytes()


def write_file(path, hdus):
    """Writes a file of HDUs, each a header and the pieces of its data, unless it is there already."""
    if path.exists():
        return
    unfinished = path.with_suffix(".part")
    with unfinished.open("wb") as out:
        for top, pieces in hdus:
            out.write(top)
            for it in pieces:
                out.write(it)
            out.write(bytes(-out.tell() % BLOCK))
    unfinished.rename(path)
