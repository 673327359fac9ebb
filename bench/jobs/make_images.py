#!/usr/bin/env python3
"""make_images.py FOLDER: writes the images of the bench, seeded, where they are not there yet.

ccd.fits has 16-bit counts of a CCD: noise with a standard deviation of 12 over a slope; sky.fits the same in 32 bits over
a wider slope; mask.fits 8-bit flags in runs. Each has 4096 x 4096 pixels. large.fits has 10,000 x 10,000 pixels of noise in 16
bits; rows16.fits, rows100.fits and rows512.fits have the same noise in rows of 16, 100 and 512 pixels. holes.fits is a file of 10
GB whose data are holes: a primary without data and a hundred images of 10,000 x 5,000 pixels of 16 bits. It takes no room on most
disks.
"""
import random
import sys
from array import array
from pathlib import Path

sys.path.insert(0, str(Path(__file__).resolve().parent.parent))
from images import BLOCK, image_header, noise, write_file

SIDE = 4096
LARGE = 10_000
# How many rows the images with short rows have: 4.2, 10 and 16.8 million pixels.
SHORT = {16: 262_144, 100: 100_000, 512: 32_768}


def noisy(kind, slope, seed):
    """Rows of noise over a slope, as big-endian numbers."""
    rng = random.Random(seed)
    for y in range(SIDE):
        row = array(kind, [round(1000 + slope * (y + x) + rng.gauss(0, 12)) for x in range(SIDE)])
        row.byteswap()
        yield row.tobytes()


def flags(seed):
    """Rows of flags 0 to 3 in runs of 1 to 256 pixels, most of them 0."""
    rng = random.Random(seed)
    for _ in range(SIDE):
        row = bytearray()
        while len(row) < SIDE:
            row += bytes([rng.choice((0, 0, 0, 1, 2, 3))]) * rng.randint(1, 256)
        yield bytes(row[:SIDE])


def write(path, bitpix, rows, axes=(SIDE, SIDE)):
    write_file(path, [(image_header(bitpix, axes), rows)])


def write_holes(path, hdus, columns, rows):
    """A file of headers alone: nothing is written where the data stand."""
    if path.exists():
        return
    size = 2 * columns * rows
    unfinished = path.with_suffix(".part")
    with open(unfinished, "wb") as out:
        out.write(image_header(16, ()))
        for _ in range(hdus):
            out.write(image_header(16, (columns, rows), first=False))
            out.truncate(out.tell() + size + -size % BLOCK)
            out.seek(0, 2)
    unfinished.rename(path)


def main():
    folder = Path(sys.argv[1])
    folder.mkdir(parents=True, exist_ok=True)
    write(folder / "ccd.fits", 16, noisy("h", 0.5, 1))
    write(folder / "sky.fits", 32, noisy("i", 20.0, 2))
    write(folder / "mask.fits", 8, flags(3))
    write(folder / "large.fits", 16, noise(4, LARGE, LARGE), (LARGE, LARGE))
    for columns, rows in SHORT.items():
        write(folder / f"rows{columns}.fits", 16, noise(5, columns, rows), (columns, rows))
    write_holes(folder / "holes.fits", 100, 10_000, 5_000)


if __name__ == "__main__":
    main()
