#!/usr/bin/env python3
"""run.py FOLDER [--sections N] [--passes N] [--side N]: what a section of 100 x 100 pixels of a packed image costs, by several readers.

The image, 4,096 pixels square with 16 bits, is made in FOLDER and packed by fpack, in rows and in squares of 100 x 100. Each reader reads
the same N sections at random places; readers take turns, and the least of the passes counts, in milliseconds of processors for a
section, and the ratio to what fitsio takes. Every section that `fzfits.open` reads is compared with the plain image. Readers that are not
installed are left out by name.
Needs numpy and fpack; FZ_LIBRARY names libfz.
"""
import argparse
import importlib
import os
import random
import subprocess
import sys
import time
import warnings
from pathlib import Path

TOP = Path(__file__).resolve().parents[2]
sys.path[:0] = [str(TOP / "bench"), str(TOP / "python")]
import numpy as np  # noqa: E402

import fzfits  # noqa: E402
from images import image_header, noise, write_file  # noqa: E402

PIECE = 100
TILES = {"rows": [], "squares": ["-t", f"{PIECE},{PIECE}"]}
# How many of the sections a slow reader reads.
FEW = 20


def imported(name):
    """A module, or None."""
    try:
        return importlib.import_module(name)
    except ImportError:
        print(f"left out: {name} is not installed")
        return None


def files(folder, side):
    """The plain image, and the packed files by the name of their tiles."""
    plain = folder / f"plain{side}.fits"
    write_file(plain, [(image_header(16, [side, side]), noise(7, side, side))])
    packed = {}
    for name, words in TILES.items():
        packed[name] = folder / f"{name}{side}.fits.fz"
        if not packed[name].exists():
            subprocess.run(["fpack", "-r", *words, "-O", packed[name], plain], check=True)
    data = np.memmap(plain, ">i2", "r", 2880, (side, side))
    return data, packed


def kept(image):
    """A reader of sections of an image that stays open."""
    return lambda y, x: image[y : y + PIECE, x : x + PIECE]


def by_open(path):
    """`fzfits.open`, for each section."""

    def read(y, x):
        with fzfits.open(path) as file:
            return file[1][y : y + PIECE, x : x + PIECE]

    return read


def readers(path, fitsio, fits):
    """Names, how many sections are read, and what reads one."""
    yield "fzfits.open, kept", None, kept(fzfits.open(path)[1])
    yield "fzfits.open, each time", None, by_open(path)
    if fitsio:
        yield f"fitsio {fitsio.__version__}, kept", None, kept(fitsio.FITS(str(path))[1])
        yield f"fitsio {fitsio.__version__}, each time", None, lambda y, x: fitsio.FITS(str(path))[1][y : y + PIECE, x : x + PIECE]
    if fits:
        yield "astropy, data, each time", 2, lambda y, x: fits.open(path)[1].data[y : y + PIECE, x : x + PIECE]
    try:
        fzfits.program.find()
        yield "fzfits.section (runs fz cut)", FEW, lambda y, x: fzfits.section(path, 1, np.s_[y : y + PIECE, x : x + PIECE])
    except fzfits.NoProgram:
        print("left out: the program fz is not there")


def milliseconds(read, places):
    """What a section costs."""
    begin, children = time.process_time(), os.times()
    for y, x in places:
        read(y, x)
    ended = os.times()
    more = ended.children_user + ended.children_system - children.children_user - children.children_system
    return (time.process_time() - begin + more) / len(places) * 1000


def ratios(name, least):
    """What `fzfits.open` takes of what fitsio takes, both kept open and both opened each time."""
    for how in ("kept", "each time"):
        theirs = next((it for it in least if it.startswith("fitsio") and it.endswith(how)), None)
        if theirs:
            yield f"{name:8} {least[f'fzfits.open, {how}'] / least[theirs]:8.2f} of what {theirs} takes"


def main():
    warnings.simplefilter("ignore")
    arguments = argparse.ArgumentParser(description=__doc__, formatter_class=argparse.RawDescriptionHelpFormatter)
    arguments.add_argument("folder", type=Path)
    arguments.add_argument("--sections", type=int, default=200)
    arguments.add_argument("--passes", type=int, default=5)
    arguments.add_argument("--side", type=int, default=4096)
    given = arguments.parse_args()
    given.folder.mkdir(parents=True, exist_ok=True)
    data, packed = files(given.folder, given.side)
    fitsio, fits = imported("fitsio"), imported("astropy.io.fits")
    rng = random.Random(3)
    places = [(rng.randrange(given.side - PIECE), rng.randrange(given.side - PIECE)) for _ in range(given.sections)]
    for name, path in packed.items():
        these = list(readers(path, fitsio, fits))
        for y, x in places:
            if not np.array_equal(these[0][2](y, x), data[y : y + PIECE, x : x + PIECE]):
                sys.exit(f"{path}: the section at {y}, {x} has other pixels")
        least = {}
        for _ in range(given.passes):
            for what, few, read in these:
                least[what] = min(least.get(what, 1e9), milliseconds(read, places[:few]))
        for what, took in least.items():
            print(f"{name:8} {took:8.3f} ms  {what}")
        for line in ratios(name, least):
            print(line, flush=True)
    print(f"load {os.getloadavg()[0]:.0f}; {given.sections} sections, all as in the plain image")


if __name__ == "__main__":
    main()
