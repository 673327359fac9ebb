#!/usr/bin/env python3
"""run.py [--small] [--out OUT] [FOLDER]: how the time and the memory of pack, unpack, verify, list and cut grow.

What grows is the HDUs of a file, the tiles of an image, the cards of a header, or the bytes of an image. Each job has one worker; its
time is the least of three runs, in which the jobs take turns, and its most resident memory is that of one run more, by the command
time. All figures go to OUT/growth.csv and a picture of the processor time to OUT/growth.svg; printed are the first and the last of
each row. OUT is the current folder, if no other is given. The files that are packed are made in FOLDER (the folder for temporary
files), one at a time, and removed; it needs 5 GB free. --small takes fewer and smaller files, and one run. FZ names another program
than the one that rt ci leaves.
"""
import argparse
import csv
import itertools
import math
import os
import shutil
import sys
import tempfile
from dataclasses import dataclass
from pathlib import Path
from typing import Callable

TOP = Path(__file__).resolve().parents[2]
sys.path.insert(0, str(TOP / "bench"))
from images import card, image_header, noise, write_file
from picture import Panel, picture
from timing import peak, remove, run

PASSES = 3
JOBS = ("pack", "unpack", "verify", "list", "cut")
# The most pixels that a cutout has along an axis.
CUT = 100
# The cards that each primary image has: SIMPLE, BITPIX, NAXIS, NAXIS1, NAXIS2 and END.
OWN_CARDS = 6
# Bytes of disk for each byte of the plain file: that file, the packed one, and the one that is unpacked.
ROOM = 2.5


@dataclass
class Growth:
    """What grows, at which steps; and of a step the axes of an image, the number of images, and the cards of the first header."""

    name: str
    title: str
    unit: str
    steps: tuple
    small: tuple
    axes: Callable = lambda _: (32, 32)
    hdus: Callable = lambda _: 1
    cards: Callable = lambda _: OWN_CARDS

    def bytes_of(self, step):
        return self.hdus(step) * (2880 + 2 * math.prod(self.axes(step)))


GROWTHS = (
    Growth("hdus", "Images of 32 × 32 pixels in a file", "HDUs", tuple(4**it for it in range(8)), (1, 16, 256, 1024), hdus=lambda n: n),
    Growth("tiles", "Tiles of 16 pixels in an image", "tiles", tuple(4**it for it in range(3, 10)), (64, 1024, 16384), axes=lambda n: (16, n)),
    Growth("cards", "Cards in the header of an image", "cards", (36, 144, 576, 2304, 9000), (36, 576, 9000), cards=lambda n: n),
    Growth("size", "An image in rows of 4096 pixels", "GB", (0.1, 0.2, 0.5, 1, 2), (0.05, 0.1, 0.2), axes=lambda n: (4096, round(n * 1e9 / 8192))),
)


@dataclass
class Row:
    """What a job took at a step, in seconds and megabytes."""

    name: str
    step: float
    job: str
    processor: float
    wall: float
    resident: float


def write(path, growth, step):
    """The plain file of a step."""
    columns, rows = growth.axes(step)
    hdus = growth.hdus(step)
    pixels = noise(1, columns, rows * hdus)
    more = [card(f"K{it:07}", it) for it in range(growth.cards(step) - OWN_CARDS)]
    tops = (image_header(16, (columns, rows), it == 0, () if it else more) for it in range(hdus))
    write_file(path, ((top, itertools.islice(pixels, rows)) for top in tops))


def box_of(axes):
    """A box in the middle of an image, as cut is given it."""
    lows = [max(0, (it - CUT) // 2) for it in axes]
    return ",".join(f"{low + 1}:{low + min(CUT, it)}" for low, it in zip(lows, axes))


def commands(fz, growth, step, plain, packed, out):
    """The words of each job, and the file that it makes; cut is of the last image."""
    hdu, box = str(growth.hdus(step)), box_of(growth.axes(step))
    return {
        "pack": ([fz, "pack", "--sums", plain, packed], packed),
        "unpack": ([fz, "unpack", packed, out], out),
        "verify": ([fz, "verify", packed], out),
        "list": ([fz, "list", packed], out),
        "cut": ([fz, "cut", "--hdu", hdu, "--box", box, packed, out], out),
    }


def measured(fz, folder, growth, step, passes):
    """The rows of a step."""
    plain, packed, out = (f"{folder}/{it}" for it in ("plain.fits", "packed.fits", "out.fits"))
    write(Path(plain), growth, step)
    jobs, least, resident = commands(fz, growth, step, plain, packed, out), {}, {}
    for _ in range(passes):
        for job, (words, made) in jobs.items():
            remove(made)
            took = run(words)
            least[job] = took.least(least.get(job, took))
    for job, (words, made) in jobs.items():
        remove(made)
        resident[job] = peak(words)
    remove(plain, packed, out)
    return [Row(growth.name, step, it, least[it].processor, least[it].wall, resident[it]) for it in JOBS]


def figures(row):
    """Milliseconds of processors and on the clock, and megabytes."""
    resident = "" if row.resident is None else f"{row.resident:.1f}"
    return [f"{1000 * row.processor:.2f}", f"{1000 * row.wall:.2f}", resident]


def write_table(path, rows):
    with open(path, "w", newline="", encoding="utf-8") as file:
        table = csv.writer(file)
        table.writerow(["growth", "step", "job", "processor ms", "wall ms", "resident MB"])
        table.writerows([it.name, it.step, it.job, *figures(it)] for it in rows)


def print_ends(growth, rows):
    """Of each job the first and the last step, and the exponent of the growth from the last step but one to the last."""
    first, last = rows[0].step, rows[-1].step
    for job in JOBS:
        own = [it for it in rows if it.job == job]
        exponent = math.log(own[-1].processor / own[-2].processor) / math.log(own[-1].step / own[-2].step)
        ends = " | ".join(", ".join(figures(it)) for it in (own[0], own[-1]))
        print(f"| {first:,} to {last:,} {growth.unit} | `{job}` | {ends} | {exponent:.2f} |", flush=True)


def panel_of(growth, rows):
    lines = {job: [(it.step, it.processor) for it in rows if it.job == job] for job in JOBS}
    return Panel(growth.title, growth.unit, lines)


def measure_all(fz, folder, small, out):
    """Measures each growth, and writes the table and the picture."""
    everything, panels = [], []
    print("| What grows | Job | First step | Last step | Exponent |\n|---|---|---|---|---|")
    for growth in GROWTHS:
        steps, passes = (growth.small, 1) if small else (growth.steps, PASSES)
        rows = [row for step in steps for row in measured(fz, folder, growth, step, passes)]
        print_ends(growth, rows)
        everything += rows
        panels.append(panel_of(growth, rows))
        write_table(out / "growth.csv", everything)
    (out / "growth.svg").write_text(picture(panels, JOBS), encoding="utf-8")


def main():
    asked = argparse.ArgumentParser(description=__doc__.partition("\n")[0])
    asked.add_argument("--small", action="store_true")
    asked.add_argument("--out", default=".", type=Path)
    asked.add_argument("folder", nargs="?", default=tempfile.gettempdir())
    given = asked.parse_args()
    fz = os.path.abspath(os.environ.get("FZ", TOP / "crates" / "fz" / "out" / "fz"))
    if not os.access(fz, os.X_OK):
        sys.exit(f"bench/growth/run.py: {fz} is not there: rt ci builds it")
    most = max(it.bytes_of(step) for it in GROWTHS for step in (it.small if given.small else it.steps))
    if shutil.disk_usage(given.folder).free < ROOM * most:
        sys.exit(f"bench/growth/run.py: {given.folder} needs {ROOM * most / 1e9:.1f} GB free")
    with tempfile.TemporaryDirectory(dir=given.folder) as folder:
        measure_all(fz, folder, given.small, given.out)


if __name__ == "__main__":
    main()
