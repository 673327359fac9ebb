#!/usr/bin/env python3
"""run.py [--rows N] [--most RATIO] [--passes N] FOLDER: what `retile` takes, divided by what `unpack` and then `pack` take.

The image has rows of 2,048 counts of 16 bits, noise with a standard deviation of 12. It is packed in some tiles, and then packed again
in others: by `retile`, and by `unpack` and `pack` by way of a plain file; both must make the same file. The runs of a pair take
turns, --passes times, and the least of each counts, so a ratio is of one run of the bench on one machine. What is compared are the
seconds of processors, which other work on the machine hardly changes; the time on the clock is printed beside them. It makes its files
in FOLDER (a folder in memory is best) and removes them. FZ names another program than the one that rt ci leaves. The status is 1 if a
ratio of processor seconds is above --most.
"""
import argparse
import filecmp
import os
import sys
import tempfile
from pathlib import Path

TOP = Path(__file__).resolve().parent.parent.parent
sys.path.insert(0, str(TOP / "bench"))
from images import image_header, noise, write_file
from timing import remove, run

COLUMNS = 2048
# From which tiles to which: rows, squares, short pieces of rows, and strips of many rows.
PAIRS = (
    ("2048,1", "2048,1"),
    ("2048,1", "128,128"),
    ("128,128", "2048,1"),
    ("100,100", "64,64"),
    ("2048,1", "16,1"),
    ("2048,64", "2048,1"),
)
WORKERS = (1, 4)


def pair(fz, folder, old, new, workers, passes):
    """The least of retile, and of unpack and pack together."""
    plain, packed, between, one, two = (folder / it for it in ("plain.fits", "packed.fits", "between.fits", "one.fits", "two.fits"))
    count = ["--workers", str(workers)]
    remove(packed)
    run([fz, "pack", "--tile", old, plain, packed])
    at_once = in_two = None
    for _ in range(passes):
        remove(between, one, two)
        took = run([fz, "retile", "--tile", new, *count, packed, one])
        first, second = run([fz, "unpack", *count, packed, between]), run([fz, "pack", "--tile", new, *count, between, two])
        both = type(took)(first.wall + second.wall, first.processor + second.processor)
        at_once = took.least(at_once) if at_once else took
        in_two = both.least(in_two) if in_two else both
    if not filecmp.cmp(one, two, shallow=False):
        sys.exit(f"retile from {old} to {new} makes another file than unpack and pack")
    remove(packed, between, one, two)
    return at_once, in_two


def main():
    parser = argparse.ArgumentParser(description=__doc__, formatter_class=argparse.RawDescriptionHelpFormatter)
    parser.add_argument("--rows", type=int, default=2048)
    parser.add_argument("--most", type=float, default=3.0)
    parser.add_argument("--passes", type=int, default=3)
    parser.add_argument("folder")
    asked = parser.parse_args()
    fz = os.path.abspath(os.environ.get("FZ", TOP / "crates" / "fz" / "out" / "fz"))
    greatest = 0
    with tempfile.TemporaryDirectory(prefix="fz-retile-", dir=asked.folder) as made:
        folder = Path(made)
        write_file(folder / "plain.fits", [(image_header(16, (COLUMNS, asked.rows)), noise(1, COLUMNS, asked.rows))])
        print("| From tiles | to | workers | `retile` | `unpack`, `pack` | ratio | ratio on the clock |")
        print("|---|---|---|---|---|---|---|")
        for old, new in PAIRS:
            for workers in WORKERS:
                at_once, in_two = pair(fz, folder, old, new, workers, asked.passes)
                ratio = at_once.processor / in_two.processor
                greatest = max(greatest, ratio)
                times = f"{1000 * at_once.processor:.1f} ms | {1000 * in_two.processor:.1f} ms"
                print(f"| {old} | {new} | {workers} | {times} | {ratio:.2f} | {at_once.wall / in_two.wall:.2f} |", flush=True)
    print(f"the greatest ratio is {greatest:.2f}, and {asked.most} is the most")
    return 1 if greatest > asked.most else 0


if __name__ == "__main__":
    sys.exit(main())
