#!/usr/bin/env python3
"""run.py [--files N] [--runs N] [--room DIR]: times fzbatch on small files beside fpack and fitsverify, and says what costs what.

N files (300) of 37 kB, images of 128 x 135 pixels of 16 bits, are made in DIR (a folder for temporary files), which should be on a
disk. Each command is run N times (5), one after another in turns, so that all meet the same load. Needs fpack and fitsverify;
strace, if it is installed, counts calls. FZ names the program.
"""
import argparse
import os
import re
import shutil
import statistics
import subprocess
import sys
import tempfile
import time
from itertools import islice
from pathlib import Path

TOP = Path(__file__).resolve().parents[2]
sys.path[:0] = [str(TOP / "bench")]
from images import image_header, noise, write_file  # noqa: E402
from timing import Took, processor_seconds  # noqa: E402

COLUMNS, ROWS = 128, 135
FZBATCH = [sys.executable, str(TOP / "tools" / "fzbatch")]
# What changes a disk or waits for one, and what starts programs.
COUNTED = ("execve", "fsync", "fdatasync", "syncfs", "linkat", "rename")


def fresh(*folders):
    """Removes folders, and waits until the disk is quiet."""
    for it in folders:
        shutil.rmtree(it, ignore_errors=True)
    os.sync()


def took(words, cwd):
    """What a command of the shell takes on the clock and of processors."""
    before, begin = processor_seconds(), time.perf_counter()
    subprocess.run(words, cwd=cwd, stdout=subprocess.DEVNULL, stderr=subprocess.DEVNULL, check=True)
    return Took(time.perf_counter() - begin, processor_seconds() - before)


class Bench:
    """The folders of one bench, and the commands that are timed in them."""

    def __init__(self, room, files):
        self.room, self.files = room, files
        self.plain, self.packed, self.theirs = room / "plain", room / "packed", room / "theirs"
        self.plain.mkdir()
        rows = noise(7, COLUMNS, ROWS * files)
        for it in range(files):
            path = self.plain / f"image{it:04}.fits"
            write_file(path, [(image_header(16, [COLUMNS, ROWS]), islice(rows, ROWS))])
            os.utime(path, (1_700_000_000, 1_700_000_000))

    def commands(self):
        """Names, what is done before, and the words of each command."""
        jobs = len(os.sched_getaffinity(0))
        each = f"find {self.packed} -name '*.fz' -print0 | xargs -0 -n 1 -P {jobs} {os.environ['FZ']} verify"
        return (
            ("fpack *.fits; sync", self.copied, ["sh", "-c", "fpack *.fits && sync"], self.theirs),
            ("fzbatch pack", lambda: fresh(self.packed), [*FZBATCH, "pack", str(self.plain), str(self.packed)], self.room),
            ("fitsverify *.fz", None, ["sh", "-c", "fitsverify -q *.fz"], self.theirs),
            ("fzbatch verify", None, [*FZBATCH, "verify", str(self.packed)], self.room),
            (f"fz verify by xargs -P {jobs}", None, ["sh", "-c", each], self.room),
            ("fzbatch --version", None, [*FZBATCH, "--version"], self.room),
        )

    def copied(self):
        """A fresh copy of the plain files for fpack, which packs beside them."""
        fresh(self.theirs)
        shutil.copytree(self.plain, self.theirs)
        os.sync()

    def times(self, runs):
        """Prints the least and the median of each command."""
        found = {}
        for _ in range(runs):
            for name, before, words, cwd in self.commands():
                if before:
                    before()
                found.setdefault(name, []).append(took(words, cwd))
        print(f"| {self.files} files | clock, least | clock, median | processors, least |\n|---|---|---|---|")
        for name, each in found.items():
            wall = [it.wall for it in each]
            print(f"| `{name}` | {min(wall):.2f} s | {statistics.median(wall):.2f} s | {min(it.processor for it in each):.2f} s |")
        print("load average:", " ".join(f"{it:.1f}" for it in os.getloadavg()))

    def calls(self):
        """Prints how often each command makes the calls that cost most."""
        if not shutil.which("strace"):
            print("left out, since strace is not installed: how many calls", file=sys.stderr)
            return
        for name, before, words, cwd in self.commands()[1:4:2]:
            if before:
                before()
            told = self.room / "calls"
            subprocess.run(["strace", "-f", "-c", "-o", told, "-e", f"trace={','.join(COUNTED)}", *words], cwd=cwd, stdout=subprocess.DEVNULL, check=True)
            rows = re.findall(r"^ *[\d.]+ +[\d.]+ +\d+ +(\d+) +(?:\d+ +)?(\w+)$", told.read_text(), re.MULTILINE)
            print(f"{name}:", ", ".join(f"{count} {call}" for count, call in rows if call in COUNTED))


def main():
    words = argparse.ArgumentParser(description=__doc__, formatter_class=argparse.RawDescriptionHelpFormatter)
    words.add_argument("--files", type=int, default=300)
    words.add_argument("--runs", type=int, default=5)
    words.add_argument("--room", default=None)
    asked = words.parse_args()
    lacks = [it for it in ("fpack", "fitsverify") if not shutil.which(it)]
    if lacks:
        sys.exit(f"{', '.join(lacks)} is not installed")
    os.environ["FZ"] = os.path.abspath(os.environ.get("FZ", TOP / "crates" / "fz" / "out" / "fz"))
    with tempfile.TemporaryDirectory(dir=asked.room) as room:
        bench = Bench(Path(room), asked.files)
        bench.times(asked.runs)
        bench.calls()


if __name__ == "__main__":
    main()
