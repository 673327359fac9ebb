"""The options of the commands of fzbatch."""
from __future__ import annotations

import argparse
import os

from . import before, machine

FZ = "the program fz, if it is not in PATH and not named by the variable FZ"


def without(made: argparse.ArgumentParser) -> None:
    """The option of commands that look for plain files."""
    made.add_argument("--without-plain", action="store_true", help="the plain files were deleted on purpose: that they are gone is no fault")


def job_words(made: argparse.ArgumentParser) -> None:
    """The options of commands that call fz for many files."""
    made.add_argument("--jobs", type=count, default=machine.processors(), metavar="N", help="how many files at once (as many as processors may be used)")
    made.add_argument("--memory", type=size, default=0, metavar="BYTES", help="the limit on the buffers of each fz, such as 500M or 2G (half of the memory of the machine, shared by the jobs)")
    made.add_argument("--time-limit", type=seconds, default=0.0, metavar="SECONDS", help="the time for each run of fz (300 s, and 1 s more for each MB)")
    made.add_argument("--fz", metavar="PROGRAM", help=FZ)
    made.add_argument("--all", action="store_true", help="name all files in the summary, not only the first five of each cause")


def path(text: str) -> bytes:
    """The name of a folder or of a manifest. An empty one would be that of the folder in which fzbatch is called."""
    if not text:
        raise argparse.ArgumentTypeError("a name is empty: has a variable of the shell no value?")
    return os.fsencode(text)


def count(text: str) -> int:
    """A number of jobs."""
    found = int(text) if text.isascii() and text.isdigit() else 0
    if not 1 <= found <= 4096:
        raise argparse.ArgumentTypeError(f"{text!r} is no number from 1 to 4096")
    return found


def positive(text: str) -> int:
    """A number above 0."""
    if not (text.isascii() and text.isdigit() and int(text)):
        raise argparse.ArgumentTypeError(f"{text!r} is no number above 0")
    return int(text)


def size(text: str) -> int:
    """A number of bytes."""
    try:
        return before.size_of(text)
    except ValueError as error:
        raise argparse.ArgumentTypeError(str(error)) from error


def seconds(text: str) -> float:
    """A time."""
    try:
        found = float(text)
    except ValueError:
        found = -1.0
    if not 0 <= found < 1e9:
        raise argparse.ArgumentTypeError(f"{text!r} is no number of seconds")
    return found


def choosing_words(made: argparse.ArgumentParser, are_shown: bool = True) -> None:
    """Which files. A command that takes none of these reads them, too, and does not show them: it rejects each by name."""

    def told(says: str) -> str:
        return says if are_shown else argparse.SUPPRESS

    made.add_argument("--include", action="append", default=[], type=os.fsencode, metavar="PATTERN", help=told("only files whose name fits, such as '*.fits'; with a / in it, whose path below the folder fits, such as 'night1/*'"))
    made.add_argument("--exclude", action="append", default=[], type=os.fsencode, metavar="PATTERN", help=told("no files that fit"))
    made.add_argument("--from-list", metavar="FILE", help=told("only the files that FILE names, one on each line or with null bytes, as fzbatch missing -0 prints them; - is standard input"))
    made.add_argument("-n", "--dry-run", action="store_true", help=told("say what would be done, and write nothing"))
    made.add_argument("--tell-idle", action="store_true", help=told("end with status 4 if there was nothing to do"))


def telling_words(made: argparse.ArgumentParser) -> None:
    """What is said of the files."""
    made.add_argument("-q", "--quiet", action="store_true", help="print nothing if all is well, and only what is not")
    made.add_argument("--log", metavar="FILE", help="add a line with the time to FILE for each file")


def rebuild_words(made: argparse.ArgumentParser) -> None:
    """The options of rebuild."""
    job_words(made)
    made.add_argument("--accept-wrong-sums", action="store_true", help="take files with a wrong checksum into the manifest too, which keeps that")
    made.add_argument("--ignore-copy", action="store_true", help="do not read the second copy of the manifest")
    made.add_argument("--again", action="store_true", help="read all packed files anew, although the manifest is whole")


def run_words(made: argparse.ArgumentParser, verb: str) -> None:
    """The options of a run of this verb."""
    job_words(made)
    choosing_words(made)
    telling_words(made)
    made.add_argument("--engine", choices=("local", "parallel", "slurm", "dask"), default="local", help="what runs fz on the files (local)")
    made.add_argument("--sshlogin", action="append", default=[], metavar="MACHINES", help="for GNU parallel: machines, such as 8/node1,4/:")
    made.add_argument("--sshloginfile", metavar="FILE", help="for GNU parallel: a file with the machines")
    made.add_argument("--scheduler", default="", metavar="ADDRESS", help="for dask: the scheduler; without it, workers of this machine")
    made.add_argument("--allow-empty", action="store_true", help="the source may be empty, or have none of the files of the manifest")
    if verb == "verify":
        made.add_argument("--sha256-only", action="store_true", help="only compare SHA-256, and do not decode tiles")
    if verb == "compare":
        without(made)
    if verb != "pack":
        return
    made.add_argument("--codec", choices=("rice", "plio", "none"), help="rice for images (default), plio for masks, none to store tiles as they are")
    made.add_argument("--tile", metavar="A,B,..", help="pixels of a tile along each axis, such as 256,256 (default: one row)")
    made.add_argument("--block", type=positive, metavar="N", help="pixels of a block of a Rice code, 16 or 32 (32)")
    made.add_argument("--workers", type=positive, metavar="N", help="threads of each fz, 1 to 64 (1); for many files more --jobs are better")
    made.add_argument("--no-sums", action="store_true", help="add no DATASUM and CHECKSUM to the packed tables")
    made.add_argument("--compare", action="store_true", help="also unpack each packed file and compare it with the plain file")
    made.add_argument("--update", action="store_true", help="if the plain or the packed file has changed, pack again and replace the packed file")
    made.add_argument("--retry", action="store_true", help="try again files that were rejected and have not changed since")
    made.add_argument("--accept-wrong-sums", action="store_true", help="pack files with a wrong checksum too, as they are; the manifest keeps that, and it is shown for ever")
    made.add_argument("--skip-links", action="store_true", help="symbolic links may be left out, which the manifest keeps")
    made.add_argument("--skip-compressed", action="store_true", help="FITS files that another program compressed (.fits.gz) may be left out, which the manifest keeps")
    made.add_argument("--skip-nothing", action="store_true", help="links and compressed files may not be left out any more")
