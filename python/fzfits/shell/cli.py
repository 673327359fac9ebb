"""The command `fzfits`: its words, and what each calls."""
from __future__ import annotations

import argparse
import os
import re
import sys
from typing import Any, Callable, Optional, Sequence

from .. import version
from ..errors import FzError, NoProgram, shown
from ..mend import OPTIONS
from . import checking, listing, packing, planning, told

PROGRAM = "fzfits"
OK, NOT_DONE, USAGE = 0, 1, 2
UNITS = {"": 1, "K": 1 << 10, "M": 1 << 20, "G": 1 << 30}
NAME = "a file; in brackets after its name may follow the HDU and a section, as cfitsio writes them: 'f.fz[SCI][1:100,*:2]'"
EPILOG = "Status 0: all files are done and right; 1: a file is not, or something in it is wrong; 2: the command line is invalid."

Call = Callable[[str, argparse.Namespace], int]


def main(words: Optional[Sequence[str]] = None) -> int:
    """Does what the command line says for each file, and gives the status."""
    for it in (sys.stdout, sys.stderr):
        if hasattr(it, "reconfigure"):
            it.reconfigure(errors="backslashreplace")
    given = list(sys.argv[1:] if words is None else words)
    if given[:1] == ["look"]:
        from ..batch.cli import main as batch  # pylint: disable=import-outside-toplevel

        return batch(given, PROGRAM)
    asked = parser().parse_args(given)
    outs = [it for it in asked.files[1:] if it.endswith(".fz") and not os.path.lexists(it)] if asked.verb == "pack" else []
    if outs:
        return wrong(f"{PROGRAM} pack: {shown(outs[0])} is not there: pack takes input files only; name the output with -o {told.name(outs[0])}", USAGE)
    tile = getattr(asked, "tile", None)
    if tile and "x" in tile:
        return wrong(f"{PROGRAM} {asked.verb}: --tile {shown(tile)}: write {shown(tile.replace('x', ','))}", USAGE)
    if getattr(asked, "out", None) and len(asked.files) > 1:
        return wrong(f"{PROGRAM} {asked.verb}: -o names one output, and there are {len(asked.files)} files: use --folder", USAGE)
    try:
        return max([one(it, asked) for it in asked.files])
    except NoProgram as error:
        return wrong(f"{PROGRAM} {asked.verb}: {str(error).replace('program=... or ', '')}", NOT_DONE)
    except BrokenPipeError:
        os.dup2(os.open(os.devnull, os.O_WRONLY), sys.stdout.fileno())
        return NOT_DONE
    except KeyboardInterrupt:
        return wrong(f"{PROGRAM} {asked.verb}: stopped; nothing is left of the file that was being made", 130)


def wrong(said: str, status: int) -> int:
    """Prints what is wrong on standard error, and gives the status."""
    sys.stdout.flush()
    print(said, file=sys.stderr)
    return status


def one(path: str, asked: argparse.Namespace) -> int:
    """Does the command for one file. What is wrong with it is printed, and does not stop the others."""
    try:
        status: int = asked.call(path, asked)
        return status
    except (NoProgram, BrokenPipeError):
        raise
    except (FzError, OSError) as error:
        said = told.message(error, None if isinstance(error, OSError) else getattr(error, "path", None))
    except (ValueError, IndexError) as error:
        said = told.message(error, path)
    return wrong(f"{PROGRAM} {asked.verb}: {said}", NOT_DONE)


def size_of(text: str) -> int:
    """A number of bytes: 2G is 2,147,483,648."""
    found = re.fullmatch(r"(\d+)([KMG]?)i?B?", text.strip(), re.IGNORECASE)
    if found is None:
        raise argparse.ArgumentTypeError(f"{text!r} is no number of bytes: write 4000000, 500M or 2G")
    return int(found[1]) * UNITS[found[2].upper()]


def parser() -> argparse.ArgumentParser:
    """The words of the command."""
    whole = argparse.ArgumentParser(prog=PROGRAM, description="Compresses integer images in FITS files losslessly, restores, checks and cuts them, by calls of fz.", epilog=EPILOG)
    whole.add_argument("--version", action="version", version=version.shown(PROGRAM))
    verbs = whole.add_subparsers(dest="verb", required=True, metavar="COMMAND")
    verb(verbs, "list", "print what is in each file: names, types, axes, codecs, ratios", listing.list_file)
    pack_words(verb(verbs, "pack", "compress each file FILE to FILE.fz", packing.pack_file))
    unpack = verb(verbs, "unpack", "restore each file FILE.fz as FILE, byte for byte", packing.unpack_file)
    out_words(unpack)
    work_words(unpack)
    verify = verb(verbs, "verify", "check every checksum, and decode every tile that fz can decode", checking.verify_file)
    verify.add_argument("--no-images", action="store_true", help="do not restore images to check the checksums that they had before they were packed")
    verify.add_argument("--strict", action="store_true", help="also say whether fz pack writes this very file")
    verify.add_argument("-v", "--verbose", action="store_true", help="print a line for every HDU")
    verify.add_argument("-q", "--quiet", action="store_true", help="print only what is wrong")
    cut_words(verbs)
    why = verb(verbs, "why", "say in words why a file is rejected, and what to do", listing.why_file)
    why.add_argument("--pack", action="store_true", help="of a file with packed images: why pack rejects it (otherwise: why unpack does)")
    mend_words(verbs)
    verb(verbs, "plan", "try codecs and tiles: sizes, and which programs will read the file", planning.plan_file)
    header = verb(verbs, "header", "print the cards of every HDU, or of one", listing.header_of_file)
    header.add_argument("--hdu", default="", metavar="HDU", help="its number, EXTNAME, or EXTNAME,EXTVER; 'f.fits[SCI]' does the same")
    verbs.add_parser("look", help="write a picture of a FITS file, or a page of small ones of a folder, as fzbatch look does")
    return whole


def verb(verbs: Any, name: str, says: str, call: Call, several: bool = True) -> argparse.ArgumentParser:
    """A command that takes files, or one."""
    made: argparse.ArgumentParser = verbs.add_parser(name, help=says, description=says[0].upper() + says[1:] + ".", epilog=EPILOG)
    made.add_argument("files", metavar="FILE", nargs="+" if several else 1, help="a FITS file" if name != "cut" else NAME)
    made.set_defaults(call=call)
    return made


def out_words(made: argparse.ArgumentParser) -> None:
    """Where outputs go. An output must not exist."""
    where = made.add_mutually_exclusive_group()
    where.add_argument("-o", "--out", metavar="OUT", help="the output, if there is one FILE; it must not exist")
    where.add_argument("--folder", metavar="DIR", help="put the outputs into this folder")
    made.add_argument("-q", "--quiet", action="store_true", help="print only what is wrong")


def work_words(made: argparse.ArgumentParser) -> None:
    """What the work may use."""
    made.add_argument("--workers", type=int, metavar="N", help="threads that code tiles, 1 to 64 (1)")
    made.add_argument("--memory", type=size_of, metavar="BYTES", help="the limit on buffers, such as 500M or 2G (4G)")


def pack_words(made: argparse.ArgumentParser) -> None:
    """The options of `pack`."""
    made.add_argument("--codec", choices=("rice", "plio", "none"), help="rice for images (default), plio for masks, none to store tiles as they are")
    made.add_argument("--tile", metavar="A,B,..", help="pixels of a tile along each axis, such as 256,256 (default: one row)")
    made.add_argument("--block", type=int, metavar="N", help="pixels of a block of a Rice code, 16 or 32 (32)")
    made.add_argument("--no-sums", action="store_true", help="add no DATASUM and CHECKSUM to packed images")
    made.add_argument("--delete", action="store_true", help="remove FILE after its packed file is on the disk, was unpacked again and is the same, byte for byte")
    out_words(made)
    work_words(made)


def cut_words(verbs: Any) -> None:
    """The options of `cut`."""
    made = verb(verbs, "cut", "write a part of an image, packed or plain, to a file of its own", packing.cut_file, several=False)
    made.add_argument("out", metavar="OUT", help="the new file; it must not exist")
    made.add_argument("-q", "--quiet", action="store_true", help="print only what is wrong")
    work_words(made)


def mend_words(verbs: Any) -> None:
    """The options of `mend`."""
    made = verb(verbs, "mend", "write a copy of a file without those faults that you name", packing.mend_file, several=False)
    made.add_argument("out", metavar="OUT", help="the new file; it must not exist")
    says = {
        "header_fill": "make what follows END in a header blanks (6 HeaderFill)",
        "data_fill": "make what follows the data in their last block zeros (7 DataFill)",
        "pad": "add the zeros that the last block lacks (2 Truncated)",
        "trailing": "cut off what follows the last HDU (8 TrailingBytes)",
        "part_hdu": "cut off the last HDU if it is not whole (2 Truncated)",
        "zsimple": "remove ZSIMPLE beside ZTENSION (5 Duplicate)",
    }
    for it in OPTIONS:
        made.add_argument(told.option(it), action="store_true", dest=it, help=says[it])
    made.add_argument("--sums", action="store_true", help="make anew the checksums that are wrong, and those of changed HDUs")
