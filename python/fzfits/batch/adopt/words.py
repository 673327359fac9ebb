"""The words of the commands on adopted folders: which commands there are, and which folder an earlier command means."""
from __future__ import annotations

import argparse
import os
from typing import Any, Callable, List, Optional

from .. import files, names, words_of
from . import named

# Commands that work on adopted folders only, and those that work on an archive of fzbatch pack too.
OWN = ("adopt", "retile")
BOTH = ("verify", "compare", "status", "missing", "report", "forget")


def add(verbs: Any) -> None:
    """Adds the commands of adopted folders, and the option that names their manifest to the others."""
    made = _verb(verbs, "adopt", "take a folder of FITS files of any packer under a manifest beside it: each file and each tile is checked, and nothing in the folder is changed")
    _everyday(made)
    made.add_argument("--engine", choices=("local", "parallel", "dask"), default="local", help="what reads the files (local)")
    made.add_argument("--sshlogin", action="append", default=[], metavar="MACHINES", help="for GNU parallel: machines, such as 8/node1,4/:")
    made.add_argument("--sshloginfile", metavar="FILE", help="for GNU parallel: a file with the machines")
    made.add_argument("--scheduler", default="", metavar="ADDRESS", help="for dask: the scheduler; without it, workers of this machine")
    made.add_argument("--reread", type=float, metavar="DAYS", help="also read files that look the same, if they were not read for so many days (0: all)")
    made.add_argument("--update", action="store_true", help="take files that changed or have another name as they are now")
    made.add_argument("--moved", action="store_true", help="the folder has another name than when it was adopted")
    made.add_argument("--allow-empty", action="store_true", help="the folder may be empty, or have none of the files of the manifest")
    made.add_argument("--skip-links", action="store_true", help="symbolic links may be left out, which the manifest keeps")
    made.add_argument("--skip-nothing", action="store_true", help="links may not be left out any more")
    again = _verb(verbs, "retile", "pack the packed files of an adopted folder again, in other tiles, each in its place, if the same file comes back from both")
    _everyday(again)
    again.add_argument("--codec", choices=("rice", "plio", "none"), help="rice for images (default), plio for masks, none to store tiles as they are")
    again.add_argument("--tile", metavar="A,B,..", help="pixels of a tile along each axis, such as 256,256 (default: one row)")
    again.add_argument("--block", type=words_of.positive, metavar="N", help="pixels of a block of a Rice code, 16 or 32 (32)")
    again.add_argument("--workers", type=words_of.positive, metavar="N", help="threads of each fz, 1 to 64 (1)")
    again.add_argument("--sums", action="store_true", help="add DATASUM and CHECKSUM to the packed tables")
    for name, other in (("pack", "plain"), ("restore", "packed")):
        verbs.choices[name].add_argument("--beside", action="store_true", help="in one folder: F.fits.fz beside F.fits, with the manifest beside the folder")
        verbs.choices[name].add_argument("--delete", action="store_true", help=f"with --beside: remove each {other} file, after the other one was compared with it and is on the disk")
        verbs.choices[name].add_argument("--manifest", action="append", default=[], type=words_of.path, metavar="PATH", help="with --beside: the manifest, if it is not beside the folder")
    for name in BOTH:
        verbs.choices[name].add_argument("--manifest", action="append", default=[], type=words_of.path, metavar="PATH", help="the manifest of an adopted folder, if it is not beside it")


def _verb(verbs: "argparse._SubParsersAction[argparse.ArgumentParser]", name: str, says: str) -> argparse.ArgumentParser:
    made = verbs.add_parser(name, help=says, description=says[0].upper() + says[1:] + ".")
    made.add_argument("dir", metavar="FOLDER", type=words_of.path, help="the folder of FITS files, which is only read")
    made.add_argument("--manifest", action="append", default=[], type=words_of.path, metavar="PATH", help="the manifest (FOLDER with .fzbatch.sqlite after it)")
    made.set_defaults(files=[])
    return made


def _everyday(made: argparse.ArgumentParser) -> None:
    words_of.job_words(made)
    words_of.telling_words(made)
    words_of.choosing_words(made, are_shown=False)


def call_of(asked: argparse.Namespace) -> "Optional[Callable[[argparse.Namespace], int]]":
    """What is called, if the command is one of adopted folders; otherwise None, and nothing is imported for it."""
    is_in_place = asked.verb in ("pack", "restore") and bool(asked.beside or asked.delete or asked.manifest)
    is_both = asked.verb in BOTH and bool(asked.manifest or _is_adopted(asked))
    if not (is_in_place or is_both or asked.verb in OWN):
        return None
    from . import commands  # pylint: disable=import-outside-toplevel

    if is_in_place:
        return commands.in_place(asked)
    found: "Callable[[argparse.Namespace], int]" = getattr(commands, asked.verb)
    return found


def words(asked: argparse.Namespace) -> "List[bytes]":
    """The words of a command that are no options: folders first."""
    packed: Optional[bytes] = getattr(asked, "packed", None)
    return [asked.dir, *([packed] if packed is not None else []), *asked.files]


def folder_of(asked: argparse.Namespace) -> bytes:
    """The adopted folder that a command names: the second word of compare, otherwise the first one."""
    given = words(asked)
    return os.path.realpath(given[1] if asked.verb == "compare" and len(given) > 1 and not is_file_word(given[1]) else given[0])


def is_file_word(word: bytes) -> bool:
    """Whether a word names a file, by its ending, and no folder of that name is there."""
    return named.is_wanted(os.path.basename(word)) and not os.path.isdir(word)


def _is_adopted(asked: argparse.Namespace) -> bool:
    """Whether a folder is named that has a manifest beside it, and no archive of fzbatch pack."""
    first, *more = words(asked)
    if more and not is_file_word(more[0]):
        return _has_beside(more[0]) and not _has_own(more[0])
    return _has_beside(first) and not _has_own(first) and not _is_archive(os.path.realpath(first) + names.PACKED)


def _is_archive(folder: bytes) -> bool:
    # only then, since other commands start faster without it
    from . import places  # pylint: disable=import-outside-toplevel

    return places.is_archive(folder)


def _has_beside(folder: bytes) -> bool:
    return files.there(named.beside(os.path.realpath(folder)))


def _has_own(folder: bytes) -> bool:
    return files.there(os.path.join(os.path.realpath(folder), names.MANIFEST))
