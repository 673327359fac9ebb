"""What is looked at before a run begins, so that a mistake in the command line costs no time and leaves nothing behind."""
from __future__ import annotations

import re
import shutil
from typing import Sequence

from ..program import Outcome
from . import calls
from .wanted import Refuse, Wanted

UNITS = {"": 1, "K": 1 << 10, "M": 1 << 20, "G": 1 << 30, "T": 1 << 40}
SIZE = re.compile(r"([0-9]{1,18})([KMGT]?)(iB|B)?", re.IGNORECASE)
LENGTHS = re.compile(r"[0-9]+(,[0-9]+)*")
# The status of fz if it does not take its words.
USAGE = 2


def size_of(text: str) -> int:
    """A number of bytes, such as 4000000, 500M or 2G, which is 2,147,483,648. Raises `ValueError` if it is none."""
    found = SIZE.fullmatch(text.strip())
    if found is None:
        raise ValueError(f"{text!r} is no number of bytes: write 4000000, 500M or 2G")
    return int(found[1]) * UNITS[found[2].upper()]


def check(wanted: Wanted, program: str) -> None:
    """Raises `Refuse` for options that the run could not be done with."""
    if wanted.engine == "parallel" and shutil.which("parallel") is None:
        raise Refuse("--engine parallel: GNU parallel is not installed")
    check_options(wanted.options, program)


def check_options(options: Sequence[str], program: str, command: str = "pack") -> None:
    """Raises `Refuse` if this command of fz does not take these options."""
    for name, value in _pairs(options):
        if name == "--tile" and not LENGTHS.fullmatch(value):
            right = re.sub(r"[^0-9]+", ",", value).strip(",")
            raise Refuse(f"--tile: {value} is no list of lengths" + (f" (write {right})" if right else " (write 64,64)"))
    if list(options) not in ([], ["--sums"]) and _asked(program, command, options).status == USAGE:
        raise Refuse(f"fz {command} does not take these options: {' '.join(options)} (man fz says what they may be)")


def _pairs(options: Sequence[str]) -> "list[tuple[str, str]]":
    return [(it, options[at + 1]) for at, it in enumerate(options[:-1]) if it.startswith("--")]


def _asked(program: str, command: str, options: Sequence[str]) -> Outcome:
    """Calls fz with these options on names that are none: the words are looked at first, and nothing is read or written."""
    return calls.shared.of(program).run([command, *options, "--", "/nowhere/fzbatch", "/nowhere/fzbatch"], timeout=60)
