"""What a command on an adopted folder does not take: each word and option by which it would be of some files only is rejected by name."""
from __future__ import annotations

import argparse

from .. import names
from ..wanted import Refuse
from .words import is_file_word, words

CHOOSING = ("--include", "--exclude", "--from-list")


def check(asked: argparse.Namespace, folders: int = 1) -> None:
    """Raises `Refuse` for the first such word or option. `folders` says how many folders the command names."""
    what = name_of(asked)
    more = words(asked)[folders:]
    if more and folders == 1 and not is_file_word(more[0]):
        raise Refuse(f"{what} has one folder, and was given {names.shown(asked.dir)} and {names.shown(more[0])}: name one of them")
    if more:
        raise Refuse(f"{what} works on the whole folder, and takes no other name: leave {names.shown(more[0])} out")
    for option in CHOOSING:
        if _is_given(asked, option):
            raise Refuse(f"{what} works on the whole folder: leave {option} out")
    if _is_given(asked, "--dry-run"):
        raise Refuse(f"{what} cannot say what it would do: leave --dry-run out")
    if _is_given(asked, "--tell-idle"):
        raise Refuse(f"{what} has no status of its own for nothing to do: leave --tell-idle out")


def name_of(asked: argparse.Namespace) -> str:
    """The command, as its user may know it."""
    if getattr(asked, "beside", False):
        return f"fzbatch {asked.verb} --beside"
    return f"fzbatch {asked.verb}" if asked.verb in ("adopt", "retile") else f"fzbatch {asked.verb} of an adopted folder"


def _is_given(asked: argparse.Namespace, option: str) -> bool:
    found = getattr(asked, option[2:].replace("-", "_"), None)
    return found is not None and found is not False and found != []
