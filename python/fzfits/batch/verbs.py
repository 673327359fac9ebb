"""The commands of a command line, of which only the one that is given gets its options: all of them take as long as to pack ten small files."""
from __future__ import annotations

import argparse
from typing import Any, Dict, Optional, Sequence


class _Unmade:
    """A command that was not given: its options are not needed."""

    def add_argument(self, *_: Any, **__: Any) -> None:
        """Adds nothing."""

    set_defaults = add_argument


class Verbs:
    """The commands. `choices` has all of them, by their names; of one that was not given, what is added to it is dropped.

    If no command is given, or one that there is not, all are made: the help and the errors speak of them.
    """

    def __init__(self, whole: argparse.ArgumentParser, given: Optional[str]):
        self._made = whole.add_subparsers(dest="verb", required=True, metavar="COMMAND")
        self._given = given
        self.choices: Dict[str, Any] = {}

    def wants(self, name: str) -> bool:
        """Whether this command gets its options."""
        return self._given in (None, name)

    def add_parser(self, name: str, **words: Any) -> Any:
        """Adds a command."""
        made = self._made.add_parser(name, **words) if self.wants(name) else _Unmade()
        self.choices[name] = made
        return made


def given(words: Sequence[str], known: Sequence[str]) -> Optional[str]:
    """The command that words begin with, if there is one of this name; an option before it stands for itself."""
    first = next((it for it in words if not it.startswith("-")), "")
    return first if first in known and first == next(iter(words), "") else None
