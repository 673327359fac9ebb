"""Which files of an archive a run is asked for: those of some patterns, of a list, or of the command line. Without any of them, all."""
from __future__ import annotations

import os
import re
import sys
from dataclasses import dataclass
from fnmatch import fnmatchcase
from typing import Container, Iterable, Optional

from . import names
from .scan import LINK, SHUT, Left
from .wanted import Refuse

# What a pattern has in the place of any characters.
WILD = re.compile(rb"[*?\[]")


@dataclass(frozen=True)
class Chosen:
    """What was asked for. `listed` has names of files in any of their forms until `resolved` gives the paths in the archive."""

    include: "tuple[bytes, ...]" = ()
    exclude: "tuple[bytes, ...]" = ()
    listed: "Optional[frozenset[bytes]]" = None

    @property
    def is_all(self) -> bool:
        """Whether every file is wanted."""
        return not self.include and not self.exclude and self.listed is None

    def has(self, path: bytes) -> bool:
        """Whether the file with this path in the archive is wanted."""
        if self.listed is not None and path not in self.listed:
            return False
        if self.include and not any(_fits(it, path) for it in self.include):
            return False
        return not any(_fits(it, path) for it in self.exclude)

    def leaves(self, left: Left) -> bool:
        """Whether what was left out belongs to this part: also a folder that was not looked into, in which a wanted file may be."""
        is_folder = left.sort == SHUT or (left.sort == LINK and not names.is_fits(left.path) and not names.is_compressed_fits(left.path))
        if is_folder and any(_fits(it, left.path + b"/") for it in self.exclude):
            return False
        return self.has(left.path) or (is_folder and self._has_below(left.path + b"/"))

    def _has_below(self, folder: bytes) -> bool:
        if self.listed is not None:
            return any(it.startswith(folder) for it in self.listed)
        if any(_fits(it, folder[:-1]) for it in self.exclude):
            return False
        return not self.include or any(_may_fit(it, folder) for it in self.include)

    def resolved(self, known: Container[bytes], roots: Iterable[bytes], where: str) -> "Chosen":
        """The same with the path in the archive of each name of the list. Raises `Refuse` if the archive has no such file."""
        if self.listed is None:
            return self
        tops = [it for it in roots if it]
        found = {}
        for name in self.listed:
            paths = _meant(name, tops, known)
            if not paths:
                raise Refuse(f"{names.shown(name)} is not in {where}")
            if len(paths) > 1:
                raise Refuse(f"{names.shown(name)} may be {' or '.join(map(names.shown, paths))} of {where}: give its whole path, or start this in another folder")
            found[paths[0]] = name
        return Chosen(self.include, self.exclude, frozenset(found))

    def check(self, found: Iterable[bytes], where: str) -> None:
        """Raises `Refuse` if the patterns leave nothing of what there is: they may have a mistake."""
        if (self.include or self.exclude) and self.listed != frozenset() and not any(map(self.has, found)):
            raise Refuse(f"--include and --exclude leave no file of {where}; a pattern with a / is compared with the whole path below the folder, and any other with the name")


def _fits(pattern: bytes, path: bytes) -> bool:
    return fnmatchcase(path if b"/" in pattern else os.path.basename(path), pattern)


def _may_fit(pattern: bytes, folder: bytes) -> bool:
    """Whether a file below a folder may fit, by what the pattern begins with."""
    if b"/" not in pattern:
        return True
    beginning = WILD.split(pattern)[0]
    return beginning.startswith(folder) or folder.startswith(beginning)


def _meant(name: bytes, roots: Iterable[bytes], known: Container[bytes]) -> "list[bytes]":
    """The paths in the archive that a name may mean: of a plain or a packed file, below its folder or as the shell sees it."""
    whole = os.path.join(os.path.realpath(os.path.dirname(name) or b"."), os.path.basename(name))
    below = [whole[len(it) + 1 :] for it in roots if whole.startswith(it.rstrip(b"/") + b"/")]
    found: "list[bytes]" = []
    for it in (os.path.normpath(name), *below):
        path = it if it in known else it.removesuffix(names.PACKED)
        if path in known and path not in found:
            found.append(path)
    return found


def list_of(path: str) -> "frozenset[bytes]":
    """The names in a file, one on each line, or with a null byte after each; - is standard input."""
    if path == "-":
        data = sys.stdin.buffer.read()
    else:
        with open(path, "rb") as it:
            data = it.read()
    return frozenset(it for it in data.split(b"\0" if b"\0" in data else b"\n") if it)
