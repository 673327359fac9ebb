"""What is in a folder: its FITS files, what is left out and why, and how many files have other names."""
from __future__ import annotations

import os
import stat
from collections import Counter
from dataclasses import dataclass, field
from typing import Callable, Iterator, Optional

from . import beginnings, names

LINK, SHUT, PIPE, COMPRESSED, OURS, OTHER, TIME, ONLY = "link", "shut", "pipe", "compressed", "ours", "other", "time", "only"
# No manifest has room for this time in nanoseconds, for a later one, or for one before its negative.
LATEST = 1 << 63
FAR = "has a time after the year 2262 or before 1678, for which the manifest has no room"
ADVICE = {
    TIME: "give it another time by touch, and run fzbatch again",
    LINK: "pack the folder or file that it leads to, or replace it by a file; with --skip-links links are left out",
    ONLY: "replace the link by the file that it leads to, or give that a name that ends with .fits, .fit or .fts, and run fzbatch pack again",
    SHUT: "allow it to be read, and run fzbatch again",
    PIPE: "copy it to a file",
    COMPRESSED: "it is in no archive of fzbatch: decompress it into the folder, and run fzbatch pack again; with --skip-compressed such files are left out",
    OTHER: "give it a name that ends with .fits, .fit or .fts, or move it away, and run fzbatch pack again; with --skip-compressed such files are left out",
    OURS: "among the packed files fzbatch uses this name for itself: give it another one, and run fzbatch pack again",
}
# What has the suffix of a FITS file in its name, and more after it: why it is left out, and what to do.
NEARLY = {
    beginnings.PLAIN: ("is a FITS file, and its name is not that of one", ADVICE[OTHER]),
    beginnings.PACKED: ("is a FITS file that another program compressed, by its first bytes, and is in no archive", ADVICE[COMPRESSED]),
}

# Whether a name or a path is of some sort.
Chooses = Callable[[bytes], bool]


@dataclass(frozen=True)
class Found:
    """A regular file: its path in the folder, and what `stat` says of it."""

    path: bytes
    size: int
    mtime: int


@dataclass(frozen=True)
class Left:
    """Something that is not packed although its name, or what may be in it, asks for it. `sort` is a key of ADVICE."""

    path: bytes
    why: str
    advice: str
    sort: str = ""


@dataclass
class Scan:
    """A folder as it was found. `whole` is false if a part of it could not be read."""

    root: bytes
    files: dict[bytes, Found] = field(default_factory=dict)
    left: list[Left] = field(default_factory=list)
    others: Counter[str] = field(default_factory=Counter)
    whole: bool = True


class NoSource(Exception):
    """The folder is not there, is no folder, cannot be read, or is empty."""


def is_far(time: int) -> bool:
    """Whether no manifest has room for a time in nanoseconds."""
    return not -LATEST <= time < LATEST


def scan(root: bytes, wanted: Chooses = names.is_fits, compressed: Chooses = names.is_compressed_fits, ours: Chooses = names.is_ours) -> Scan:
    """Walks through a folder. Symbolic links are not followed, but named; what cannot be read is named."""
    found = Scan(root)
    try:
        entries = list(os.scandir(root))
    except OSError as error:
        raise NoSource(f"{names.shown(root)}: {error.strerror}") from error
    waiting = [(b"", entries)]
    while waiting:
        folder, entries = waiting.pop()
        for entry in sorted(entries, key=lambda it: it.name, reverse=True):
            below = _look(found, os.path.join(folder, entry.name), entry, wanted, compressed, ours)
            if below is not None:
                waiting.append(below)
    found.files = dict(sorted(found.files.items()))
    found.left.sort(key=lambda it: it.path)
    return found


def _look(found: Scan, path: bytes, entry: os.DirEntry[bytes], wanted: Chooses, compressed: Chooses, ours: Chooses) -> Optional[tuple[bytes, list[os.DirEntry[bytes]]]]:
    """Notes one entry of a folder, and gives what is in it if it is a folder itself."""
    is_wanted = wanted(entry.name)
    try:
        it = entry.stat(follow_symlinks=False)
        if (is_wanted or stat.S_ISDIR(it.st_mode)) and ours(path):
            found.left.append(Left(path, "has a name that fzbatch uses for itself", ADVICE[OURS], OURS))
            return None
        if stat.S_ISDIR(it.st_mode):
            return path, list(os.scandir(os.path.join(found.root, path)))
    except OSError as error:
        found.whole = False
        found.left.append(Left(path, f"cannot be read: {error.strerror}", ADVICE[SHUT], SHUT))
        return None
    if stat.S_ISREG(it.st_mode):
        if is_wanted and is_far(it.st_mtime_ns):
            found.left.append(Left(path, FAR, ADVICE[TIME], TIME))
        elif is_wanted:
            found.files[path] = Found(path, it.st_size, it.st_mtime_ns)
        elif compressed(entry.name):
            found.left.append(Left(path, "is a FITS file that another program compressed, and is in no archive", ADVICE[COMPRESSED], COMPRESSED))
        elif compressed is names.is_compressed_fits and names.is_nearly_fits(entry.name) and (what := beginnings.of(found.root, path)):
            why, advice = NEARLY[what]
            found.left.append(Left(path, why, advice, COMPRESSED))
        else:
            found.others[names.suffix_of(entry.name)] += 1
    elif stat.S_ISLNK(it.st_mode):
        _link(found, path, entry, lambda name: wanted(name) or compressed(name), compressed is names.is_compressed_fits)
    elif is_wanted or compressed(entry.name):
        found.left.append(Left(path, "is no file, but a pipe, a socket or a device", ADVICE[PIPE], PIPE))
    return None


def _link(found: Scan, path: bytes, entry: os.DirEntry[bytes], wanted: Chooses, of_plain: bool) -> None:
    """A symbolic link is named if its name is that of a FITS file, or if it leads to a folder or to nothing."""
    try:
        folder = stat.S_ISDIR(entry.stat(follow_symlinks=True).st_mode)
    except OSError:
        folder = False
    if folder or wanted(entry.name):
        try:
            target = names.shown(os.readlink(os.path.join(found.root, path)))
        except OSError:
            target = "?"
        if of_plain and not folder and is_only_here(found.root, path, wanted):
            found.left.append(Left(path, f"is a symbolic link to {target}, a file of this folder whose name is not that of a FITS file, so it is in no archive", ADVICE[ONLY], ONLY))
            return
        found.left.append(Left(path, f"is a symbolic link to {target}", ADVICE[LINK], LINK))


def is_only_here(root: bytes, path: bytes, wanted: Chooses) -> bool:
    """Whether a link leads to a file of the same folder that is not looked at by its own name: it goes with the folder."""
    target = os.path.realpath(os.path.join(root, path))
    inside_it = target.startswith(os.path.realpath(root).rstrip(b"/") + b"/")
    return inside_it and os.path.isfile(target) and not wanted(os.path.basename(target))


def is_packed(name: bytes) -> bool:
    """Whether a file of the folder of packed files is one: its name ends with .fz, and is no name of an unfinished file."""
    return name.lower().endswith(names.PACKED)


def scan_packed(root: bytes) -> Scan:
    """Walks through a folder of packed files."""
    return scan(root, is_packed, lambda name: False, lambda path: False)


def folders_of(root: bytes) -> Iterator[bytes]:
    """All folders from this one on, as far as they can be read; links are not followed. (`os.walk` calls itself for each level.)"""
    waiting = [root]
    while waiting:
        folder = waiting.pop()
        try:
            with os.scandir(folder) as found:
                waiting += sorted((it.path for it in found if it.is_dir(follow_symlinks=False)), reverse=True)
        except OSError:
            continue
        yield folder
