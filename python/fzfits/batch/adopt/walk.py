"""A look at a folder and all below it: names, lengths and times, one folder after another, and no file is opened."""
from __future__ import annotations

import hashlib
import multiprocessing
import os
import stat
from collections import Counter
from concurrent import futures
from dataclasses import dataclass, field
from typing import Iterator, Optional, Tuple

from .. import names
from ..scan import ADVICE, FAR, LATEST, LINK, ONLY, PIPE, SHUT, TIME, Left, is_only_here
from .named import is_wanted
from .store import LOOK, WIDE

# From so many files on, several processes look.
MANY = 200_000
# A process looks at so many folders before it says what it saw.
AT_ONCE = 16
REGULAR = stat.S_IFREG >> 12
Entry = Tuple[bytes, int, int]


@dataclass
class Seen:
    """One folder as it was seen: its files as a count, a sum of lengths and a sum of hashes, the folders in it, and what is left out.

    `shut` says that it could not be read.
    """

    path: bytes
    count: int = 0
    size: int = 0
    look: int = 0
    below: "list[bytes]" = field(default_factory=list)
    left: "list[Left]" = field(default_factory=list)
    others: "Counter[str]" = field(default_factory=Counter)
    shut: bool = False


def entries(root: bytes, path: bytes, seen: Optional[Seen] = None, at: bytes = b"") -> Iterator[Entry]:
    """Name, length and time of each file of a folder that is adopted. What else is in it goes into `seen`. `at` is another name of the folder."""
    seen = seen or Seen(path)
    try:
        with os.scandir(at or os.path.join(root, path)) as found:
            for entry in found:
                try:
                    it = entry.stat(follow_symlinks=False)
                except OSError as error:
                    seen.left.append(Left(os.path.join(path, entry.name), f"cannot be read: {error.strerror}", ADVICE[SHUT], SHUT))
                    continue
                name = entry.name
                # most names are told by their end alone
                if it.st_mode >> 12 == REGULAR and -LATEST <= it.st_mtime_ns < LATEST and (name.endswith(names.SUFFIXES) or is_wanted(name)):
                    yield name, it.st_size, it.st_mtime_ns
                else:
                    _other(seen, root, entry, it)
    except OSError as error:
        seen.shut = True
        seen.left.append(Left(path or b".", f"cannot be read: {error.strerror}", ADVICE[SHUT], SHUT))


def _other(seen: Seen, root: bytes, entry: "os.DirEntry[bytes]", it: os.stat_result) -> None:
    below = os.path.join(seen.path, entry.name)
    if stat.S_ISDIR(it.st_mode):
        seen.below.append(below)
    elif stat.S_ISLNK(it.st_mode):
        _link(seen, root, below, entry)
    elif stat.S_ISREG(it.st_mode) and is_wanted(entry.name):
        seen.left.append(Left(below, FAR, ADVICE[TIME], TIME))
    elif stat.S_ISREG(it.st_mode):
        seen.others[names.suffix_of(entry.name)] += 1
    elif is_wanted(entry.name):
        seen.left.append(Left(below, "is no file, but a pipe, a socket or a device", ADVICE[PIPE], PIPE))


def _link(seen: Seen, root: bytes, below: bytes, entry: "os.DirEntry[bytes]") -> None:
    """A link that leads to a folder, or has the name of a file that is adopted."""
    try:
        leads = stat.S_ISDIR(entry.stat(follow_symlinks=True).st_mode)
    except OSError:
        leads = False
    if is_wanted(entry.name) and not leads and is_only_here(root, below, is_wanted):
        why = "is a symbolic link to a file of this folder whose name is not that of a FITS file, so it is in no manifest"
        seen.left.append(Left(below, why, ADVICE[ONLY].replace("fzbatch pack", "fzbatch adopt"), ONLY))
    elif leads or is_wanted(entry.name):
        seen.left.append(Left(below, "is a symbolic link", ADVICE[LINK].replace("pack the", "adopt the"), LINK))


def see(root: bytes, path: bytes, at: bytes = b"") -> Seen:
    """One folder."""
    seen = Seen(path)
    count = total = look = 0
    # this is done for each of some million names: what `look_of` does, without its call
    hashed, number = hashlib.blake2b, int.from_bytes
    for name, size, mtime in entries(root, path, seen, at):
        count += 1
        total += size
        look += number(hashed(LOOK % (name, size, mtime), digest_size=16).digest(), "big")
    seen.count, seen.size, seen.look = count, total, look % WIDE
    return seen


def see_each(root: bytes, paths: "list[bytes]") -> "list[Seen]":
    """Some folders, one after another, in a process of its own, which enters them: then the system has no path to follow for each name."""
    return [see(root, it, _entered(os.path.join(root, it))) for it in paths]


def _entered(folder: bytes) -> bytes:
    """The name of a folder by which it is found fastest: that of the folder in which this process is, if it may be in it."""
    try:
        os.chdir(folder)
    except OSError:
        return folder
    return b"."


def walk(root: bytes, known: int, jobs: int) -> Iterator[Seen]:
    """A folder and all below it. If so many files are known, as many processes look as there are jobs."""
    if known < MANY or jobs < 2:
        waiting = [b""]
        while waiting:
            found = see(root, waiting.pop())
            waiting += found.below
            yield found
        return
    with futures.ProcessPoolExecutor(jobs, multiprocessing.get_context("fork")) as pool:
        waiting, running = [b""], set()  # type: ignore[var-annotated]
        while waiting or running:
            while waiting and len(running) < 3 * jobs:
                some = [waiting.pop() for _ in range(min(AT_ONCE, 1 + len(waiting) // (3 * jobs)))]
                running.add(pool.submit(see_each, root, some))
            ended, running = futures.wait(running, return_when=futures.FIRST_COMPLETED)
            for found in (found for it in ended for found in it.result()):
                waiting += found.below
                yield found
