"""The lists for sha256sum of a large adopted folder: one for each folder in it, so that a run writes only those whose rows changed.

The second line of a list has the number and the sum of the hashes of the rows that it was made of, as the row of its folder has them.
If they are the same, the list is not written again, and the rows are not read, but for a part of the folders that changes from run to
run. Each row of a list that is written was checked.
"""
from __future__ import annotations

import hashlib
import multiprocessing
import os
import re
import stat
import zlib
from concurrent import futures
from functools import lru_cache
from typing import Iterator, List, Optional, Set, Tuple

from .. import files, inside, keep, names
from .listing import lines
from .store import Store

# What the name of the folder of lists has after that of the manifest.
LISTS, NEW = b".SHA256SUMS.d", b".new"
ROWS = b"# rows %b, %020d bytes\n"
FORM = re.compile(re.escape(keep.HEAD) + rb"# rows ([0-9a-f]+ [0-9a-f]+), ([0-9]{20}) bytes\n")
LONGEST = len(keep.HEAD) + 200
OURS = re.compile(rb"[0-9a-f]{32}(\.new)?")
# A process is given folders with so many files at a time.
AT_ONCE = 20_000
# A run also checks the rows of one of so many folders that did not change, in turns.
TURNS = 16
# Up to so many lists are synced one by one.
FEW = 64
# A folder as it goes to another process: its path, its seal, and whether its rows are checked although its list is that of its seal.
Part = Tuple[bytes, str, bool]


def name_of(path: bytes) -> bytes:
    """The name of the list of a folder."""
    return hashlib.blake2b(path, digest_size=16).hexdigest().encode()


def is_due(path: bytes, run: int) -> bool:
    """Whether it is the turn of a folder to be checked although nothing in it changed."""
    return zlib.crc32(path) % TURNS == run % TURNS


def keep_each(store: Store, rights: int, jobs: int) -> None:
    """Writes the lists of the folders whose rows are others than those of which their lists were made, and removes those of no folder."""
    above = _own_folder(store.path + LISTS, rights)
    try:
        # what a killed run was writing
        _remove(above, {it for it in _listed(above) if not it.endswith(NEW)})
        _name(above, [it for some in _made(store, rights, jobs) for it in some])
        _remove(above, {name_of(it.path) for it in store.folders()})
        inside.sync_number(above)
    finally:
        os.close(above)


def _listed(above: int) -> "Iterator[bytes]":
    """What is in the folder of lists and has a name as lists have it."""
    return (it for it in map(os.fsencode, os.listdir(above)) if OURS.fullmatch(it))


def _remove(above: int, wanted: "Set[bytes]") -> None:
    """Removes all lists but the wanted ones."""
    for it in _listed(above):
        if it not in wanted:
            files.remove(it, above)


def _own_folder(path: bytes, rights: int) -> int:
    """The folder of the lists, opened. It is made if it is not there."""
    if not files.there(path):
        os.mkdir(path, 0o700)
        number = os.open(path, inside.FOLDER | os.O_NOFOLLOW)
        files.set_rights(number, rights | 0o700 | (rights & 0o044) >> 2)
        return number
    return os.open(path, inside.FOLDER | os.O_NOFOLLOW)


def _name(above: int, made: "List[bytes]") -> None:
    """Gives new lists their names, after they are on the disk."""
    if made and (len(made) <= FEW or not files.sync_disk(above)):
        for it in made:
            number = os.open(it + NEW, inside.FILE, dir_fd=above)
            try:
                inside.sync_number(number)
            finally:
                os.close(number)
    for it in made:
        os.rename(it + NEW, it, src_dir_fd=above, dst_dir_fd=above)


def _made(store: Store, rights: int, jobs: int) -> "Iterator[List[bytes]]":
    """Writes new lists under names that end with .new, by several processes, and gives their names."""
    if jobs < 2:
        yield from (_part(store.path, rights, some, store) for some in _parts(store))
        return
    with futures.ProcessPoolExecutor(jobs, multiprocessing.get_context("fork")) as pool:
        waiting: "Set[futures.Future[List[bytes]]]" = set()
        for some in _parts(store):
            if len(waiting) > 2 * jobs:
                ended, waiting = futures.wait(waiting, return_when=futures.FIRST_COMPLETED)
                yield from (it.result() for it in ended)
            waiting.add(pool.submit(_part, store.path, rights, some))
        yield from (it.result() for it in futures.as_completed(waiting))


def _parts(store: Store) -> "Iterator[List[Part]]":
    """The folders, some at a time."""
    run = store.last_run()
    some: "List[Part]" = []
    count = 0
    for it in list(store.folders()):
        some.append((it.path, it.seal, is_due(it.path, run)))
        count += it.files
        if count > AT_ONCE:
            yield some
            some, count = [], 0
    if some:
        yield some


def _part(path: bytes, rights: int, some: "List[Part]", store: Optional[Store] = None) -> "List[bytes]":
    """Writes the lists of some folders that need it, and checks the rows of those that are due."""
    made = []
    above = os.open(path + LISTS, inside.FOLDER | os.O_NOFOLLOW)
    try:
        for folder, seal, due in some:
            if not is_current(above, folder, seal):
                made += _write(above, rights, store or _opened(path), folder)
            elif due:
                for _ in lines(store or _opened(path), folder):
                    pass
    finally:
        os.close(above)
    return made


@lru_cache(maxsize=1)
def _opened(path: bytes) -> Store:
    return Store(path, writes=False)


def is_current(above: int, folder: bytes, seal: str) -> bool:
    """Whether the list of a folder is whole, and of the rows that its folder has."""
    try:
        number = os.open(name_of(folder), inside.FILE, dir_fd=above)
    except OSError:
        return False
    try:
        state = os.fstat(number)
        found = FORM.match(os.pread(number, LONGEST, 0)) if stat.S_ISREG(state.st_mode) else None
        return found is not None and found[1] == seal.encode() and int(found[2]) == state.st_size
    finally:
        os.close(number)


def _write(above: int, rights: int, store: Store, folder: bytes) -> "List[bytes]":
    """Writes the list of a folder, as this very manifest has it, and gives its name; nothing if it has no such folder."""
    held = store.folder(folder)
    if held is None:
        return []
    seal = held.seal.encode()
    number = os.open(name_of(folder) + NEW, os.O_WRONLY | os.O_CREAT | os.O_EXCL | os.O_NOFOLLOW | os.O_CLOEXEC, 0o600, dir_fd=above)
    with os.fdopen(number, "wb") as to:
        to.write(keep.HEAD + ROWS % (seal, 0))
        to.writelines(lines(store, folder))
        size = to.tell()
        to.seek(0)
        to.write(keep.HEAD + ROWS % (seal, size))
        files.set_rights(number, rights)
    return [name_of(folder)]


def about(path: bytes) -> "Iterator[bytes]":
    """What the one list has in it if there is one for each folder."""
    yield keep.HEAD
    where = names.shown(os.path.basename(path) + LISTS).encode()
    yield b"# There are many files: the lists are in %b, one for each folder.\n# To compare, in the folder: find ../%b -type f -exec cat {} + | sha256sum -c --quiet\n" % (where, where)


def remove(path: bytes) -> None:
    """Removes the lists of a folder that is not large any more."""
    if not files.there(path + LISTS):
        return
    above = os.open(path + LISTS, inside.FOLDER | os.O_NOFOLLOW)
    try:
        _remove(above, set())
        if not os.listdir(above):
            os.rmdir(path + LISTS)
    finally:
        os.close(above)
