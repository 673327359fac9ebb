"""Where the manifest of an adopted folder is, and what lies beside it: the lock, the second copy, and a list for sha256sum."""
from __future__ import annotations

import os
import re
import stat
import time
from typing import Dict, Iterator, List, Optional, Sequence

from .. import files, inside, keep, lock, machine, names, older
from ..opening import BadManifest
from ..scan import folders_of
from ..wanted import Refuse
from . import copying, forms, listing, lists
from .named import beside
from .store import Store
from .walk import MANY

LOCK, COPY, SUMS = b".lock", b".copy", b".SHA256SUMS"
# How the name of a manifest ends in a folder of manifests.
SQLITE = b".sqlite"
BEGINNINGS = {COPY: b"SQLite format 3\0", SUMS: keep.HEAD}
PAUSE = 600.0


def manifest_of(folder: bytes, given: "Sequence[bytes]") -> bytes:
    """The manifest of a folder: the one that is named, or the one beside it. It is not in the folder."""
    path = os.path.realpath(given[0]) if given else beside(folder)
    if path.startswith(folder.rstrip(b"/") + b"/"):
        raise Refuse(f"{names.shown(path)} would be in the folder itself, in which nothing is changed: --manifest names another place")
    if not os.path.isdir(os.path.dirname(path)):
        raise Refuse(f"the folder of {names.shown(path)} is not there")
    return path


def opened(path: bytes, folder: bytes, writes: bool = False, moved: bool = False) -> Store:
    """A manifest that has to be there, and is that of this folder, unless it was `moved`."""
    if not files.there(path):
        raise Refuse(f"{names.shown(path)} is not there: fzbatch adopt {names.shown(folder)} makes it")
    made = Store(path, writes)
    check_not_older(made)
    known = made.fact("folder")
    if known is not None and known != folder and not moved:
        made.close()
        raise Refuse(f"{names.shown(path)} is the manifest of {names.shown(known)}, and not of {names.shown(folder)}: after a folder was moved, fzbatch adopt --moved says so")
    return made


def check_not_older(store: Store) -> None:
    """Closes the manifest and raises `BadManifest` if its second copy knows a run, or the end of one, that it does not: a backup of it came back."""
    copy = store.path + COPY
    if older.runs_of(copy, forms.check_tables) <= older.known((it[1], it[7]) for it in store.runs()):
        return
    store.close()
    said = f"the manifest {names.shown(store.path)} is an older one, or that of another folder: {names.shown(copy)}, its second copy, knows later runs"
    raise BadManifest(f"{said}. If the copy is the right one, move the manifest away and copy the copy to its name; otherwise move the copy away")


def check_new(path: bytes) -> None:
    """Raises `Refuse` if a manifest that is not there was lost: what it knew would be replaced by what the files are now."""
    copy, listed = path + COPY, path + SUMS
    if files.there(copy):
        raise Refuse(f"{names.shown(path)} is not there, and its second copy is: copy {names.shown(copy)} to it, or move the copy away, and fzbatch adopt begins anew")
    if files.there(listed) and not keep.is_none_of_ours(listed, keep.HEAD):
        raise Refuse(f"{names.shown(path)} is not there, and its list for sha256sum is: sha256sum -c {names.shown(listed)} in the folder says what changed; move the list away, and fzbatch adopt begins anew")


def is_archive(folder: bytes) -> bool:
    """Whether a folder is one of packed files that fzbatch pack made, also if its manifest was lost and something else of it was not."""
    sums = os.path.join(folder, names.SUMS)
    return any(files.there(os.path.join(folder, it)) for it in (names.MANIFEST, names.COPY)) or (files.there(sums) and not keep.is_none_of_ours(sums, keep.HEAD))


def archive_around(folder: bytes) -> "Optional[bytes]":
    """The folder of packed files that a folder is, or is in."""
    while folder != os.path.dirname(folder):
        if is_archive(folder):
            return folder
        folder = os.path.dirname(folder)
    return None


def archive_in(folder: bytes) -> "Optional[bytes]":
    """The first folder of packed files below a folder."""
    return next((it for it in folders_of(folder) if is_archive(it)), None)


def many(given: "Sequence[bytes]") -> "List[bytes]":
    """The manifests that are named, and those of the folders that are named, each once."""
    found = []
    for it in given:
        path = os.path.realpath(it)
        found += _in_folder(path, it) if os.path.isdir(path) else [path]
    return list(dict.fromkeys(found))


def _in_folder(folder: bytes, given: bytes) -> "List[bytes]":
    """The manifests of a folder. One that was lost, and left its second copy or its list there, is an error: what it knew is not looked at."""
    listed = sorted(os.listdir(folder))
    for ending in (COPY, SUMS):
        for name in listed:
            if name.endswith(SQLITE + ending) and name[: -len(ending)] not in listed:
                check_new(os.path.join(folder, name[: -len(ending)]))
    here = [os.path.join(folder, name) for name in listed if name.endswith(SQLITE)]
    if not here:
        raise Refuse(f"--manifest {names.shown(given)}: no manifest (a file whose name ends with .sqlite) is in this folder: is its disk mounted?")
    return here


def may_be_written(path: bytes) -> bool:
    """Whether a manifest can be made or written in this place."""
    return lock.is_writable(os.path.dirname(path)) and (not files.there(path) or os.access(path, os.W_OK))


def _unfinished(path: bytes) -> "List[bytes]":
    """What a killed run was writing beside a manifest."""
    form = re.compile(re.escape(os.path.basename(path)) + rb"\.(copy|SHA256SUMS)\.[0-9a-f]{12}\.new")
    above = os.path.dirname(path)
    return [os.path.join(above, it) for it in os.listdir(above) if form.fullmatch(it)]


def is_stale(path: bytes) -> bool:
    """Whether a killed run left the second copy and the list as they were before it."""
    try:
        return bool(_unfinished(path)) or any(os.stat(path + it).st_mtime_ns < os.stat(path).st_mtime_ns for it in (COPY, SUMS))
    except OSError:
        return True


def keep_beside(store: Store, jobs: int = 0) -> "List[str]":
    """Writes the second copy and the list for sha256sum, after a run that changed the manifest: of a large folder only what changed in them."""
    store.save()
    for it in _unfinished(store.path):
        files.remove(it)
    rights = stat.S_IMODE(os.stat(store.path).st_mode) & 0o666
    if store.files < MANY:
        lists.remove(store.path)
        return _kept(store, rights, {COPY: keep._bytes_of(store.path), SUMS: listing.pieces(store)})
    # first, since it checks the rows that are copied then
    lists.keep_each(store, rights, jobs or machine.processors())
    beside: "Dict[bytes, Iterator[bytes]]" = {} if copying.follow(store.path, store.path + COPY, store.last_run()) else {COPY: keep._bytes_of(store.path)}
    return _kept(store, rights, {**beside, SUMS: lists.about(store.path)})


def _kept(store: Store, rights: int, beside: "Dict[bytes, Iterator[bytes]]") -> "List[str]":
    """Writes whole files beside the manifest, each in the place of the one that was there, if that is of fzbatch."""
    said = []
    for ending, pieces in beside.items():
        path = store.path + ending
        if keep.is_none_of_ours(path, BEGINNINGS[ending]):
            said.append(f"{names.shown(path)} is there, and fzbatch did not write it: it stays as it is, and none was written.")
        else:
            inside.replace(path, pieces, rights)
    return said


class Beside:
    """What lies beside a large manifest, while a run goes on: so a run that follows a killed one has little of it to write."""

    def __init__(self, store: Store):
        self.store, self._next = store, time.monotonic() + PAUSE

    def keep_now_and_then(self) -> str:
        """Writes it, if that was not done for ten minutes or for twenty times as long as it took. Gives why the manifest cannot be used any more."""
        began = time.monotonic()
        if began < self._next or self.store.files < MANY:
            return ""
        try:
            # other threads are at work, so no process is begun
            keep_beside(self.store, 1)
        except BadManifest as error:
            self.store.give_up()
            return str(error)
        except OSError:
            # the end of the run tries it once more, and says if it is not possible
            pass
        ended = time.monotonic()
        self._next = ended + max(PAUSE, 20 * (ended - began))
        return ""
