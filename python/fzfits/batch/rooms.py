"""Scratch folders: one in memory for small files, so that no disk waits for them, and one on a disk for large ones.

A folder of a run has a file `room` with the folder of packed files and the token of the run, and the run holds the lock of that file.
The next run removes a folder of a killed run only if that file says that it was one, if nobody holds its lock (a run that only compares
may be at work beside this one), and only files with names that a run gives.
"""
from __future__ import annotations

import os
import re
import shutil
import stat
import tempfile
import threading
from contextlib import contextmanager
from typing import Iterator, Optional

from . import files, inside, lock

MEMORY = b"/dev/shm"
# Files up to this size are small, if the memory has room for that many of them.
SMALL = 8 << 20
MARK = b"room"
NAME = re.compile(r"fzbatch-([0-9a-f]{16})-[a-z0-9_]+")
INSIDE = re.compile(rb"room|[0-9]+\.(in|out|again|fz)")


class Rooms:
    """The scratch folders of one run in this process, made when they are needed."""

    def __init__(self, packed: bytes, token: str, jobs: int = 1):
        self.packed, self.token = packed, token
        self.small = 0 if os.environ.get("TMPDIR") else min(SMALL, _free(MEMORY) // (16 * max(1, jobs)))
        self._made: dict[Optional[bytes], bytes] = {}
        self._held: "list[int]" = []
        self._lock = threading.Lock()
        self._count = 0

    def name(self, size: int, kind: bytes) -> bytes:
        """A new name for a file of about this size."""
        with self._lock:
            self._count += 1
            where = MEMORY if size <= self.small else None
            if where not in self._made:
                self._made[where] = self._make(where)
            return os.path.join(self._made[where], b"%d." % self._count + kind)

    def is_small(self, size: int) -> bool:
        """Whether files of this size are made in memory."""
        return size <= self.small

    def _make(self, where: Optional[bytes]) -> bytes:
        path = os.fsencode(tempfile.mkdtemp(prefix=f"fzbatch-{self.token}-", dir=os.fsdecode(where) if where else None))
        number = os.open(os.path.join(path, MARK), os.O_WRONLY | os.O_CREAT | os.O_EXCL | os.O_CLOEXEC, 0o600)
        self._held.append(number)
        lock.takes(number)
        os.write(number, _mark(self.packed, self.token))
        return path

    def close(self) -> None:
        """Removes them."""
        for it in self._made.values():
            shutil.rmtree(it, ignore_errors=True)
        self._made.clear()
        while self._held:
            os.close(self._held.pop())


@contextmanager
def rooms(packed: bytes, token: str, jobs: int = 1) -> Iterator[Rooms]:
    """Scratch folders until the block ends."""
    made = Rooms(packed, token, jobs)
    try:
        yield made
    finally:
        made.close()


def remove_of_killed(packed: bytes) -> None:
    """Removes the scratch folders that killed runs on this folder of packed files made on this machine, by the file in them."""
    for top in {os.fsencode(tempfile.gettempdir()), MEMORY}:
        try:
            here = os.listdir(top)
        except OSError:
            continue
        for name in here:
            found = NAME.fullmatch(os.fsdecode(name))
            if found:
                _remove(os.path.join(top, name), _mark(packed, found[1]))


def _mark(packed: bytes, token: str) -> bytes:
    return b"a scratch folder of fzbatch, run " + token.encode() + b" on " + packed + b"\n"


def _remove(path: bytes, mark: bytes) -> None:
    try:
        above = os.open(path, inside.FOLDER | os.O_NOFOLLOW)
    except OSError:
        return
    try:
        found = os.fstat(above)
        with inside.file(path, MARK) as number:
            said = os.pread(number, 8192, 0)
            is_at_work = not lock.takes(number)
        if is_at_work or found.st_uid != os.geteuid() or stat.S_IMODE(found.st_mode) != 0o700 or not mark.startswith(said):
            return
        for name in sorted(os.listdir(above), key=lambda it: os.fsencode(it) == MARK):
            if INSIDE.fullmatch(os.fsencode(name)):
                files.remove(os.fsencode(name), above)
        os.rmdir(path)
    except OSError:
        return
    finally:
        os.close(above)


def _free(folder: bytes) -> int:
    """The free bytes of a file system in memory, or 0 if the folder is on none or cannot be written."""
    try:
        with open("/proc/self/mountinfo", encoding="utf-8", errors="surrogateescape") as it:
            kinds = {os.fsencode(line.split(" ")[4]): line.partition(" - ")[2].split(" ")[0] for line in it}
        found = os.statvfs(folder)
    except (OSError, IndexError):
        return 0
    is_memory = kinds.get(folder) == "tmpfs" and os.access(folder, os.W_OK | os.X_OK)
    return found.f_bavail * found.f_frsize if is_memory else 0


