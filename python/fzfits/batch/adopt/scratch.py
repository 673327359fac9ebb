"""Folders for temporary files of a run on an adopted folder: in memory as far as that has room, since fz waits for a disk."""
from __future__ import annotations

import os
from contextlib import contextmanager
from typing import Iterator

from .. import machine, rooms

# Each job has up to two such files at once; all together take at most this share of the memory, and of what /dev/shm has free.
SHARE = 8
LARGEST = 1 << 30


class Scratch(rooms.Rooms):
    """The folders of one run in this process."""

    def __init__(self, folder: bytes, token: str, jobs: int = 1):
        super().__init__(folder, token, jobs)
        if self.small:
            free = os.statvfs(rooms.MEMORY)
            room = min(machine.memory(), free.f_bavail * free.f_frsize) // (SHARE * max(1, jobs))
            self.small = max(self.small, min(LARGEST, room))


@contextmanager
def scratch(folder: bytes, token: str, jobs: int = 1) -> Iterator[Scratch]:
    """Folders until the block ends."""
    made = Scratch(folder, token, jobs)
    try:
        yield made
    finally:
        made.close()
