"""Calls of the program fz: with open files in the place of names, within a time, and without a shell."""
from __future__ import annotations

import errno
import os
import select
import signal
import threading
import time
from typing import Callable, Optional, Sequence

from ..errors import NoProgram
from ..program import Outcome
from . import spawning

FILES = b"/proc/self/fd/"
# No program of this package prints more; what follows is read and dropped.
LONGEST = 16 << 20


class OverTime(Exception):
    """The program did not end in its time, and was killed."""


class Program:
    """The program fz. Open files are handed to it, so that it reads the file that was looked at, whatever has its name by then."""

    def __init__(self, path: str):
        self.path = os.fsencode(path)
        # two numbers that no other open file has: the program has its files under these
        self._kept = [os.open(os.devnull, os.O_RDONLY | os.O_CLOEXEC) for _ in range(2)]
        self._environment = spawning.environment()
        self.first, self.second = (FILES + str(it).encode() for it in self._kept)

    def close(self, close: Callable[[int], None] = os.close) -> None:
        """Frees the two numbers. (`os` may be gone when Python ends.)"""
        while self._kept:
            close(self._kept.pop())

    def __del__(self) -> None:
        # a thread that ends takes its program with it
        self.close()

    def run(self, words: Sequence["str | bytes"], numbers: Sequence[int] = (), timeout: Optional[float] = None) -> Outcome:
        """Calls the program. It has the open files of `numbers` under the names `first` and `second`."""
        line = tuple(os.fsencode(it) for it in words)
        out, errors = os.pipe(), os.pipe()
        try:
            given = [(out[1], 1), (errors[1], 2), *zip(numbers, self._kept)]
            try:
                process = spawning.spawn(self.path, [self.path, *line], self._environment, given)
            except OSError as error:
                raise NoProgram(f"{os.fsdecode(self.path)} could not be started: {error.strerror}") from error
            finally:
                os.close(out[1])
                os.close(errors[1])
            said, more, in_time = _read(process, out[0], errors[0], timeout)
            _, status = os.waitpid(process, 0)
        finally:
            os.close(out[0])
            os.close(errors[0])
        if not in_time:
            raise OverTime(f"it did not end in {timeout:.0f} s, and was killed")
        text = said.decode("utf-8", "replace")
        return Outcome(os.waitstatus_to_exitcode(status), tuple(text.split("\n")[:-1]), more.decode("utf-8", "replace"), os.fsdecode(self.path), line)


def _read(process: int, out: int, errors: int, timeout: Optional[float]) -> "tuple[bytes, bytes, bool]":
    """What a process prints until it ends. It is killed if it does not end in its time."""
    end = None if not timeout else time.monotonic() + timeout
    waiting = select.poll()
    said: dict[int, list[bytes]] = {out: [], errors: []}
    # a program that prints line by line gives many small pieces: it is their bytes that are counted
    room = {it: LONGEST for it in said}
    for it in said:
        waiting.register(it, select.POLLIN)
    opened, in_time = 2, True
    while opened:
        left = None if end is None else max(0.0, end - time.monotonic()) * 1000
        ready = waiting.poll(left)
        if not ready:
            os.kill(process, signal.SIGKILL)
            in_time = False
            break
        for number, _ in ready:
            piece = os.read(number, 65536)
            if not piece:
                waiting.unregister(number)
                opened -= 1
            elif room[number] > 0:
                said[number].append(piece)
                room[number] -= len(piece)
    return b"".join(said[out]), b"".join(said[errors]), in_time


class _Shared:
    """One program for all tasks of a thread. (It may be run by other threads: its numbers get their files in the process that is started.)"""

    def __init__(self) -> None:
        self._local = threading.local()

    def of(self, path: str) -> Program:
        """The program of this path, for this thread."""
        made: "dict[str, Program]" = getattr(self._local, "made", {})
        if path not in made:
            made[path] = Program(path)
            self._local.made = made
        return made[path]


shared = _Shared()


def check_files() -> None:
    """Raises `NoProgram` if the system does not show open files under /proc, which all calls need."""
    if not os.path.isdir(FILES):
        raise NoProgram(f"{FILES.decode()} is not there: mount /proc, which fzbatch needs to hand files to fz")


def is_stopping(number: int) -> bool:
    """Whether nothing else can be written either after a call of the system failed with this number."""
    return number in (errno.ENOSPC, errno.EROFS, errno.EDQUOT)
