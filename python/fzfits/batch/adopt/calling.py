"""Calls of fz on files that are open or in a folder for temporary files, within the limits on memory and time."""
from __future__ import annotations

import os
import time
from typing import Optional

from ...program import Outcome
from .. import advice, calls, expansion
from ..rooms import Rooms
from ..tries import BYTES_OF_A_SECOND, LEAST_SECONDS
from .messages import Asked

# All calls for a file, and what is inflated of it, have so many times the time of one call.
TIMES = 10
# What a plain file may have beside a packed one that stands for it: the cards that packing takes away or adds.
BESIDE = 1 << 20


class Undone(Exception):
    """fz did not say what the file is: it had no time, no memory or no disk, or was killed."""

    def __init__(self, cause: str, line: str, what: str, error: Optional[int] = None):
        super().__init__(line)
        self.cause, self.line, self.what, self.error = cause, line, what, error


class Fz:
    """The program for one file of an adopted folder, and names for what it writes."""

    def __init__(self, asked: Asked, room: Rooms):
        self.asked, self.room = asked, room
        self.program = calls.shared.of(asked.program)
        self.until = float("inf")

    def limit(self, size: int) -> float:
        """The seconds for one call that reads or makes so many bytes."""
        return self.asked.time_limit or LEAST_SECONDS + size / BYTES_OF_A_SECOND

    def begin(self, size: int) -> None:
        """From here on a file of this size has its time: a stranger's may ask for more calls than anybody waits for."""
        self.until = time.monotonic() + TIMES * self.limit(size)

    def left(self, what: str) -> float:
        """The seconds that the file still has."""
        found = self.until - time.monotonic()
        if found <= 0:
            raise Undone(f"{what}: over time", f"{what}: the file has needed {TIMES} times the time of one call", advice.OVER_TIME)
        return found

    def check_growth(self, source: "int | bytes", most: int = 0) -> None:
        """Raises `Undone` for a packed file that would become far longer than any image of its size, and than `most` bytes."""
        said = self.growth(source, most)
        if said:
            raise Undone("file would grow", f"{said}, and was not unpacked", advice.OVER_TIME)

    @staticmethod
    def growth(source: "int | bytes", most: int = 0) -> str:
        """A line about a file that would become so long, or the empty text. `most` is the length of the plain file, if that is known."""
        number = os.open(source, os.O_RDONLY | os.O_CLOEXEC) if isinstance(source, bytes) else source
        try:
            size = os.fstat(number).st_size
            found = expansion.unpacked(number, size)
            return expansion.warning(found, size) if found > 2 * most + BESIDE else ""
        finally:
            if number != source:
                os.close(number)

    def run(self, verb: str, source: "int | bytes", size: int, *options: str, out: bytes = b"", above: Optional[int] = None) -> Outcome:
        """The statuses 0, 1 and 3 say what the file is; all others are `Undone`. `size` is what is read or made at most.

        With `above`, an open folder, `out` is a name in it, and `source` an open file.
        """
        limits = ("--memory", str(self.asked.memory)) if self.asked.memory and verb != "list" else ()
        name: "str | bytes" = source if isinstance(source, bytes) else self.program.first
        numbers: "tuple[int, ...]" = () if isinstance(source, bytes) else (source,)
        if above is not None:
            numbers, out = (*numbers, above), os.path.join(self.program.second, out)
        words: "list[str | bytes]" = [verb, *options, *limits, "--", name, *((out,) if out else ())]
        try:
            ended = self.program.run(words, numbers, min(self.limit(size), self.left(f"fz {verb}")))
        except calls.OverTime as error:
            raise Undone(f"fz {verb}: over time", f"fz {verb}: {error}", advice.OVER_TIME) from error
        if ended.status in (0, 1, 3):
            return ended
        if ended.status == 5 and out:
            self._no_room(os.path.dirname(out) if above is None else b"/proc/self/fd/%d" % above)
        said = ended.signal or ended.line or ended.errors.strip() or f"status {ended.status}"
        raise Undone(f"fz {verb}: {said.split(':')[0]}", f"fz {verb}: {said}", advice.of_outcome(ended))

    def _no_room(self, folder: bytes) -> None:
        free = os.statvfs(folder)
        if free.f_bavail * free.f_frsize < 1 << 20:
            said = os.strerror(advice.NO_SPACE)
            where = "" if folder.startswith(b"/proc/") else f" (for temporary files, in {os.fsdecode(folder)}; TMPDIR names another folder)"
            raise Undone(said, said + where, advice.of_errno(advice.NO_SPACE), advice.NO_SPACE)
