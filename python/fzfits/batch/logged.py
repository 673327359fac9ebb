"""The log of a run: a line with the time for its beginning, for each file, and for its end."""
from __future__ import annotations

import errno
import os
import re
import stat
from typing import Optional, TextIO

from . import names
from .manifest import now
from .wanted import Refuse

LINE = re.compile(rb"[12][0-9]{3}-[01][0-9]-[0-3][0-9]T[0-2][0-9]:[0-5][0-9]:[0-6][0-9]Z ")


class Log:
    """A file to which lines are added; none if it has no name. A file that is no log gets none: an image, say, that was named by a slip."""

    def __init__(self, path: Optional[str] = None):
        self._to: Optional[TextIO] = open(_opened(path), "a", encoding="utf-8", buffering=1, errors="backslashreplace") if path else None

    def tell(self, line: str) -> None:
        """Adds a line."""
        if self._to is not None:
            self._to.write(f"{now()} {names.told(line)}\n")

    def close(self) -> None:
        """No line comes after this."""
        if self._to is not None:
            self._to.close()


def _opened(path: str) -> int:
    """The file, open. A pipe without a reader is an error, and nothing is waited for."""
    try:
        number = os.open(path, os.O_WRONLY | os.O_CREAT | os.O_APPEND | os.O_NONBLOCK | os.O_CLOEXEC, 0o666)
    except OSError as error:
        if error.errno != errno.ENXIO:
            raise
        raise Refuse(f"--log: {names.shown(os.fsencode(path))} is a pipe that nobody reads") from error
    os.set_blocking(number, True)
    found = os.fstat(number)
    if stat.S_ISREG(found.st_mode) and found.st_size and not _is_log(path):
        os.close(number)
        raise Refuse(f"--log: {names.shown(os.fsencode(path))} is there, and is no log of fzbatch: give another name")
    return number


def _is_log(path: str) -> bool:
    with open(path, "rb") as it:
        return LINE.match(it.read(32)) is not None
