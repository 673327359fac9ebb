"""One run at a time works on a folder of packed files."""
from __future__ import annotations

import fcntl
import os
import re
import socket
import stat
from contextlib import contextmanager
from typing import Iterator

from . import inside, names

HOLDER = re.compile(r"process [0-9]{1,10} on [\w.-]{1,255}\n?")
# What a killed run, or a loss of power, leaves of such a line.
CUT = re.compile(r"\0*|p|pr|pro|proc|proce|proces|process|process [0-9]*|process [0-9]* o?n?|process [0-9]* on [\w.-]*")


class Locked(Exception):
    """Another run holds the lock, or the file of the lock is none of fzbatch."""


def is_writable(folder: bytes) -> bool:
    """Whether files can be made in a folder, as far as rights and the mount say."""
    return os.access(folder, os.W_OK | os.X_OK)


@contextmanager
def held(path: bytes, shared: bool = False) -> Iterator[None]:
    """Holds the lock in this file until the block ends. The system frees it if the process is killed.

    Nothing is held on a disk that cannot be written: no run changes anything there. Only a file that is empty or has a line that
    fzbatch wrote is written: a link, or any other file of that name, is an error.
    """
    mode = (fcntl.LOCK_SH if shared else fcntl.LOCK_EX) | fcntl.LOCK_NB
    if not is_writable(os.path.dirname(path)):
        yield
        return
    number = _opened(path)
    try:
        text = os.pread(number, 400, 0).decode("utf-8", "replace")
        if not (HOLDER.fullmatch(text) or CUT.fullmatch(text)):
            raise Locked(f"{names.shown(path)} has other text than fzbatch writes, and is not touched: find out what it is, and move it away")
        try:
            fcntl.flock(number, mode)
        except BlockingIOError as error:
            holder = text.strip() if HOLDER.fullmatch(text) else "a process that did not give its name"
            raise Locked(f"another run is at work in {names.shown(os.path.dirname(path))}: {holder}") from error
        if not shared:
            os.ftruncate(number, 0)
            os.pwrite(number, f"process {os.getpid()} on {re.sub(r'[^A-Za-z0-9_.-]', '_', socket.gethostname()) or '_'}\n".encode(), 0)
        yield
    finally:
        os.close(number)


def takes(number: int) -> bool:
    """Takes the lock of an open file or folder until it is closed: False if another run has it, which may have another manifest."""
    try:
        fcntl.flock(number, fcntl.LOCK_EX | fcntl.LOCK_NB)
    except BlockingIOError:
        return False
    except OSError:
        # a disk without such locks
        pass
    return True


def _opened(path: bytes) -> int:
    rights = stat.S_IMODE(os.stat(os.path.dirname(path)).st_mode) & 0o666
    try:
        number = inside.own(path, os.O_RDWR | os.O_CREAT | os.O_EXCL, rights)
        os.fchmod(number, rights)
        return number
    except FileExistsError:
        pass
    try:
        return inside.own(path, os.O_RDWR)
    except OSError as error:
        if isinstance(error, PermissionError):
            raise
        raise Locked(f"{names.shown(path)} is a link, or no regular file, and is not touched: find out what it is, and move it away") from error
