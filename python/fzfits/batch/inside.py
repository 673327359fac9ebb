"""Files below a folder, opened part by part, so that no symbolic link on the way leads out of it."""
from __future__ import annotations

import errno
import os
import stat
from contextlib import contextmanager
from typing import Callable, Iterator, Optional

from . import names

FOLDER = os.O_RDONLY | os.O_DIRECTORY | os.O_CLOEXEC
FILE = os.O_RDONLY | os.O_NOFOLLOW | os.O_NONBLOCK | os.O_CLOEXEC


class NotInside(OSError):
    """A part of the path is a symbolic link, or not what it should be."""

    def __init__(self, text: str):
        super().__init__(errno.ELOOP, text)


@contextmanager
def folder(root: bytes, path: bytes, modes: Optional[Callable[[bytes], int]] = None) -> Iterator[int]:
    """The folder of this path below `root`, as a number, until the block ends.

    No link is followed below `root`. With `modes` folders that are not there are made, with the rights that it says of each path.
    """
    number = os.open(root, FOLDER)
    try:
        done = b""
        for part in path.split(b"/") if path else []:
            done = os.path.join(done, part)
            below = _enter(number, part, done, modes)
            os.close(number)
            number = below
        yield number
    finally:
        os.close(number)


def _enter(number: int, part: bytes, path: bytes, modes: Optional[Callable[[bytes], int]]) -> int:
    try:
        return _opened(number, part, path)
    except FileNotFoundError:
        if modes is None:
            raise
    try:
        os.mkdir(part, 0o700, dir_fd=number)
    except FileExistsError:
        return _opened(number, part, path)
    made = _opened(number, part, path)
    try:
        os.fchmod(made, modes(path))
    except OSError as error:
        # some file systems have no rights
        if error.errno not in (errno.EPERM, errno.ENOTSUP):
            os.close(made)
            raise
    sync_number(number)
    return made


def _opened(number: int, part: bytes, path: bytes) -> int:
    try:
        return os.open(part, FOLDER | os.O_NOFOLLOW, dir_fd=number)
    except OSError as error:
        if error.errno not in (errno.ELOOP, errno.ENOTDIR):
            raise
        raise NotInside(f"{names.shown(path)} is a symbolic link or a file, and no folder") from error


@contextmanager
def file(root: bytes, path: bytes) -> Iterator[int]:
    """A regular file below `root`, opened to be read, until the block ends. No link is followed below `root`."""
    with folder(root, os.path.dirname(path)) as above:
        number = os.open(os.path.basename(path), FILE, dir_fd=above)
    try:
        if not stat.S_ISREG(os.fstat(number).st_mode):
            raise NotInside("it is no regular file")
        yield number
    finally:
        os.close(number)


def opened_in(above: int, name: bytes) -> int:
    """A regular file of an open folder, opened to be read. A link is not followed."""
    number = os.open(name, FILE, dir_fd=above)
    if not stat.S_ISREG(os.fstat(number).st_mode):
        os.close(number)
        raise NotInside("it is no regular file")
    return number


def state(root: bytes, path: bytes) -> Optional[os.stat_result]:
    """What `lstat` says of a name below `root`, or None if nothing has it. No link is followed below `root`."""
    try:
        with folder(root, os.path.dirname(path)) as above:
            return os.stat(os.path.basename(path), dir_fd=above, follow_symlinks=False)
    except FileNotFoundError:
        return None


def is_there(above: int, name: bytes) -> bool:
    """Whether anything of an open folder has this name, also a link that leads nowhere."""
    try:
        os.stat(name, dir_fd=above, follow_symlinks=False)
    except FileNotFoundError:
        return False
    return True


def is_spelled(above: int, name: bytes) -> bool:
    """Whether a folder lists this very name: a disk that ignores case finds files by names that it does not list."""
    return name in map(os.fsencode, os.listdir(above))


def sync_number(number: int) -> None:
    """Waits until the disk has an open file, or the names in an open folder."""
    try:
        os.fsync(number)
    except OSError as error:
        # some network file systems cannot sync a folder
        if error.errno not in (errno.EINVAL, errno.ENOTSUP):
            raise


def with_rights_of(root: bytes) -> Callable[[bytes], int]:
    """The rights for a new folder: those of the folder of the same path below another root, and all rights for its owner."""

    def rights(path: bytes) -> int:
        try:
            found = os.lstat(os.path.join(root, path))
        except OSError:
            return 0o700
        return (found.st_mode & 0o777) | 0o700 if stat.S_ISDIR(found.st_mode) else 0o700

    return rights


def own(path: bytes, flags: int, mode: int = 0o600) -> int:
    """Opens a file that fzbatch keeps for itself. A link, a second name of another file, a pipe or a folder is no such file."""
    number = os.open(path, flags | os.O_NOFOLLOW | os.O_NONBLOCK | os.O_CLOEXEC, mode)
    found = os.fstat(number)
    if not stat.S_ISREG(found.st_mode) or found.st_nlink > 1:
        os.close(number)
        raise NotInside("it is no regular file of its own")
    return number


def is_own(path: bytes) -> bool:
    """Whether a regular file with one name is there. Anything else of that name is an error, and nothing is False."""
    try:
        found = os.lstat(path)
    except FileNotFoundError:
        return False
    if not stat.S_ISREG(found.st_mode) or found.st_nlink > 1:
        raise NotInside(f"{names.shown(path)} is a link, has a second name (a hard link), or is no regular file: find out what it is, and move it away; a hard link of a backup can be replaced by a copy")
    return True


def replace(path: bytes, pieces: Iterator[bytes], mode: int) -> None:
    """Writes a file under another name, and gives it its name when the disk has it. What had the name is gone then."""
    new = path + b".%s.new" % os.urandom(6).hex().encode()
    number = os.open(new, os.O_WRONLY | os.O_CREAT | os.O_EXCL | os.O_NOFOLLOW | os.O_CLOEXEC, 0o600)
    try:
        with os.fdopen(number, "wb") as to:
            for it in pieces:
                to.write(it)
            to.flush()
            os.fchmod(to.fileno(), mode)
            os.fsync(to.fileno())
        os.replace(new, path)
    except BaseException:
        os.unlink(new)
        raise
    above = os.open(os.path.dirname(path) or b".", FOLDER)
    try:
        sync_number(above)
    finally:
        os.close(above)
