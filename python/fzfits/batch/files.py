"""Files as bytes on a disk: sums, syncs, and a name that is given without replacing another file."""
from __future__ import annotations

import ctypes
import errno
import hashlib
import os
import stat
import sys
from contextlib import contextmanager
from dataclasses import dataclass
from typing import Iterator, Optional

from . import inside

PIECE = 1 << 20
LONGER = 1 << 26
# What may be the beginning of a card with a checksum.
CARDS = (b"DATASUM = ", b"CHECKSUM= ")
IMAGE_CARDS = (b"ZDATASUM= ", b"ZHECKSUM= ")
LETTERS = b"SUM"
# File systems of which one call for the whole disk is known to wait for all files, and to report what could not be written.
LOCAL = ("ext2", "ext3", "ext4", "xfs", "btrfs", "f2fs", "tmpfs")
NO_LINKS = (errno.EPERM, errno.ENOTSUP, errno.EOPNOTSUPP, errno.EMLINK, errno.ENOSYS)


class NotRegular(OSError):
    """The name is not that of a regular file any more."""


@dataclass(frozen=True)
class Looked:
    """A file as it was read: what `stat` said, the SHA-256 of its bytes, and whether cards of checksums may be in it.

    `has_sums` is for DATASUM and CHECKSUM, and `has_image_sums` for ZDATASUM and ZHECKSUM, those of a packed image.
    """

    size: int
    mtime: int
    ctime: int
    inode: int
    mode: int
    sha256: str
    has_sums: bool = False
    has_image_sums: bool = False

    def is_still(self, it: Optional[os.stat_result]) -> bool:
        """Whether `stat` says the same of the file now, so that nothing wrote it since."""
        return it is not None and (it.st_size, it.st_mtime_ns, it.st_ctime_ns, it.st_ino) == (self.size, self.mtime, self.ctime, self.inode)


class _Reading:
    """The SHA-256 of the bytes of a file, and which cards may be in them, as they come piece by piece."""

    def __init__(self) -> None:
        self._total, self._end = hashlib.sha256(), b""
        self.has_sums = self.has_image_sums = False

    def add(self, piece: bytes) -> None:
        """The next piece."""
        self._total.update(piece)
        seam = self._end + piece[:9]
        # these letters are in all of the cards, and most data have none
        if LETTERS in piece or LETTERS in seam:
            self.has_sums = self.has_sums or any(card in piece or card in seam for card in CARDS)
            self.has_image_sums = self.has_image_sums or any(card in piece or card in seam for card in IMAGE_CARDS)
        self._end = piece[-9:]

    def of(self, it: os.stat_result) -> Looked:
        """What was read of a file of which `stat` says this."""
        return Looked(it.st_size, it.st_mtime_ns, it.st_ctime_ns, it.st_ino, stat.S_IMODE(it.st_mode), self._total.hexdigest(), self.has_sums, self.has_image_sums)


def look_at(number: int) -> Looked:
    """Reads a whole open regular file from its beginning."""
    it = os.fstat(number)
    if not stat.S_ISREG(it.st_mode):
        raise NotRegular(errno.EINVAL, "it is no regular file any more")
    read, at = _Reading(), 0
    while True:
        piece = os.pread(number, PIECE, at)
        if not piece:
            return read.of(it)
        read.add(piece)
        at += len(piece)


def is_longer(number: int, size: Optional[int]) -> bool:
    """Whether an open file is so much longer than it was that it is another one, and need not be read: holes take long, and cost nothing to make."""
    return size is not None and os.fstat(number).st_size > size + LONGER


def look(path: bytes) -> Looked:
    """Reads a whole regular file. A symbolic link is not followed."""
    number = os.open(path, inside.FILE)
    try:
        return look_at(number)
    finally:
        os.close(number)


def there(path: bytes) -> bool:
    """Whether anything has this name, also a link that leads nowhere. A failure other than its absence is raised."""
    try:
        os.lstat(path)
    except FileNotFoundError:
        return False
    return True


def sync_disk(number: int) -> bool:
    """Waits until the disk of an open folder has all that was written.

    False if the system cannot do that or does not report faults, or if it is another disk than a local one of a kind that is known
    to do so: then each file is to be synced.
    """
    call = getattr(_libc(), "syncfs", None)
    if call is None or not _reports_faults() or kind_of_disk(os.fstat(number).st_dev) not in LOCAL:
        return False
    if call(number) != 0:
        error = ctypes.get_errno()
        if error in (errno.ENOSYS, errno.EINVAL, errno.ENOTSUP):
            return False
        raise OSError(error, os.strerror(error))
    return True


def kind_of_disk(device: int) -> str:
    """The kind of the file system with this number, as ext4; the empty text if the system does not say it."""
    wanted = f"{os.major(device)}:{os.minor(device)}"
    try:
        with open("/proc/self/mountinfo", encoding="utf-8", errors="surrogateescape") as it:
            kinds = [line.partition(" - ")[2].split(" ")[0] for line in it if line.split(" ")[2:3] == [wanted]]
    except OSError:
        return ""
    return kinds[-1] if kinds else ""


def _libc() -> Optional[ctypes.CDLL]:
    try:
        return ctypes.CDLL(None, use_errno=True) if sys.platform == "linux" else None
    except OSError:
        return None


def _reports_faults() -> bool:
    """Since Linux 5.8 syncfs says if a write failed."""
    numbers = os.uname().release.split(".")
    try:
        return (int(numbers[0]), int(numbers[1].split("-")[0])) >= (5, 8)
    except (ValueError, IndexError):
        return False


def copy_into(above: int, name: bytes, source: bytes) -> "tuple[int, Looked]":
    """Copies a file into a new one of this name in an open folder, and gives that one, open, as the bytes that were written say."""
    made = os.open(name, os.O_RDWR | os.O_CREAT | os.O_EXCL | os.O_NOFOLLOW | os.O_CLOEXEC, 0o600, dir_fd=above)
    try:
        read = _Reading()
        with open(source, "rb", buffering=0) as it:
            while True:
                piece = it.read(PIECE)
                if not piece:
                    return made, read.of(os.fstat(made))
                read.add(piece)
                view = memoryview(piece)
                while view:
                    view = view[os.write(made, view) :]
    except BaseException:
        os.close(made)
        raise


def set_rights(number: int, mode: int) -> None:
    """Gives an open file its rights, if its file system has any."""
    try:
        os.fchmod(number, mode)
    except OSError as error:
        if error.errno not in (errno.EPERM, errno.ENOTSUP):
            raise


def give_name(above: int, part: bytes, name: bytes, replace: bool = False) -> bool:
    """Gives a whole file of an open folder its name. False if another file has that name, which then stays."""
    if replace:
        os.rename(part, name, src_dir_fd=above, dst_dir_fd=above)
        return True
    try:
        os.link(part, name, src_dir_fd=above, dst_dir_fd=above, follow_symlinks=False)
        os.unlink(part, dir_fd=above)
    except FileExistsError:
        return False
    except OSError as error:
        # a file system without hard links: the lock keeps other runs away between the look and the renaming
        if error.errno not in NO_LINKS:
            raise
        try:
            os.stat(name, dir_fd=above, follow_symlinks=False)
            return False
        except FileNotFoundError:
            os.rename(part, name, src_dir_fd=above, dst_dir_fd=above)
    return True


def write_over_own(path: bytes, data: bytes, beginning: int) -> bool:
    """Writes a file. One that is there is replaced only if it begins with the same bytes, so no other file is lost by a slip.

    A link is not followed, and counts as another file.
    """
    if there(path):
        try:
            number = inside.own(path, os.O_RDONLY)
        except OSError:
            return False
        with os.fdopen(number, "rb") as file:
            if file.read(beginning) != data[:beginning]:
                return False
    inside.replace(path, iter([data]), 0o666 & ~_umask())
    return True


def _umask() -> int:
    found = os.umask(0o077)
    os.umask(found)
    return found


@contextmanager
def private() -> Iterator[None]:
    """While the block runs, new files and folders can be read by their owner only; each gets its rights when it is whole."""
    before = os.umask(0o077)
    try:
        yield
    finally:
        os.umask(before)


def remove(path: bytes, above: Optional[int] = None) -> None:
    """Removes a file if it is there."""
    try:
        os.unlink(path, dir_fd=above)
    except FileNotFoundError:
        pass
