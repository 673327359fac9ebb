"""Names of files as the program takes them, and outputs that are whole or not there.

The program takes names in UTF-8 only. A name that is other bytes gets a second one: a symbolic link in a folder of its own under
the folder for temporary files, which is removed after the call. Blanks, line feeds and a leading dash need nothing, since all
names follow the argument `--`.

An output is written under a name of its own in the folder where it belongs, `.fz-<random>.unfinished`, and gets its own name by a
hard link after the program has ended with status 0: so there is never a part of a file under its name, another file of that name
is never replaced, and what a failed call leaves can be removed safely. Where the file system has no hard links it is renamed.
"""
from __future__ import annotations

import contextlib
import errno
import os
import secrets
import shutil
import tempfile
from typing import Iterator, List

from .errors import Usage, WriteFault, shown
from .headers import Name

SUFFIX = b".unfinished"
NO_HARD_LINKS = (errno.EPERM, errno.ENOSYS, errno.ENOTSUP, errno.EOPNOTSUPP, errno.EMLINK, errno.EXDEV)


def bytes_of(name: Name) -> bytes:
    """The bytes of a name. Raises `Usage` for a name that no file can have."""
    raw = os.fsencode(name)
    if not raw or b"\0" in raw:
        raise Usage("the name of a file is empty" if not raw else "the name of a file has a zero byte in it", path=name or None)
    return raw


def is_utf8(raw: bytes) -> bool:
    """Whether the program takes this name."""
    try:
        raw.decode("utf-8")
        return True
    except UnicodeDecodeError:
        return False


CAUSES = {
    errno.EEXIST: "exists",
    errno.ENOENT: "no folder",
    errno.ENOTDIR: "no folder",
    errno.EACCES: "not allowed",
    errno.EPERM: "not allowed",
    errno.ENOSPC: "no room",
    errno.EDQUOT: "no room",
    errno.EFBIG: "no room",
    errno.EROFS: "read-only",
}
CURES = {
    "exists": "Give another name, or remove it first.",
    "no folder": "Make the folder first.",
    "not allowed": "Write into another folder, or ask for permission to write there.",
    "no room": "Make room, or write to another disk.",
    "read-only": "Write to another disk.",
}


def write_fault(name: Name, number: int, **more: object) -> WriteFault:
    """The error of an output that the system does not let be written, by the system's number."""
    cause = CAUSES.get(number, "other")
    reason = "there is a file of that name already" if cause == "exists" else os.strerror(number)
    return WriteFault(cause, reason, number, path=name, advice=CURES.get(cause, ""), **more)


class Links:
    """Second names, in a folder that is made when the first one is wanted."""

    def __init__(self) -> None:
        self.made: List[bytes] = []
        self.folder = b""

    def to(self, raw: bytes) -> bytes:
        """A name in UTF-8 for the file or folder of this name."""
        if is_utf8(raw):
            return raw
        if not self.folder:
            self.folder = os.fsencode(tempfile.mkdtemp(prefix="fz-"))
            if not is_utf8(self.folder):
                self.close()
                raise Usage(f"the folder for temporary files, {shown(self.folder)}, is not UTF-8: set TMPDIR", path=raw)
        self.made.append(os.path.join(self.folder, str(len(self.made)).encode()))
        os.symlink(os.path.abspath(raw), self.made[-1])
        return self.made[-1]

    def close(self) -> None:
        """Removes the second names."""
        if self.folder:
            shutil.rmtree(self.folder, ignore_errors=True)
            self.folder = b""


@contextlib.contextmanager
def links() -> Iterator[Links]:
    """Second names for the time of one call."""
    made = Links()
    try:
        yield made
    finally:
        made.close()


def sync_folder(folder: bytes) -> None:
    """Waits until the disk has the names of a folder, where the system can say so."""
    with contextlib.suppress(OSError):
        handle = os.open(folder, os.O_RDONLY)
        try:
            os.fsync(handle)
        finally:
            os.close(handle)


class Output:
    """A file that is being made: the name that it will have, and the one that it has until it is whole."""

    def __init__(self, name: Name) -> None:
        self.name = name
        self.raw = bytes_of(name)
        self.folder = os.path.dirname(self.raw) or b"."
        self.unfinished = os.path.join(self.folder, b".fz-" + secrets.token_hex(8).encode() + SUFFIX)
        if os.path.lexists(self.raw):
            raise write_fault(name, errno.EEXIST)

    def finish(self) -> None:
        """Gives the file its name, and waits until the disk has it."""
        try:
            try:
                os.link(self.unfinished, self.raw)
            except OSError as error:
                if error.errno not in NO_HARD_LINKS or os.path.lexists(self.raw):
                    raise
                os.rename(self.unfinished, self.raw)
        except OSError as error:
            raise write_fault(self.name, errno.EEXIST if os.path.lexists(self.raw) else error.errno or 0) from error
        self.drop()
        sync_folder(self.folder)

    def drop(self) -> None:
        """Removes what has no name yet."""
        with contextlib.suppress(OSError):
            os.unlink(self.unfinished)


@contextlib.contextmanager
def output(name: Name) -> Iterator[Output]:
    """A file to be made: call `finish` when it is whole; otherwise nothing is left of it."""
    made = Output(name)
    try:
        yield made
    finally:
        made.drop()
