"""What to do about a file that was not done: one short text for each cause."""
from __future__ import annotations

import contextlib
import errno
import os
import shlex

from .. import diagnose, refusals
from ..errors import OverLimit, Refused
from ..program import Outcome

ANOTHER_COPY = "fetch the packed file from another copy; or, if the plain file is still there, remove the packed file and run fzbatch pack again"

ANOTHER_PLAIN = "decide which one is right: fzbatch pack --update packs the plain file as it is now, in the place of the earlier packed file"
LOST = "run fzbatch pack again if the plain file is there; otherwise fetch the packed file from another copy"
# How the lines of two faults begin, which take other tests than most (`faults`).
DIFFERS = "the unpacked file differs from the one that was packed"
WRONG_INSIDE = "ZDATASUM or ZHECKSUM is not that of the image"
LONGER = "the packed file is far longer than the one that was made, and was not read"
BOTH_CHANGED = "the packed file is not there, and the plain file is another than the one that was packed"
LOST_AND_CHANGED = "fetch the packed file or the plain file from another copy; fzbatch pack --update packs the plain file as it is now, if that is right"
NO_LINKS = "fzbatch follows no links below its folders: replace the link by the folder or file that it leads to"
OVER_TIME = "if the file may be trusted and is that large, allow more by --time-limit; a file from a stranger may be made to cost time"
WITHOUT_PLAIN = "if it was deleted on purpose, run fzbatch with --without-plain; otherwise fzbatch restore makes it again"
WRONG_RESTORED = "the image was damaged before it was packed, or its header was changed: compare it with another copy, from before it was packed"
NO_SPACE = errno.ENOSPC

FORGET = "fzbatch forget takes it out of the manifest"
UPDATE = "fzbatch pack --update packs the plain file again, in the place of the packed file that changed"

STATUSES = {
    1: "a checksum of the plain file is wrong before it is packed: fetch it again; or, if its data are known to be right, fzfits mend --sums makes "
    "a copy with right checksums; fzfits why says which are wrong and what that means; "
    "--accept-wrong-sums packs it as it is, which the manifest keeps",
    2: "correct the options of fz pack that were given to fzbatch",
    4: "check that the file still exists and that the disk or the network works, and run fzbatch again",
    5: "make room on the disk, or allow writing, and run fzbatch again",
    6: "run fzbatch again with a larger --memory, or with smaller tiles (--tile)",
    7: "run fzbatch again with fewer --jobs",
}

ERRNOS = {
    errno.ENOENT: "the file or its folder went away while fzbatch ran: run it again",
    errno.EACCES: "allow it to be read or written, and run fzbatch again",
    errno.EPERM: "allow it to be read or written, and run fzbatch again",
    errno.EIO: "the disk reports an error: copy what can be read to another disk, and fetch the file from another copy",
    errno.ENOSPC: "make room on the disk, and run fzbatch again",
    errno.EDQUOT: "make room below the quota, and run fzbatch again",
    errno.EFBIG: "raise the limit on the size of files (ulimit -f), and run fzbatch again",
    errno.EROFS: "the disk is mounted read-only: mount it so that it can be written, and run fzbatch again",
    errno.ENAMETOOLONG: "the name has no room for .fz: give the file a shorter name",
    errno.ENOTDIR: "a file has the name that a folder needs: rename one of them",
    errno.EISDIR: "a folder has the name that a file needs: rename one of them",
    errno.ESTALE: "the network disk was mounted again: run fzbatch again",
}


def of_errno(number: int) -> str:
    """What to do after a call of the system failed."""
    return ERRNOS.get(number, "read the message of the system, and run fzbatch again")


def of_signal(name: str) -> str:
    """What to do after the program was ended by a signal."""
    if name == "SIGXFSZ":
        return ERRNOS[errno.EFBIG]
    if name in ("SIGKILL", "SIGTERM"):
        return "it was killed, perhaps because memory ran out: run fzbatch again, with fewer --jobs if it happens again"
    return "run fzbatch again; if it happens again, report it with the file"


def of_outcome(ended: Outcome) -> str:
    """What to do after the program ended with another status than 0."""
    if ended.status < 0:
        return of_signal(ended.signal or "")
    if ended.status == 3:
        return of_refusal(ended.line)
    return STATUSES.get(ended.status, "report it with the file: fz has no such status")


def of_file(ended: Outcome, verb: str, path: bytes) -> "tuple[str, str]":
    """What the file itself says more about an outcome: the line with its card at the place, and what to do about this very file.

    Either is the empty text if no more is known.
    """
    # it is only a help: what goes wrong with the headers of a stranger's file is no fault of the file's outcome
    with contextlib.suppress(Exception):
        error = diagnose.error_of(ended, diagnose.Call(verb, path))
        if isinstance(error, Refused):
            return _line_of(error), _remedy_of(error, path)
        if isinstance(error, OverLimit) and error.enough:
            return error.what(), f"--memory {error.enough} is enough"
    return "", ""


def _line_of(error: Refused) -> str:
    if error.kind == "AlreadyPacked" and error.codec:
        return f"already compressed with {error.codec} ({error.number} {error.kind}, HDU {error.hdu})"
    return error.what()


def _remedy_of(error: Refused, path: bytes) -> str:
    lines = [error.advice.replace("tile=(64, 64)", "--tile 64,64")] if error.advice else []
    if error.mends:
        lines.append(f"fzfits mend --{error.mends.replace('_', '-')} {shlex.quote(os.fsdecode(path))} OUT makes a copy without this fault")
    # an advice that ends with a command is one way, and mend another; else it says what the fault is
    return ("; or " if "truncate -s" in error.advice else ". ").join(it.rstrip(".") for it in lines)


def kind_of(line: str) -> tuple[int, str]:
    """Number and name of the kind in a line `refused: 2 Truncated hdu 0 byte 5759`."""
    words = line.split()
    if len(words) >= 3 and words[0] == "refused:" and words[1].isdigit():
        return int(words[1]), words[2]
    return 0, "unknown"


def of_refusal(line: str) -> str:
    """What to do about a file that was refused."""
    number, name = kind_of(line)
    found = refusals.kind(number)
    return found.text.rstrip(".") if found else f"docs/REFUSALS.md says what to do about {number} {name}"
