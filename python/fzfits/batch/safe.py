"""Whether the originals of an archive may be deleted: the one line that `fzbatch report` begins with."""
from __future__ import annotations

from dataclasses import dataclass, field

from .manifest import Row
from .scan import COMPRESSED
from .survey import Survey

QUESTION = "Safe to delete the originals:"
# What the last check of a file came to, if it was unpacked and found to be the file that was packed.
COMPARED = ("same", "unpacked", "restored")


@dataclass(frozen=True)
class Verdict:
    """The answer as one line, and its reasons."""

    safe: bool
    line: str
    why: list[str] = field(default_factory=list)


def is_compared(row: Row) -> bool:
    """Whether the packed file was unpacked and compared when it was looked at last."""
    return row.done and row.check_line in COMPARED


def _files(count: int) -> str:
    return f"{count:,} file" if count == 1 else f"{count:,} files"


def _are(count: int, one: str, several: str) -> str:
    return f"{_files(count)} {one if count == 1 else several}"


def verdict_of(found: Survey) -> Verdict:
    """Yes only if every FITS file of the folder has a packed file that was unpacked and compared with it, and nothing changed since."""
    if found.found is None or found.lost:
        return Verdict(False, f"{QUESTION} not known", [f"{found.lost or 'The originals are not there, so they were not looked at'}."])
    bad = {it.path for it in found.findings}
    # nothing is known of these now: their disk may not be mounted
    gone = {it.path for it in found.rows if it.done and it.path not in found.found.files} - bad
    if gone and len(gone) == len(found.rows):
        return Verdict(False, f"{QUESTION} not known", ["The originals are not there, so they were not looked at."])
    left = {it.path for it in found.left}
    # a link may go, since what it leads to stays; a file that was left out is only in the folder
    skipped = {it.path for it in found.skipped if it.sort == COMPRESSED}
    waiting = {it.path for it in found.rows if it.done and not is_compared(it)} - bad
    others = sum(found.others.values())
    apart = [_are(others, "of another name is in no packed file.", "of other names are in no packed file.")] if others else []
    count = len(bad | left | skipped | waiting)
    if gone:
        apart.insert(0, _are(len(gone), "has no original here any more, so whether that changed was not looked at.", "have no originals here any more, so whether these changed was not looked at."))
    if not count:
        every = _files(len(found.rows) - len(gone))
        said = [f"Each of {every} was unpacked and compared with its original, and nothing changed since. First have a second copy of the packed files on another disk."]
        but = f"; not {_are(len(gone), 'that is not there', 'that are not there')}" if gone else ""
        but += f"; not {_are(others, 'of another name', 'of other names')}" if others else ""
        return Verdict(True, f"{QUESTION} yes, all {every}{but}", said + apart)
    why = []
    if bad:
        why.append(_are(len(bad), "is not well: see below.", "are not well: see below."))
    if left:
        why.append(_are(len(left), "was skipped, and is in no packed file.", "were skipped, and are in no packed file."))
    if skipped:
        why.append(_are(len(skipped), "was left out, as --skip-compressed says, and is in no packed file.", "were left out, as --skip-compressed says, and are in no packed file."))
    if waiting:
        why.append(_are(len(waiting), "was not compared with its original yet: fzbatch compare does so.", "were not compared with their originals yet: fzbatch compare does so."))
    return Verdict(False, f"{QUESTION} no, {_files(count)}", why + apart)
