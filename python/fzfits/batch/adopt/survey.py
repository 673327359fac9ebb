"""What is not well in an adopted folder, by its manifest and a look at the folder: one answer for `status`, `missing` and `report`."""
from __future__ import annotations

import os
from typing import Iterator, List, Set, Tuple

from .. import names
from ..scan import LINK, Left
from . import run, verdict
from .count import Count, line_of
from .rows import GONE, UNREAD, Finding, Row
from .store import Store
from .waiting import Look, Waiting
from .walk import see

LOOKS = Finding("looks otherwise", "it has another length or time than when it was last read", "fzbatch adopt reads it and says whether it is another file")
NOT_THERE = Finding("gone", "it is not there", "fetch it from another copy, or fzbatch forget takes it out of the manifest")
NEW = run.UNKNOWN


class Survey:
    """A folder as it is found: nothing of it is read but names, lengths and times."""

    def __init__(self, store: Store, folder: bytes, jobs: int):
        self.store, self.folder = store, folder
        self.waiting = Waiting(Look())
        self.waiting.fill(store, folder, jobs)
        self.left, self.notes = run.kept_left(store, self.waiting.left)
        self.lost = ""
        if not self.waiting.here:
            self.lost = f"{names.shown(folder)} is not there, or has no FITS file: only the manifest was read"
        elif store.files and self.waiting.new == self.waiting.here:
            self.lost = f"{names.shown(folder)} has none of the files of the manifest: is its disk mounted?"
        unended = [it for it in store.runs() if it[7] is None]
        for _, _, verb, host, process, _, began, _, _ in unended[-1:]:
            self.notes.append(f"A run, {verb} at {began} by process {process} on {host}, did not end yet, or was killed.")

    def close(self) -> None:
        """Drops what the look saw."""
        self.waiting.close()

    def findings(self) -> "Iterator[Tuple[bytes, List[Finding]]]":
        """Each file with which something is not well: first what the manifest says, then what the look saw."""
        for row in self.store.not_well():
            yield row.path, row.findings
        if self.lost:
            return
        for part in self.waiting.tasks():
            for it in part:
                if not it.sha256:
                    yield it.path, [NEW]
                elif self._is_news(self.store.row(it.folder, it.name)):
                    yield it.path, [LOOKS]
        for folder, name in self.waiting.still_gone():
            gone = self.store.row(folder, name)
            if gone is not None and gone.status != GONE and not verdict.other_half(gone, self.waiting.row_there(self.store)):
                yield gone.path, [NOT_THERE]

    def _is_news(self, row: "Row | None") -> bool:
        return row is not None and row.status not in (GONE, UNREAD) and self.waiting.looks_otherwise(row)

    @property
    def whole(self) -> bool:
        """Whether all is well."""
        return not self.left and not self.lost and next(self.findings(), None) is None


def uncovered(root: bytes, folders: "Set[bytes]", skips_links: bool = False) -> "Iterator[str]":
    """A line for each folder of `root` that has files and is in none of these adopted folders: its manifest may be lost.

    What is left out of such a folder is named too, as links and pipes are.
    """
    waiting = [b""]
    while waiting:
        path = waiting.pop()
        if os.path.join(root, path).rstrip(b"/") in folders:
            continue
        seen = see(root, path)
        waiting += seen.below
        yield from (left_line(it) for it in seen.left if not (skips_links and it.sort == LINK))
        if seen.count:
            yield f"{names.shown(path or b'.')}: {seen.count:,} files are in no manifest that was named"


def counted(it: Survey, verb: str, all_names: bool) -> Count:
    """The counts of a folder as it was found."""
    made = Count(verb, all_names, left=it.left, notes=list(it.notes), lost=it.lost, others=dict(it.waiting.others.most_common()))
    for folder in it.store.folders():
        for status, many in folder.of_status.items():
            if status in ("right", "part"):
                made.good(status, many)
    for path, found in it.findings():
        if found[0] in (LOOKS, NOT_THERE):
            row = run.row_of(it.store, path)
            if row is not None and row.status in made.outcomes:
                made.outcomes[row.status] -= 1
        made.not_well(path, found)
    return made


def left_line(it: Left, before: bytes = b"") -> str:
    """What was left out, on one line. `before` is what its path has before it."""
    return f"{names.shown(before + it.path)}: {it.why}"


__all__ = ["Survey", "counted", "left_line", "line_of"]
