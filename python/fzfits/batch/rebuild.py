"""`fzbatch rebuild`: a new manifest from the packed files alone, with what the second copy and SHA256SUMS still say.

Each packed file is verified and unpacked, and its checksums and those of what it restores are compared. What the second copy of the
manifest says of a file is taken if the packed file is still the one that it names. A packed file that is another one than
SHA256SUMS or the copy says is named as changed, and one that is not there as lost: nothing that was known before is certified anew.
"""
from __future__ import annotations

import os
import re
from contextlib import suppress
from typing import Optional

from . import advice, faults, files, keep, names, older
from .manifest import BadManifest, Manifest, Row, now
from .messages import Result, Settings, Task
from .opening import ANOTHER
from .scan import scan_packed
from .steps import Steps, looked
from .tries import Stop, Tries


UNFINISHED = re.compile(re.escape(names.MANIFEST) + rb"\.rebuilt-[0-9a-f]{16}(-journal)?")


def old_rows(packed: bytes, name: bytes = names.COPY) -> "tuple[dict[bytes, Row], dict[str, object], str]":
    """The rows, the facts and the runs of the second copy of the manifest, and a line that says what became of it."""
    path = os.path.join(packed, name)
    if not files.there(path):
        return {}, {}, f"{names.shown(path)} is not there: only the packed files were read, and SHA256SUMS."
    try:
        with Manifest(path, writes=False) as it:
            facts = {name: it.fact(name) for name in ("source", "skip_links", "skip_compressed")}
            facts["runs"] = it.runs()
            return {row.path: row for row in it.rows()}, facts, f"{names.shown(path)} is whole: what it says of files that are still the same was taken."
    except BadManifest as error:
        return {}, {}, f"Of no use: {error}".partition(ANOTHER)[0] + "."


def known_rows(packed: bytes, again: bool) -> "tuple[dict[bytes, Row], dict[str, object], str]":
    """The same of what may be taken from: with `again` the manifest, if it is whole, and otherwise its second copy."""
    path = os.path.join(packed, names.MANIFEST)
    is_whole = False
    with suppress(BadManifest):
        if files.there(path):
            with Manifest(path, writes=False) as it:
                # of an older one the second copy knows more
                is_whole = not older.is_older(it, packed)
    if is_whole and not again:
        raise BadManifest(f"the manifest {names.shown(path)} is whole: there is nothing to rebuild; --again reads all packed files once more")
    return old_rows(packed, names.MANIFEST if is_whole else names.COPY)


def move_away(packed: bytes) -> Optional[bytes]:
    """Gives a manifest and its journal other names, so that nothing is lost. The new one is on the disk by then."""
    path = os.path.join(packed, names.MANIFEST)
    if not files.there(path):
        return None
    number = 1
    while files.there(away := path + b".old-%d" % number):
        number += 1
    for it in (b"-journal", b"-wal", b"-shm", b""):
        if files.there(path + it):
            os.rename(path + it, away + it)
    return away


def remove_unfinished(packed: bytes) -> None:
    """Removes the manifests that killed runs were making."""
    for name in os.listdir(packed):
        if UNFINISHED.fullmatch(name):
            files.remove(os.path.join(packed, name))


def tasks_of(packed: bytes, old: "dict[bytes, Row]") -> "tuple[list[Task], list[Row], list[bytes]]":
    """A task for each packed file, a row for each that is known and lost, and the names that are those of no packed file of fzbatch."""
    sums: "dict[bytes, str]" = {}
    # the second copy says of each file what SHA256SUMS does
    with suppress(*((BadManifest,) if old else ())):
        sums = keep.read_sums(packed)
    here = scan_packed(packed).files
    tasks: "list[Task]" = []
    strange = []
    for name in here:
        path = name[: -len(names.PACKED)]
        if names.fault_of(path) or not name.endswith(names.PACKED):
            strange.append(name)
            continue
        row = old.get(path)
        known = row.packed_sha256 if row is not None and row.done else sums.get(name)
        restores = row.sha256 if row is not None and row.done else None
        tasks.append(Task(path, len(tasks), restores, known, row.size if row else None, None, None, row.wrong_sums if row else 0, packed_size=row.packed_size if known and row else None))
    wanted = {it[: -len(names.PACKED)] for it in sums if it.endswith(names.PACKED)} | {path for path, it in old.items() if it.done}
    lost = []
    for path in sorted(wanted):
        if names.packed_name(path) not in here and not names.fault_of(path):
            # without its row only its name and its SHA-256 are known, which is enough to name it
            lost.append(old.get(path) or Row(path, packed_sha256=sums.get(names.packed_name(path))))
    return tasks, lost, strange


def look(settings: Settings, task: Task, result: Result, fz: Tries, number: int) -> "Steps[None]":
    """Reads one packed file, and fills the result with what a row needs."""
    if files.is_longer(number, task.packed_size):
        raise Stop("damaged", "packed file changed", advice.LONGER, advice.ANOTHER_COPY)
    now_ = yield from looked(number)
    result.packed_size, result.packed_mtime, result.packed_sha256, result.mode = now_.size, now_.mtime, now_.sha256, now_.mode
    if task.packed_sha256 is not None and now_.sha256 != task.packed_sha256:
        raise Stop("damaged", "packed file changed", "the packed file is another than the one that SHA256SUMS or the second copy names", advice.ANOTHER_COPY)
    yield from fz.expect_verified(number, now_)
    plain = yield from fz.comes_back(number, now_, task.sha256, with_sums=now_.has_image_sums or now_.has_sums)
    result.size, result.sha256 = plain.size, plain.sha256
    result.outcome = "copied" if plain.sha256 == now_.sha256 else "packed"


def row_of(result: Result, old: Optional[Row], known: Optional[str]) -> Row:
    """The row of a packed file that was read. What the copy says of the plain file is kept if both files are the same.

    `known` is the SHA-256 that the packed file should have: it is kept, so that the file is named until it is that one again.
    """
    if not result.good:
        row = Row(result.path, packed_sha256=known, status="failed", cause=result.cause, line=result.line, advice=result.advice)
        if old is not None and old.done:
            row = Row(**vars(old))
            result.outcome = result.outcome if result.outcome in ("damaged", "lost", "differs") else "failed"
            faults.add(row, result, faults.Place(b"", None))
        row.checked_at, row.check_line = now(), result.line
        return row
    if old is not None and old.done and (old.packed_sha256, old.sha256) == (result.packed_sha256, result.sha256):
        row = Row(**vars(old))
        row.packed_mtime = result.packed_mtime
        if not faults.needed(row) & faults.PLAIN:
            # that is said of the plain file, which was not read
            row.fault = row.cause = row.line = row.advice = ""
    else:
        row = Row(result.path, result.size, None, result.mode, None, result.sha256, result.packed_size, result.packed_mtime, result.packed_sha256, result.outcome)
        row.wrong_sums, row.sums_line, row.seconds, row.packed_at = result.wrong_sums, result.sums_line, result.seconds, now()
    row.checked_at, row.check_line = now(), "rebuilt"
    return row
