"""What a run begins with: its folders, what there is to do, and what is known without a task."""
from __future__ import annotations

import os
import stat
from contextlib import suppress
from dataclasses import replace
from typing import Any, Callable, Iterable, Optional, Sequence

from . import advice, files, inside, keep, lock, names, plan, rooms, survey
from .chosen import Chosen
from .manifest import Manifest, Row
from .scan import Left, Scan, folders_of, scan, scan_packed
from .tally import Tally
from .wanted import Refuse, Wanted, find_manifest



def source(wanted: Wanted) -> Optional[Scan]:
    """Looks at the folders before anything is made: a source that is not there, or has no file, does nothing."""
    if wanted.verb != "pack":
        find_manifest(wanted.packed)
        return None
    found = scan(wanted.plain)
    if not found.files and not wanted.allow_empty:
        others = f" (it has {sum(found.others.values())} files of other names)" if found.others else ""
        left = f" (it has {len(found.left)} links, compressed files or folders that cannot be read)" if found.left else ""
        raise Refuse(f"{names.shown(wanted.plain)} has no FITS file{others}{left}: is its disk mounted? --allow-empty says that it may be empty")
    wanted.chosen = chosen_of(wanted, found.files)
    return found


def chosen_of(wanted: Wanted, known: "Iterable[bytes]") -> Chosen:
    """The files that are wanted, of those that are known."""
    where = wanted.plain if wanted.verb == "pack" else wanted.packed
    paths = set(known)
    chosen = (wanted.chosen or Chosen()).resolved(paths, (wanted.plain, wanted.packed), names.shown(where))
    chosen.check(paths, names.shown(where))
    return chosen


def make_folder(made: bytes, like: bytes) -> None:
    """Makes a folder that is written, with the rights of the other, but not the one above it, which may be a disk that is not mounted."""
    if os.path.isdir(made):
        return
    try:
        os.mkdir(made, 0o700)
    except FileNotFoundError:
        raise Refuse(f"the folder of {names.shown(made)} is not there: is its disk mounted?") from None
    rights = (stat.S_IMODE(os.stat(like).st_mode) & 0o777) | 0o700 if os.path.isdir(like) else 0o700
    try:
        os.chmod(made, rights)
    except PermissionError:
        # a file system without rights
        pass


def clean_up(wanted: Wanted, manifest: Manifest) -> None:
    """Removes what killed runs were writing. Only names with the token of such a run are removed, and no link is followed."""
    if not lock.is_writable(wanted.packed):
        return
    rooms.remove_of_killed(wanted.packed)
    tokens = {token for token, *_, ended, _ in manifest.runs() if ended is None}
    if not tokens:
        return
    roots = {wanted.packed} | ({wanted.plain} if wanted.verb == "restore" else set())
    for folder in (it for root in roots if os.path.isdir(root) for it in folders_of(root)):
        for name in os.listdir(folder):
            if names.is_part_of(name, tokens):
                with suppress(OSError):
                    files.remove(os.path.join(folder, name))


def to_read(wanted: Wanted, rows: "dict[bytes, Row]", tally: Tally) -> plan.Plan:
    """What a run that reads packed files has to do."""
    if not any(it.done for it in rows.values()) and not wanted.allow_empty:
        raise Refuse(f"the manifest of {names.shown(wanted.packed)} has no packed file")
    wanted.chosen = chosen_of(wanted, rows)
    todo = plan.of_packed(it for it in rows.values() if wanted.chosen.has(it.path))
    for row in todo.never_packed:
        tally.bad(row.path, survey.NEVER, f"it was never packed: {row.line}", row.advice)
    _strangers(wanted, rows, tally)
    return todo


def to_pack(wanted: Wanted, found: Scan, rows: "dict[bytes, Row]", identity: str, tally: Tally) -> plan.Plan:
    """What a run that packs has to do."""
    assert wanted.chosen is not None
    if rows and not wanted.allow_empty and not any(it in rows for it in found.files):
        raise Refuse(f"{names.shown(wanted.plain)} has none of the {len(rows)} files of the manifest: is it the right folder, and is its disk mounted? --allow-empty says so")
    todo = plan.to_pack(found, rows, wanted.packed, identity, " ".join(wanted.options), wanted.retry, wanted.chosen.has)
    _known(wanted, todo, tally)
    _strangers(wanted, rows, tally, {names.packed_name(it.path) for it in todo.tasks})
    return todo


def note_source(wanted: Wanted, found: Scan, manifest: Manifest, tally: Tally) -> None:
    """Notes in the manifest where the plain files are, and what was left out of them."""
    for fact, on in (("skip_links", wanted.skip_links), ("skip_compressed", wanted.skip_compressed)):
        if on or wanted.skip_nothing:
            manifest.tell(fact, int(on))
    manifest.leave_out(count_left(wanted, found, manifest.fact, tally), found.others)
    manifest.tell("source", wanted.plain)


def note_sums(wanted: Wanted, found: Scan, manifest: Manifest, tally: Tally) -> None:
    """Begun anew without a manifest: what SHA256SUMS names and is in no folder of plain files is named, and its SHA-256 is kept."""
    for name, sha256 in sorted(keep.read_sums(wanted.packed).items()):
        path = name[: -len(names.PACKED)]
        if not name.endswith(names.PACKED) or names.fault_of(path) or path in found.files:
            continue
        line = "SHA256SUMS names its packed file, and the manifest is a new one"
        if not survey.files_there(wanted.packed, name):
            line = "its packed file is not there, and SHA256SUMS names it"
        manifest.put(Row(path, packed_sha256=sha256, status="failed", cause=survey.LOST, line=line, advice=f"{advice.LOST}; fzbatch rebuild reads all packed files"))
        tally.bad(path, survey.LOST, line, f"{advice.LOST}; {advice.FORGET}")


def count_left(wanted: Wanted, found: Scan, fact: Callable[[str], Any], tally: Tally) -> "list[Left]":
    """Counts what is left out of the plain files, and gives it."""
    left, notes = survey.kept_left(fact, found.left)
    tally.notes += notes
    tally.left = [it for it in left if wanted.chosen is None or wanted.chosen.leaves(it)]
    tally.others = dict(found.others.most_common())
    return left


def _known(wanted: Wanted, todo: plan.Plan, tally: Tally) -> None:
    """Counts what needs no task."""
    for row in todo.there:
        tally.good("there", row.size or 0, row.packed_size or 0)
    for row in todo.refused:
        tally.bad(row.path, row.cause, row.line, row.advice)
    for row in todo.never_packed:
        said = f"it is not in the source any more, and was not packed: {row.line}"
        tally.bad(row.path, "gone, and never packed", said, f"find it in another copy; {advice.FORGET}")
    _gone(wanted, todo.gone, tally)


def _gone(wanted: Wanted, rows: "Sequence[Row]", tally: Tally) -> None:
    """Looks at the packed files of plain files that are gone: nothing else is left of these."""
    found = survey.Survey()
    here = scan_packed(wanted.packed) if rows and os.path.isdir(wanted.packed) else Scan(wanted.packed)
    for row in rows:
        if not survey.files_there(wanted.packed, names.packed_name(row.path)):
            said = "neither the plain nor the packed file is there"
            found.add(row.path, "plain and packed file are gone", said, f"fetch one of them from another copy; {advice.FORGET}")
            continue
        survey.look_at_packed(found, row, here, False)
        if row.fault:
            found.add(row.path, row.cause, row.line, row.advice)
    for it in found.findings:
        tally.bad(it.path, it.cause, it.line, it.advice)
    well = len(rows) - len(found.findings)
    if well:
        tally.notes.append(f"{well} plain files were packed by earlier runs and are not in the source any more; their packed files are there.")


def _strangers(wanted: Wanted, rows: "dict[bytes, Row]", tally: Tally, tried: "frozenset[bytes] | set[bytes]" = frozenset()) -> None:
    """Names each packed file that the manifest does not know, and what could not be looked into; a file of a task is looked at by it."""
    assert wanted.chosen is not None
    if not os.path.isdir(wanted.packed):
        return
    here = scan_packed(wanted.packed)
    for it in survey.names_of_unknown(rows, here):
        if it not in tried and wanted.chosen.has(it[: -len(names.PACKED)]):
            tally.bad(it, *survey.UNKNOWN)
    for left in survey.left_of_packed(rows, here):
        if left.path not in tried and wanted.chosen.leaves(replace(left, path=left.path.removesuffix(names.PACKED))):
            tally.bad(left.path, *survey.told_of(left))


def is_restored(wanted: Wanted, path: bytes) -> bool:
    """Whether something has the name of a plain file already."""
    try:
        return inside.state(wanted.plain, path) is not None
    except OSError:
        return False
