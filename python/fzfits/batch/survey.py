"""What is not well in an archive, by its manifest and a look at both folders: one answer for `status`, `missing` and `report`.

No packed file is read. Type, size and time of the files of both folders are compared with the manifest; a plain file that was
packed within two seconds of its last change is read, since its time may be the same after another change.
"""
from __future__ import annotations

from dataclasses import dataclass, field
from typing import Any, Callable, Iterable, Optional

from . import advice, files, inside, names, slurm
from .manifest import Manifest, Row
from .scan import COMPRESSED, LINK, Left, NoSource, Scan, scan, scan_packed

SKIPS = {"skip_links": (LINK, "symbolic links", "--skip-links"), "skip_compressed": (COMPRESSED, "compressed FITS files, and those of other names", "--skip-compressed")}

NOT_YET = ("not packed yet", "was not packed yet", "run fzbatch pack")
NEVER = "never packed"
LOST = "packed file is lost"
PACKED_TYPE = "packed file is no file"
PACKED_LOOKS = "packed file looks otherwise"
PLAIN_TYPE = "plain file is no file"
PLAIN_LOOKS = "plain file looks otherwise"
PLAIN_CHANGED = "plain file changed"
UNKNOWN = ("packed file is not in the manifest", "the manifest does not know it", "find out what it is: fzbatch pack accepts it if it is the packed file of a plain file, and fzbatch rebuild makes a manifest that has it; otherwise move it away")
CHECK = "fzbatch verify or compare reads both files and says which one changed"


@dataclass
class Finding:
    """A file with which something is not well: the cause, the line that says it, and what to do."""

    path: bytes
    cause: str
    line: str
    advice: str


@dataclass
class Survey:
    """An archive as it is found."""

    rows: list[Row] = field(default_factory=list)
    findings: list[Finding] = field(default_factory=list)
    left: list[Left] = field(default_factory=list)
    # what may be left out, as the manifest says
    skipped: list[Left] = field(default_factory=list)
    others: dict[str, int] = field(default_factory=dict)
    notes: list[str] = field(default_factory=list)
    # why the plain files were not looked at, if that is a fault
    lost: str = ""
    found: Optional[Scan] = None

    @property
    def whole(self) -> bool:
        """Whether all is well."""
        return not (self.findings or self.left or self.lost)

    def add(self, path: bytes, cause: str, line: str, what: str) -> None:
        """One more fault; more than one of a file are one finding, with the cause of the first."""
        if self.findings and self.findings[-1].path == path:
            self.findings[-1].line += f"; {line}"
        else:
            self.findings.append(Finding(path, cause, line, what))


def survey(manifest: Manifest, plain: bytes, packed: bytes, without_plain: bool = False) -> Survey:
    """Looks at both folders beside the manifest."""
    made = Survey(list(manifest.rows()))
    try:
        made.found = scan(plain)
    except NoSource:
        pass
    every = made.found.left if made.found else []
    made.left, notes = kept_left(manifest.fact, every)
    # what may be left out is no sign that the disk is there
    has_plain = made.found is not None and bool(made.found.files or made.left)
    if made.found is not None and not has_plain and made.rows:
        made.lost = "" if without_plain else f"{names.shown(plain)} has no FITS file: only files of the manifest were looked for"
    elif made.found is None:
        where = f"{names.shown(plain)} is not there" if plain else "the manifest does not say where the plain files are"
        made.lost = "" if without_plain else f"{where}: only files of the manifest were looked for"
    if not made.rows and made.found is not None and not has_plain:
        made.lost = "neither the manifest nor the folder of plain files has a file"
    here = scan_packed(packed)
    rows = {it.path: it for it in made.rows}
    for path in sorted({*rows, *(made.found.files if made.found else ())}):
        _look(made, path, rows.get(path), plain, here)
    for path in names_of_unknown(rows, here):
        made.add(path, *UNKNOWN)
    for it in left_of_packed(rows, here):
        made.add(it.path, *told_of(it))
    made.skipped = sorted(set(every) - set(made.left), key=lambda it: it.path)
    made.others = dict(made.found.others.most_common()) if made.found else manifest.others()
    made.notes += notes + notes_of(manifest, made.rows, packed)
    if made.found is None or not has_plain:
        made.notes.append("The plain files were not compared: they are not there.")
    return made


def _look(made: Survey, path: bytes, row: Optional[Row], plain: bytes, here: Scan) -> None:
    """Notes what is not well with one file."""
    source = made.found.files.get(path) if made.found else None
    if row is None:
        made.add(path, *NOT_YET)
        return
    if not row.done:
        gone = made.found is not None and source is None and not _is_left(made.found, path)
        line = f"it is not in the source any more, and was not packed: {row.line}" if gone else row.line
        made.add(path, "gone, and never packed" if gone else row.cause or NEVER, line, f"find it in another copy; {advice.FORGET}" if gone else row.advice)
        return
    look_at_packed(made, row, here, source is not None)
    if row.fault:
        made.add(path, row.cause, row.line, row.advice)
    if source is None:
        if made.found is not None and any(it.path == path for it in made.found.left):
            made.add(path, PLAIN_TYPE, "the plain file is a link, a pipe or unreadable by now", advice.ANOTHER_PLAIN)
    elif (source.size, source.mtime) != (row.size, row.mtime if row.mtime is not None else source.mtime):
        made.add(path, PLAIN_LOOKS, "the plain file has another size or time than when it was packed", CHECK)
    elif row.unsure and not _is_same(plain, row):
        made.add(path, PLAIN_CHANGED, "the plain file is another than the one that was packed", advice.ANOTHER_PLAIN)


def look_at_packed(made: Survey, row: Row, here: Scan, has_plain: bool) -> None:
    """Notes what is not well with the packed file of a row, by a look at the folder."""
    name = names.packed_name(row.path)
    found = here.files.get(name)
    if found is None:
        if any(name.startswith(it.path + b"/") for it in here.left):
            made.add(row.path, PACKED_TYPE, "its packed file is in a folder that is a link or cannot be read", advice.NO_LINKS)
        elif files_there(here.root, name):
            made.add(row.path, PACKED_TYPE, "its packed file is a link, a folder or a pipe, and no file", advice.LOST)
        else:
            made.add(row.path, LOST, "its packed file is not there" + ("" if has_plain else ", and neither is the plain file"), advice.LOST)
    elif (found.size, found.mtime) != (row.packed_size, row.packed_mtime):
        line = "its packed file is empty" if not found.size else "its packed file has another size or time than when it was last looked at"
        made.add(row.path, PACKED_LOOKS, line, CHECK)


def files_there(root: bytes, path: bytes) -> bool:
    """Whether anything has this name below a folder."""
    try:
        return inside.state(root, path) is not None
    except OSError:
        return True


def _is_same(plain: bytes, row: Row) -> bool:
    try:
        with inside.file(plain, row.path) as number:
            return files.look_at(number).sha256 == row.sha256
    except OSError:
        return False


def _is_left(found: Scan, path: bytes) -> bool:
    return any(_is_in(path, it.path) for it in found.left)


def _is_in(path: bytes, folder: bytes) -> bool:
    return path == folder or path.startswith(folder + b"/")


def kept_left(fact_of: Callable[[str], Any], left: "list[Left]") -> "tuple[list[Left], list[str]]":
    """What is left out, without the sorts that the facts of the manifest say may be, and a line for each of these."""
    notes = []
    for fact, (sort, what, option) in SKIPS.items():
        if fact_of(fact):
            count = sum(it.sort == sort for it in left)
            left = [it for it in left if it.sort != sort]
            notes.append(f"{what}: {count} left out, as {option} says.")
    return left, notes


def accepted(rows: Iterable[Row]) -> "list[str]":
    """A line for each file that was packed with a wrong checksum, for ever."""
    return [f"{names.shown(it.path)} was packed with a wrong checksum, which was accepted: {it.sums_line}." for it in rows if it.wrong_sums]


def notes_of(manifest: Manifest, rows: Iterable[Row], packed: bytes) -> "list[str]":
    """What an archive says of itself for ever, and of what waits."""
    said = accepted(rows)
    if files.there(slurm.tasks_file(packed)):
        said.append("Tasks of a run with --engine slurm wait: fzbatch collect reads their results.")
    unended = [it for it in manifest.runs() if it[5] is None]
    for token, verb, host, process, began, _, _ in unended[-1:]:
        said.append(f"A run, {verb} at {began} by process {process} on {host}, did not end yet, or was killed.")
    return said


def update_was_killed(manifest: Manifest) -> bool:
    """Whether a run with --update did not end, and none of pack ended since: it may have replaced packed files of which no row knows."""
    for _, verb, _, _, _, ended, _ in reversed(manifest.runs()):
        if verb.startswith("pack"):
            if ended is not None:
                return False
            if verb == "pack --update":
                return True
    return False


def names_of_unknown(rows: "dict[bytes, Row]", here: Scan) -> "list[bytes]":
    """The packed files that the manifest does not know, of those that are there."""
    known = {names.packed_name(it.path) for it in rows.values() if it.done}
    return [it for it in here.files if it not in known]


def left_of_packed(rows: "dict[bytes, Row]", here: Scan) -> "list[Left]":
    """What could not be looked into among the packed files, but for what is in the place of a packed file, of which its row tells."""
    return [it for it in here.left if it.path.removesuffix(names.PACKED) not in rows]


def told_of(left: Left) -> "tuple[str, str, str]":
    """Cause, line and advice of a link or a shut folder among the packed files."""
    return "link or shut folder among the packed files", left.why, left.advice.split("; with")[0]
