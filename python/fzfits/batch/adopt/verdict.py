"""What becomes of the row of a file after it was read: nothing that was known is forgotten, and no change is taken for granted."""
from __future__ import annotations

from dataclasses import dataclass, replace
from typing import Callable, List, Optional, Tuple

from .. import names
from .messages import Found
from .rows import CHANGED, FAULTY, GONE, PART, RENAMED, RIGHT, ROTTEN, UNREAD, WELL, Finding, Plain, Row, findings_of, hdus_of, packed_text

ROT = "bytes changed, and neither length nor time: the disk, or a copy, damaged the file. Fetch it from another copy"
OTHER = "find out who changed it; fzbatch adopt --update takes it as it is now, and fetching it from another copy ends this too"
NAME = "fzbatch adopt --update takes the new name; giving the file its old name ends this too"
AGAIN = "it has the bytes that were adopted again, and what is in it was not looked at since"
LOST = "fetch it from another copy, or fzbatch forget takes it out of the manifest"
# The causes that say that a file is another one than was adopted.
ANOTHERS = "has the bytes of another file"
OURS = ("rotten", "changed", ANOTHERS, "renamed", "gone", "not read")

Had = Callable[[bytes, bytes, bytes], "Optional[Tuple[bytes, bytes, bool]]"]
# The row of a file, by its folder and its name.
Rows = Callable[[bytes, bytes], Optional[Row]]


@dataclass
class Verdict:
    """The new row of a file, and the row of the name that it had, if that is to be dropped."""

    row: Row
    drop: "Optional[Tuple[bytes, bytes]]" = None


def sort_of(found: "List[Finding]", hdus: str) -> str:
    """Whether a file is right, right as far as it is decoded, or faulty."""
    if found:
        return FAULTY
    return PART if any(it.undecoded for it in hdus_of(hdus)) else RIGHT


def of(found: Found, rows: Rows, had: Had, run: int, update: bool) -> "Optional[Verdict]":
    """What a result makes of a row. None for a new file that could not be read: there is nothing to be kept of it yet."""
    row = rows(found.folder, found.name)
    if found.outcome == "unread":
        return _unread(found, row, run)
    if row is None:
        packed = rows(found.folder, names.packed_name(found.name))
        plain = packed.plain if packed is not None and not update else None
        if plain is not None and plain.sha256 != found.sha256.hex():
            return Verdict(_not_what_was_packed(found, run, plain))
        return _new(found, rows, had, run, update)
    if row.next and found.sha256 == row.next:
        # a run of retile was killed before it said so
        row = replace(row, sha256=row.next)
    if found.sha256 == row.sha256:
        return Verdict(_same(found, row, run, update))
    return Verdict(_other(found, row, had, run, update))


def _made(found: Found, run: int) -> Row:
    return Row(found.folder, found.name, found.size, found.mtime, found.looked, found.sha256, found.sort, FAULTY, b"", found.hdus, found.found, "", b"", run, run)


def _unread(found: Found, row: Optional[Row], run: int) -> "Optional[Verdict]":
    if row is None:
        return None
    kept = [it for it in row.findings if it.cause not in ("not read", "gone")]
    said = Finding("not read", f"{found.cause}: {found.line}" if found.line != found.cause else found.line, found.advice)
    return Verdict(replace(row, status=UNREAD, found=packed_text([said, *kept])))


def _not_what_was_packed(found: Found, run: int, plain: Plain) -> Row:
    """A new file beside the one that `pack --beside` made of another one of its name. The row has the SHA-256 that it should have."""
    row = _made(found, run)
    said = Finding("changed", f"it is another file than the one that {names.shown(names.packed_name(found.name))} was packed of", OTHER)
    return replace(row, sha256=bytes.fromhex(plain.sha256), status=CHANGED, found=packed_text([said, *row.findings]))


def _new(found: Found, rows: Rows, had: Had, run: int, update: bool) -> Verdict:
    row = _made(found, run)
    own = row.findings
    row.status = sort_of(own, row.hdus)
    other = had(found.sha256, found.folder, found.name)
    if other is None:
        return Verdict(row)
    before = other[0] + b"/" + other[1] if other[0] else other[1]
    if other[2]:
        # the file that had these bytes is gone: it has another name now
        return Verdict(_with_new_name(row, rows(other[0], other[1]), before, update), (other[0], other[1]))
    if not update:
        row.was, row.status = before, CHANGED
        row.found = packed_text([_bytes_of(before), *own])
    return Verdict(row)


def _with_new_name(row: Row, old: Optional[Row], before: bytes, update: bool) -> Row:
    """The row of a file under its new name, with what only the old row knows. Its first name is the one that it should have."""
    own = row.findings
    if old is not None:
        row.made_of, row.adopted, own = old.made_of, old.adopted, [*old.accepted, *own]
        before = old.was if old.was and old.status in (RENAMED, GONE) else before
    row.was = b"" if update or before == row.path else before
    return _named(row, own)


def _bytes_of(before: bytes) -> Finding:
    return Finding(ANOTHERS, f"it has the bytes that {names.shown(before)} had", OTHER)


def _same(found: Found, row: Row, run: int, update: bool) -> Row:
    """It has the bytes that were adopted."""
    made = replace(row, size=found.size, mtime=found.mtime, looked=found.looked, next=b"", read_in=run)
    is_copy = row.status == CHANGED and any(it == _bytes_of(row.was) for it in row.findings)
    if found.outcome == "read":
        made.sort, made.hdus, own = found.sort, found.hdus, [*row.accepted, *findings_of(found.found)]
    else:
        own = [it for it in row.findings if it.cause not in OURS]
        if not is_copy and row.status in (GONE, CHANGED, ROTTEN, UNREAD):
            # what was found of these bytes is not known any more
            made.status, made.found = UNREAD, packed_text([Finding("not read", AGAIN, "fzbatch adopt reads it"), *own])
            return made
    if made.was and update:
        made.was = b""
    if is_copy and made.was:
        made.status, made.found = CHANGED, packed_text([_bytes_of(made.was), *own])
        return made
    return _named(made, own)


def _named(row: Row, own: "List[Finding]") -> Row:
    """The row with its state and its findings, first that it has another name, if it has."""
    renamed = [Finding("renamed", f"it was {names.shown(row.was)}", NAME)] if row.was else []
    row.found = packed_text([*renamed, *own])
    row.status = RENAMED if renamed else sort_of(own, row.hdus)
    return row


def _other(found: Found, row: Row, had: Had, run: int, update: bool) -> Row:
    """It has other bytes than were adopted. The row keeps the SHA-256 that it should have."""
    if update:
        made = _made(found, run)
        made.status = sort_of(made.findings, made.hdus)
        return made
    rotten = row.status not in (CHANGED, GONE) and (found.size, found.mtime) == (row.size, row.mtime)
    other = had(found.sha256, found.folder, found.name)
    if other is not None:
        before = other[0] + b"/" + other[1] if other[0] else other[1]
        said = _bytes_of(before)
    elif rotten:
        said = Finding("rotten", "it has the length and the time that it had, and other bytes", ROT)
    else:
        length = "" if found.size == row.size else f", and {found.size:,} bytes in the place of {row.size:,}"
        said = Finding("changed", f"it is another file than the one that was adopted{length}", OTHER)
    status = ROTTEN if said.cause == "rotten" else CHANGED
    return replace(row, size=found.size, mtime=found.mtime, looked=found.looked, status=status, found=packed_text([said, *row.accepted, *findings_of(found.found)]), read_in=run)


def gone(row: Row) -> Row:
    """The row of a file that is not there."""
    return replace(row, status=GONE, found=packed_text([Finding("gone", "it is not there", LOST), *row.accepted]))


def other_half(row: Row, of: "Callable[[bytes, bytes], Optional[Row]]") -> bool:
    """Whether a file that is gone was removed since the other one, plain or packed beside it, stands for it."""
    packed = of(row.folder, names.packed_name(row.name))
    if packed is not None and packed.status in WELL and packed.plain is not None and packed.plain.sha256 == row.sha256.hex():
        return True
    if row.plain is None or not row.name.endswith(names.PACKED):
        return False
    plain = of(row.folder, row.name[: -len(names.PACKED)])
    return plain is not None and plain.status in WELL and plain.sha256.hex() == row.plain.sha256
