"""What a result changes in the manifest: what was packed is never forgotten for a later failure."""
from __future__ import annotations

from typing import Optional

from . import faults
from .manifest import Manifest, Row, now
from .messages import Result


def record(manifest: Manifest, old: Optional[Row], result: Result, identity: str, options: str, plain: bytes = b"") -> Row:
    """Writes a result into the manifest, and gives the row. `plain` is the folder of plain files of the run."""
    row = old if old is not None and old.done else Row(result.path)
    if result.verb == "pack" and result.outcome in ("packed", "copied"):
        row = _packed(result, identity, options)
    elif result.good or result.outcome == "gone":
        _good(row, result, faults.Place(plain, manifest.fact("source")))
    elif row.done:
        faults.add(row, result, faults.Place(plain, manifest.fact("source")))
        row.checked_at, row.check_line = now(), result.line
    else:
        row = Row(result.path, result.size, result.mtime, result.mode, result.looked, result.sha256, status="refused" if result.outcome == "refused" else "failed")
        row.kind, row.cause, row.line, row.advice = result.kind or None, result.cause, result.line, result.advice
        row.program, row.options, row.seconds, row.packed_at = identity, options, result.seconds, now()
        # what SHA256SUMS says of a packed file that is another one
        row.packed_sha256 = old.packed_sha256 if old is not None else None
    manifest.put(row)
    return row


def _packed(result: Result, identity: str, options: str) -> Row:
    row = Row(result.path, result.size, result.mtime, result.mode, result.looked, result.sha256, result.packed_size, result.packed_mtime, result.packed_sha256, result.outcome)
    row.program, row.options, row.seconds, row.packed_at = identity, options, result.seconds, now()
    row.wrong_sums, row.sums_line = result.wrong_sums, result.sums_line if result.wrong_sums else ""
    return row


def _good(row: Row, result: Result, place: faults.Place) -> None:
    if result.verb == "pack":
        row.size, row.mtime, row.mode, row.looked = result.size, result.mtime, result.mode, result.looked
    if result.outcome == "there" and result.packed_mtime is None:
        # the plain file was there: no packed file was read, and what was found of it stays
        return
    if result.packed_mtime is not None:
        row.packed_size, row.packed_mtime = result.packed_size, result.packed_mtime
    if faults.needed(row) & ~faults.given(row, result, place):
        # this look was weaker than the one that found the fault
        return
    row.fault = row.cause = row.line = row.advice = ""
    row.checked_at, row.check_line = now(), result.outcome
