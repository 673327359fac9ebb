"""The faults of a file that was packed, and which tests a look has to pass before they are forgotten.

A row has one fault. If another one is found, the one that takes the stronger test stays, and the line has both.
"""
from __future__ import annotations

from dataclasses import dataclass
from typing import Any

from . import advice, names
from .manifest import Row
from .messages import CAME_BACK, VERIFIED, Result

# The plain file was read, beside the tests of the packed file that a result tells of.
PLAIN = 4
WRONG_RESTORED = "wrong checksum in the restored file"
# How the line of a fault of the plain file begins.
OF_PLAIN = ("the plain file", "fz pack:", advice.BOTH_CHANGED)
TESTS = {"fz verify:": VERIFIED, "fz unpack:": CAME_BACK, advice.DIFFERS: CAME_BACK, advice.WRONG_INSIDE: VERIFIED | CAME_BACK}
ALSO = "; also: "
# A line has no more of what adds no test.
LONG = 2000


@dataclass(frozen=True)
class Place:
    """The folder of plain files of a run, and the one that the manifest names, or None."""

    plain: bytes
    source: Any

    @property
    def is_source(self) -> bool:
        return bool(self.plain == self.source)

    @property
    def words(self) -> str:
        """What is added to a fault of a plain file of another folder than that of the manifest."""
        return f" (in {names.shown(self.plain)})"


def needed(row: Row) -> int:
    """The tests that a file has to pass before the fault of its row is forgotten."""
    if not row.fault:
        return 0
    found = PLAIN if row.fault == "changed" else 0
    if row.fault == "differs":
        found |= VERIFIED | CAME_BACK if row.cause == WRONG_RESTORED else CAME_BACK
    for line in row.line.split(ALSO):
        found |= _of_line(line)
    return found


def _of_line(line: str) -> int:
    if line.startswith(OF_PLAIN):
        return PLAIN
    return next((tests for beginning, tests in TESTS.items() if line.startswith(beginning)), 0)


def _of_plain(row: Row) -> "list[str]":
    return [it for it in row.line.split(ALSO) if it.startswith(OF_PLAIN)]


def given(row: Row, result: Result, place: Place) -> int:
    """The tests that a file has passed by a good result."""
    if result.verb == "pack":
        read = True
    elif result.verb == "compare":
        # also if it is gone: then there is none that could be another one
        known = _of_plain(row)
        read = place.source is None or place.is_source or (bool(known) and all(it.endswith(place.words) for it in known))
    else:
        read = result.verb == "restore" and place.is_source
    return result.tests | (PLAIN if read else 0)


def add(row: Row, result: Result, place: Place) -> None:
    """Notes a fault that was found. An earlier one that takes a test which this one does not stays, and the line has both."""
    if result.verb == "restore" and result.outcome == "changed":
        # that is said of a plain file which is in the way, and not of what was packed
        if not row.fault:
            row.cause, row.line, row.advice = result.cause, result.line, result.advice
        return
    line = result.line
    if _is_elsewhere(result, place):
        line += place.words
    new = Row(row.path, cause=result.cause, line=line, advice=result.advice, fault=result.outcome)
    if not _stays(row, new, _is_elsewhere(result, place)):
        row.cause, row.line, row.advice, row.fault = new.cause, new.line, new.advice, new.fault
    elif line not in row.line.split(ALSO) and (needed(new) & ~needed(row) or len(row.line) < LONG):
        row.line += ALSO + line


def _is_elsewhere(result: Result, place: Place) -> bool:
    """Whether it is a fault of a plain file of another folder than that of the manifest."""
    return result.verb == "compare" and result.line.startswith(OF_PLAIN) and place.source is not None and not place.is_source


def _stays(row: Row, new: Row, is_elsewhere: bool) -> bool:
    """Whether the fault that is known takes a test that the new one does not: also that of a plain file of another folder."""
    return bool(needed(row) & ~needed(new)) or (is_elsewhere and any(it != new.line for it in _of_plain(row)))
