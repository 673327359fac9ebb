"""From the one line of the program to an error that says which file, which card, and what to do.

The line has numbers only. What stands at these numbers is read from the header of the file, and what the system has against a
file is asked of the system again. All of this is looked up after the call: if the file has changed meanwhile, less is said.
"""
from __future__ import annotations

import contextlib
import errno
import os
from dataclasses import dataclass, field
from typing import Any, Dict, Optional, Sequence

from . import advice, memory, refusals
from .errors import FzError, Killed, NoMemory, OverLimit, ReadFault, Refused, Unexpected, Usage, WriteFault
from .headers import Name, header_of
from .names import Output, write_fault
from .program import Outcome
from .results import OVER, REFUSED, Place, verdict_of

About = Dict[str, Any]

KILLED_BY = {
    "SIGKILL": "If nobody ended it, the system may have run out of memory: use fewer processes or workers.",
    "SIGXFSZ": "The limit for the size of a file was reached (ulimit -f).",
    "SIGXCPU": "The limit for the time of a process was reached (ulimit -t).",
    "SIGTERM": "Call it again: nothing is left of the output.",
    "SIGINT": "Call it again: nothing is left of the output.",
}
# A restored file is what `pack` looks at in `retile`, so these places are not in the file that was named.
OF_THE_RESTORED_FILE = ("HeaderFill", "DataFill", "Reserved", "PlioOffset")


@dataclass(frozen=True)
class Call:
    """What the program was asked to do: the command, the files as they were named, and the options that matter for advice."""

    command: str
    path: Optional[Name] = None
    out: Optional[Output] = None
    tile: Optional[Sequence[int]] = None
    workers: int = 1
    hdu: Optional[int] = None
    patch: Optional[Name] = None
    codec: str = "rice"
    words: Sequence[str] = field(default=())


def error_of(outcome: Outcome, call: Call) -> Optional[FzError]:
    """The error of an outcome, or None if the status is 0 or 1, which is no error but a wrong checksum."""
    about = {"path": call.path, "command": call.command, "line": outcome.line}
    status = outcome.status
    if status in (0, 1):
        return None
    if outcome.signal or status > 128:
        signal = outcome.signal or Outcome(128 - status).signal or str(status)
        return Killed(signal, advice=KILLED_BY.get(signal, ""), **about)
    if status == 2:
        return usage(outcome, call, about)
    if status == 3 and REFUSED.fullmatch(outcome.line):
        # A folder has a length, so some file systems let the program take it for a file that is too short.
        if call.path is not None and os.path.isdir(call.path):
            return read_fault(call, about)
        return refused(outcome, call, about)
    if status == 4:
        return read_fault(call, about)
    if status == 5:
        return fault_of_output(call, about)
    if status == 6 and OVER.fullmatch(outcome.line):
        return over_limit(outcome, call, about)
    if status == 7:
        return NoMemory(**about)
    return Unexpected(status, outcome.lines, **about)


def usage(outcome: Outcome, call: Call, about: About) -> Usage:
    """The program does not take the words; if it has no such command, this is said."""
    has = outcome.line.replace("usage: fz ", "").replace(" or ", ", ").split(", ")
    asked = " ".join(it.decode("utf-8", "replace") for it in outcome.words if it.startswith(b"--") and it != b"--")
    if call.command not in has:
        text = f"the program {outcome.program} has no command {call.command}: it has {', '.join(has)}"
    elif asked == "--strict":
        text = f"the program {outcome.program} does not take --strict: it is older than this option"
    else:
        text = f"the program does not take these options of {call.command}: {asked or 'none'}"
    return Usage(text, words=tuple(it.decode("utf-8", "replace") for it in outcome.words), advice=advice.of_usage(asked), **about)


def refused(outcome: Outcome, call: Call, about: About) -> Refused:
    """A rejected file, with the card at the place and what is known about this file."""
    found = REFUSED.fullmatch(outcome.line)
    assert found is not None
    kind = refusals.kind(int(found[1]))
    error = Refused(found[2], int(found[1]), int(found[3]), Place(found[4], int(found[5])), **about)
    error.meaning = f"{kind.text} {kind.common}".strip() if kind else ""
    error.verdicts = tuple(it for it in map(verdict_of, outcome.lines) if it)
    if call.path is None:
        return error
    if call.command == "retile" and error.kind in OF_THE_RESTORED_FILE:
        error.advice = "The HDU and the place are those of the file that this packed file stands for: unpack it to look at them."
        return error
    header = header_of(call.path, error.hdu)
    if header is not None and error.place.unit == "card" and error.place.number < len(header.cards):
        error.card = header.cards[error.place.number]
    if header is not None and header.is_packed:
        codec = header.value("ZCMPTYPE")
        error.codec = codec if isinstance(codec, str) else None
    with contextlib.suppress(OSError):
        advice.of_refused(error, call.path, header)
    return error


def read_fault(call: Call, about: About) -> ReadFault:
    """Why the input cannot be read, as far as opening it shows."""
    try:
        with open(call.path or b"", "rb") as file:
            file.read(1)
    except OSError as error:
        return ReadFault(error.strerror or str(error), error.errno, advice=advice.OF_READING.get(error.errno or 0, ""), **about)
    return ReadFault("the system failed while it was read", None, advice="It can be opened now: try again.", **about)


def fault_of_output(call: Call, about: About) -> WriteFault:
    """Why the output cannot be written, as far as writing there shows."""
    if call.out is None:
        return WriteFault("other", "a line could not be printed", None, **about)
    about = {it: about[it] for it in ("command", "line")}
    number = probed(call.out.unfinished)
    if number:
        return write_fault(call.out.name, number, **about)
    return WriteFault("other", "the system failed while it was written", None, path=call.out.name, advice="It can be written there now: try again.", **about)


def probed(path: bytes) -> int:
    """The system's number for what it has against writing here, or 0: writes on behind what the program left, which is dropped."""
    try:
        with open(path, "ab", buffering=0) as file:
            left = 1 << 20
            while left > 0:
                left -= file.write(bytes(min(left, 1 << 16))) or 0
            os.fsync(file.fileno())
        return 0
    except OSError as error:
        return error.errno or errno.EIO


def over_limit(outcome: Outcome, call: Call, about: About) -> OverLimit:
    """The numbers of the line, and a limit that is enough."""
    found = OVER.fullmatch(outcome.line)
    assert found is not None
    enough = None
    if call.path is not None:
        with contextlib.suppress(OSError):
            enough = memory.enough(call.path, call.command, tile=call.tile, workers=call.workers, hdu=call.hdu, patch=call.patch)
    return OverLimit(int(found[1]), int(found[2]), int(found[3]), enough, **about)
