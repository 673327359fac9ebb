"""What a run did, counted; and the summary that it prints at its end."""
from __future__ import annotations

import re
import textwrap
from collections import Counter
from dataclasses import dataclass, field
from typing import Iterable, Iterator, Optional, TextIO

from . import names
from .logged import Log
from .progress import amount, length
from .scan import Left

# So many names are printed of each cause, unless all are asked for.
NAMED = 5
# What the summary says for each outcome.
WORDS = {"packed": "compressed", "copied": "copied unchanged", "there": "up to date", "right": "verified", "same": "identical", "unpacked": "identical by SHA-256", "restored": "restored"}
KIND = re.compile(r"([0-9]{1,2}) ([A-Za-z]+)")


@dataclass(frozen=True)
class Bad:
    """A file that failed: its path, the line that says why, and what to do about it."""

    path: bytes
    line: str
    advice: str


@dataclass
class Tally:
    """The counts of a run, or of a manifest."""

    verb: str
    outcomes: Counter[str] = field(default_factory=Counter)
    causes: dict[str, list[Bad]] = field(default_factory=dict)
    left: list[Left] = field(default_factory=list)
    others: dict[str, int] = field(default_factory=dict)
    notes: list[str] = field(default_factory=list)
    plain_bytes: int = 0
    packed_bytes: int = 0
    untried: int = 0
    stopped: str = ""
    # whether the run was stopped, or a file failed, because of a disk
    disk_failed: bool = False
    seconds: float = 0.0
    log: Optional[Log] = None

    def good(self, outcome: str, plain: int = 0, packed: int = 0) -> None:
        """One more file is done."""
        self.outcomes[outcome] += 1
        self.plain_bytes += plain
        self.packed_bytes += packed

    def bad(self, path: bytes, cause: str, line: str, advice: str) -> None:
        """One more file failed."""
        if self.log is not None:
            self.log.tell(f"{names.shown(path)}: failed: {line}")
        self.causes.setdefault(cause, []).append(Bad(path, line, advice))

    @property
    def named(self) -> Iterable[tuple[bytes, str]]:
        """Each file that failed, with the line that says why."""
        return ((it.path, it.line) for found in self.causes.values() for it in found)

    @property
    def done(self) -> int:
        return sum(self.outcomes.values())

    @property
    def failed(self) -> int:
        return sum(map(len, self.causes.values()))

    @property
    def whole(self) -> bool:
        """Whether every file was done and nothing was skipped."""
        return not (self.failed or self.left or self.untried or self.stopped)

    @property
    def idle(self) -> bool:
        """Whether all was done before: there was nothing to do."""
        return self.whole and not set(self.outcomes) - {"there"}

    def last_line(self) -> str:
        """The counts, in one form for all verbs."""
        kinds = ", ".join(f"{count} {WORDS.get(outcome, outcome)}" for outcome, count in sorted(self.outcomes.items()))
        line = f"{self.verb}: {counted(self.done + self.failed + self.untried)}, {self.done} done"
        line += f" ({kinds})" if kinds else ""
        line += f", {self.failed} failed, {len(self.left)} skipped"
        line += f", {self.untried} not tried" if self.untried else ""
        return line

    def print(self, to: TextIO, all_names: bool = False) -> None:
        """Prints the summary; its last line has the counts."""
        self.print_bad(to, all_names)
        for it in self._notes():
            print(it, file=to)
        print(self.last_line(), file=to, flush=True)

    def print_bad(self, to: TextIO, all_names: bool = False) -> None:
        """Prints what failed and what was skipped, if anything was."""
        if self.causes:
            print("Failed:", file=to)
            for cause, found in sorted(self.causes.items(), key=lambda it: -len(it[1])):
                print(f"  {shown(cause)}: {counted(len(found))}", file=to)
                _print_names(to, found, all_names)
        if self.left:
            print("Skipped:", file=to)
            for found in _by_advice(self.left).values():
                _print_names(to, found, all_names)

    def _notes(self) -> Iterator[str]:
        if self.outcomes["copied"]:
            yield f"{counted(self.outcomes['copied'])} had nothing to pack (no image of integers): each packed file is a copy."
        yield from alone(self.others)
        yield from self.notes
        if self.packed_bytes:
            took = f", in {length(self.seconds)}" if self.seconds else ""
            plain, packed = amount(self.plain_bytes), amount(self.packed_bytes)
            sizes = f"{plain} became {packed}" if self.verb == "pack" else f"Plain files {plain}, packed files {packed}"
            yield f"{sizes}, {self.plain_bytes / self.packed_bytes:.2f} to 1{took}."
        if self.stopped:
            yield f"Stopped: {self.stopped}. Started again, fzbatch goes on from here."


def alone(others: "dict[str, int]") -> Iterable[str]:
    """A line about files of other names, if there are any."""
    if others:
        counts = ", ".join(f"{count} {suffix}" for suffix, count in others.items())
        yield f"{counted(sum(others.values()))} with other names, which fzbatch does not touch: {counts}."


def counted(count: int) -> str:
    """A number of files: 1 file, 2 files."""
    return f"{count} file" if count == 1 else f"{count} files"


def shown(cause: str) -> str:
    """A cause for people: that of a rejection is its name, and its number in the list of kinds."""
    found = KIND.fullmatch(cause)
    return f"{found[2]} (kind {found[1]})" if found else cause


def _wrapped(advice: str, indent: int) -> str:
    blanks, text = " " * indent, f"What to do: {advice.rstrip('.')}."
    if "/" in advice:
        # a command with the name of a file stays on one line, so that it can be copied
        return blanks + text
    return textwrap.fill(text, 110, initial_indent=blanks, subsequent_indent=blanks, break_long_words=False, break_on_hyphens=False)


def _by_advice(left: Iterable[Left]) -> "dict[str, list[Bad]]":
    found: "dict[str, list[Bad]]" = {}
    for it in left:
        found.setdefault(it.advice, []).append(Bad(it.path, it.why, it.advice))
    return found


def _print_names(to: TextIO, found: "list[Bad]", all_names: bool) -> None:
    """Names files with one cause. What to do is said once if it is the same for all, and otherwise after each file."""
    found = sorted(found, key=lambda it: it.path)
    many = len(found) if all_names else NAMED
    common = len({it.advice for it in found}) == 1
    if common:
        print(_wrapped(found[0].advice, 4), file=to)
    for it in found[:many]:
        print(f"      {names.shown(it.path)}: {it.line}", file=to)
        if not common:
            print(_wrapped(it.advice, 8), file=to)
    if len(found) > many:
        print(f"      and {len(found) - many} more, which fzbatch status --all names", file=to)
