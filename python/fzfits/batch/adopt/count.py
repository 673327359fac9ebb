"""What a run on an adopted folder found, counted: the first names of each cause, and no list of all."""
from __future__ import annotations

import textwrap
from collections import Counter
from dataclasses import dataclass, field
from typing import List, TextIO, Tuple

from .. import names
from ..logged import Log
from ..progress import amount, length
from ..scan import Left
from . import boxes
from .rows import PART, Finding

NAMED = 5
WIDTH = 110


def line_of(it: Finding) -> str:
    """A finding on one line, with its HDU."""
    where = "" if it.hdu is None else f"HDU {it.hdu}" + (f" ({it.name})" if it.name else "") + ": "
    return where + it.line


@dataclass
class Cause:
    """Files with the same cause: how many, how many findings, pixels that are lost, what to do, and the first names."""

    advice: str
    files: int = 0
    lost: int = 0
    named: List[Tuple[bytes, str]] = field(default_factory=list)
    last: bytes = b""


@dataclass
class Count:
    """The counts of a run or of a manifest. `all_names` keeps all names of each cause."""

    verb: str
    all_names: bool = False
    outcomes: "Counter[str]" = field(default_factory=Counter)
    causes: "dict[str, Cause]" = field(default_factory=dict)
    bad: int = 0
    size: int = 0
    left: List[Left] = field(default_factory=list)
    others: "dict[str, int]" = field(default_factory=dict)
    notes: List[str] = field(default_factory=list)
    untried: int = 0
    stopped: str = ""
    lost: str = ""
    seconds: float = 0.0
    log: Log = field(default_factory=Log)

    def well(self, path: bytes, outcome: str) -> None:
        """A file that is well, with its line in the log."""
        self.good(outcome)
        self.log.tell(f"{names.shown(path)}: {outcome}")

    def good(self, outcome: str, many: int = 1) -> None:
        """Files that are well."""
        self.outcomes[outcome] += many

    def not_well(self, path: bytes, found: "List[Finding]") -> None:
        """A file with which something is not well; it counts once, and is named under each of its causes."""
        self.bad += 1
        self.log.tell(f"{names.shown(path)}: {'; '.join(map(line_of, found))}")
        for it in found:
            cause = self.causes.setdefault(it.cause, Cause(it.advice))
            cause.lost += it.lost
            is_new = cause.last != path or not cause.files
            cause.files += is_new
            cause.last = path
            if self.all_names or len(cause.named) < NAMED:
                cause.named.append((path, line_of(it)))

    def add(self, other: "Count") -> None:
        """Takes in what another count has of files that are not well."""
        self.bad += other.bad
        for name, it in other.causes.items():
            mine = self.causes.setdefault(name, Cause(it.advice))
            mine.files, mine.lost, mine.last = mine.files + it.files, mine.lost + it.lost, b""
            mine.named += it.named if self.all_names else it.named[: max(0, NAMED - len(mine.named))]

    @property
    def done(self) -> int:
        """How many are well."""
        return sum(self.outcomes.values())

    @property
    def whole(self) -> bool:
        """Whether all is well."""
        return not (self.bad or self.left or self.untried or self.stopped or self.lost)

    def last_line(self) -> str:
        """The counts, in one form for all commands."""
        kinds = ", ".join(f"{count} {outcome}" for outcome, count in sorted(self.outcomes.items()))
        many = self.done + self.bad + self.untried
        line = f"{self.verb}: {many} {'file' if many == 1 else 'files'}, {self.done} well{f' ({kinds})' if kinds else ''}"
        line += f", {self.bad} not well, {len(self.left)} left out"
        return line + (f", {self.untried} not tried" if self.untried else "")

    def sum_up(self, to: TextIO, quiet: bool) -> None:
        """The end of a run: the last line of the log, and the summary. If it is `quiet`, only what is not well is printed."""
        self.log.tell(self.last_line() + (f"; stopped: {self.stopped}" if self.stopped else ""))
        if not quiet or not self.whole:
            self.print(to)

    def print(self, to: TextIO) -> None:
        """Prints the summary; its last line has the counts."""
        if self.causes:
            print("Not well:", file=to)
        for name, it in sorted(self.causes.items(), key=lambda it: -it[1].files):
            print(f"  {_files(it.files)}: {boxes.lost_of(it.lost) if it.lost else name}", file=to)
            print(textwrap.fill(f"What to do: {it.advice}.", WIDTH, initial_indent="    ", subsequent_indent="    ", break_long_words=False, break_on_hyphens=False), file=to)
            for path, line in it.named:
                print(f"      {names.shown(path)}: {line}", file=to)
            if it.files > len({path for path, _ in it.named}):
                print("      and more, which fzbatch status --all names", file=to)
        if self.left:
            print("Left out:", file=to)
            for one in self.left if self.all_names else self.left[:NAMED]:
                print(f"      {names.shown(one.path)}: {one.why}. What to do: {one.advice}.", file=to)
        for note in self._notes():
            print(note, file=to)
        print(self.last_line(), file=to, flush=True)

    def _notes(self) -> "List[str]":
        said = list(self.notes)
        # compare has a line of its own, and compares no checksums
        if self.outcomes[PART] and self.verb != "compare":
            said.insert(0, f"{_files(self.outcomes[PART])} with an HDU that fz does not decode (floats, HCOMPRESS, gzip, compressed tables): its checksums were compared.")
        if self.others:
            said.append(f"{_files(sum(self.others.values()))} with other names, which fzbatch does not touch: {', '.join(f'{count:,} {suffix}' for suffix, count in self.others.items())}.")
        if self.size:
            rate = f", {amount(self.size / self.seconds)} in a second" if self.seconds > 1 else ""
            said.append(f"{amount(self.size)} were read in {length(self.seconds)}{rate}.")
        if self.lost:
            said.append(f"{self.lost}.")
        if self.stopped:
            said.append(f"Stopped: {self.stopped}. Started again, fzbatch goes on from here.")
        return said


def _files(count: int) -> str:
    return f"{count:,} file" if count == 1 else f"{count:,} files"
