"""How far a gate is."""
import os
import re
import sys
from collections import defaultdict
from dataclasses import dataclass, field

from gate.processes import Watch

# What rt ci prints of a crate, and of its tests.
PROVED = re.compile(r"rt: (\w+) (?:is kept|proved)")
TESTED = re.compile(r"rt: (\w+): its tests are proved")
ENDED = re.compile(r"\d+ passed, \d+ failed")


@dataclass
class Progress:
    """How far a gate is, by what it prints and by its provers, and what an earlier run took, by crate and kind."""

    watch: Watch
    before: dict
    proved: set = field(default_factory=set)
    tested: set = field(default_factory=set)
    has_ended: bool = False

    def read(self, lines):
        """Prints the lines of the gate, and notes what they say."""
        for line in lines:
            print(line, end="", flush=True)
            for pattern, known in ((PROVED, self.proved), (TESTED, self.tested)):
                found = pattern.match(line)
                if found:
                    known.add(found[1])
            self.has_ended |= bool(ENDED.match(line))

    def minutes(self):
        """The most that the rest takes, if all processors work on it."""
        spent = defaultdict(float)
        for (crate, kind, _), it in self.watch.seconds().items():
            spent[crate, kind] += it
        passed = {"proof": self.proved, "tests": self.tested, "edit": ()}
        left = (took - spent[crate, kind] for (crate, kind), took in self.before.items() if crate not in passed[kind])
        return sum(max(0, it) for it in left) / os.cpu_count() / 60

    def tell(self):
        crates = {crate for crate, _ in self.before}
        edits = sum(kind == "edit" for _, kind, _ in self.watch.tasks.values())
        line = f"{len(self.proved & crates)} of {len(crates)} crates proved, {edits} checks of edits begun; at most {self.minutes():.0f} minutes left"
        if self.has_ended:
            line = "rt ci has ended, the checks of tools/ run"
        print(f"gate: {line}", file=sys.stderr, flush=True)
