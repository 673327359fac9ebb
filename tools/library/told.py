"""The calls of tools/library/calls.txt, with what each must answer."""
import re
from dataclasses import dataclass
from pathlib import Path

FILE = Path(__file__).resolve().parent / "calls.txt"
LABEL = re.compile(r"^label (\w+)$", re.M)
# What the name of an export begins with, and that of a call does not.
BEGINS = "fz_"


@dataclass
class Told:
    """A call: its group, its words, and the words of its answer."""

    label: str
    asked: str
    wanted: str


def all_calls():
    """Every line of the file. Raises ValueError if one has no group or no answer."""
    found, label = [], ""
    for number, line in enumerate(FILE.read_text().splitlines(), 1):
        line = line.strip()
        if not line or line.startswith("#"):
            continue
        named = LABEL.match(line)
        asked, _, wanted = line.partition(" -> ")
        if named:
            label = named[1]
        elif not label or not wanted:
            raise ValueError(f"{FILE}, line {number}: write `label NAME` before it, and CALL -> ANSWER")
        else:
            found.append(Told(label, asked, wanted))
    return found


def not_told(calls, exports, answers):
    """The exports that no line calls, and the answers that no line has."""
    made = {BEGINS + it.asked.split()[0] for it in calls}
    said = {it.wanted.split()[0] for it in calls}
    return sorted(exports - made) + [name for name, number in answers.items() if str(number) not in said]


def differences(way, calls):
    """What of the answers of a way to call libfz is otherwise, a line each."""
    said = way.lines([it.asked for it in calls])
    found = [f"{it.label}: {it.asked} -> {one}, and not {it.wanted}" for it, one in zip(calls, said) if one != it.wanted]
    return found + [f"{len(said)} answers to {len(calls)} calls"] * (len(said) != len(calls))
