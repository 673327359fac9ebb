"""The provers below a process, and what each of them works on."""
import os
import time
from collections import defaultdict
from dataclasses import dataclass
from pathlib import Path

from gate.dearest import functions_of

TICKS = os.sysconf("SC_CLK_TCK")
# Seconds from one line on progress to the next.
PACE = 60


@dataclass
class Process:
    pid: int
    parent: int
    state: str
    seconds: float
    words: list

    def is_prover(self):
        return self.words[0].endswith("/rattle") and "--crate-name" in self.words

    def crate(self):
        return self.words[self.words.index("--crate-name") + 1]

    def kept(self):
        """The folder in which the checks of a crate's edits keep what they proved, if there is one."""
        return Path(self.words[self.words.index("--incremental") + 1]) if "--incremental" in self.words else None


def process_at(folder):
    """The process of a folder of /proc, or None if it has ended."""
    try:
        fields = (folder / "stat").read_text().rpartition(")")[2].split()
        words = (folder / "cmdline").read_bytes().decode("utf-8", "replace").split("\0")
    except OSError:
        return None
    # its own time and that of its children that have ended, in the user's code and in the system's
    return Process(int(folder.name), int(fields[1]), fields[0], sum(int(it) for it in fields[11:15]) / TICKS, words)


class Tree:
    """The processes of one moment."""

    def __init__(self):
        found = (process_at(it) for it in Path("/proc").iterdir() if it.name.isdigit())
        self.every = {it.pid: it for it in found if it}
        self.below = defaultdict(list)
        for it in self.every.values():
            self.below[it.parent].append(it)

    def provers(self, pid):
        """The provers below a process, without those that another prover started."""
        for it in self.below[pid]:
            if it.is_prover():
                yield it
            else:
                yield from self.provers(it.pid)

    def seconds(self, process):
        return process.seconds + sum(self.seconds(it) for it in self.below[process.pid])

    def is_there(self, pid):
        return pid in self.every and self.every[pid].state != "Z"


def is_edited(room, path):
    """Whether the copy of a crate in this folder has the edit of this file."""
    lines = [it.partition(": ")[::2] for it in path.read_text().splitlines()]
    file = next((text.strip() for name, text in lines if name == "file"), "")
    if not (room / file).is_file():
        return False
    edited = Path("crates", path.parts[1], file).read_text()
    for (name, old), (_, new) in zip(lines, lines[1:]):
        if name == "old":
            edited = edited.replace(old, new)
    return (room / file).read_text() == edited


def task_of(prover):
    """The crate, the kind of work, and the edit if it is one."""
    try:
        room = Path(os.readlink(f"/proc/{prover.pid}/cwd"))
        if room.name.startswith("rt-edit-"):
            edits = Path("crates", prover.crate(), "must-fail").glob("*.edit")
            return prover.crate(), "edit", next((it.stem for it in edits if is_edited(room, it)), "last, with no change")
    except OSError:
        return None
    return prover.crate(), "tests" if "--test" in prover.words else "proof", ""


class Watch:
    """What was seen of the provers below a process, and how busy the machine was."""

    def __init__(self, root):
        self.root, self.tasks, self.most, self.dearest = root, {}, {}, {}
        self.began, self.loads = time.monotonic(), []

    def look(self):
        tree = Tree()
        for it in tree.provers(self.root):
            if it.pid not in self.tasks:
                found = task_of(it)
                if found is None:
                    continue
                self.tasks[it.pid] = found
                self.note_functions(it)
            self.most[it.pid] = max(tree.seconds(it), self.most.get(it.pid, 0))
        self.loads.append(os.getloadavg()[0])
        return tree.is_there(self.root)

    def note_functions(self, prover):
        """The dearest functions of a crate, once its first edit was checked: that check is one of the whole crate."""
        kept, crate = prover.kept(), prover.crate()
        if kept and crate not in self.dearest:
            found = functions_of(kept, crate)
            if found:
                self.dearest[crate] = found

    def until_it_ends(self, tell=lambda: None):
        told = time.monotonic()
        while self.look():
            time.sleep(1)
            if time.monotonic() - told >= PACE:
                told = time.monotonic()
                tell()

    def minutes(self):
        """How long the run has lasted."""
        return (time.monotonic() - self.began) / 60

    def load(self):
        """The middle of the loads of the machine during the run: how many processes wanted a processor at once."""
        return sorted(self.loads)[len(self.loads) // 2] if self.loads else 0.0

    def seconds(self):
        """The seconds of each crate, kind and edit."""
        made = defaultdict(float)
        for pid, task in self.tasks.items():
            made[task] += self.most[pid]
        return made
