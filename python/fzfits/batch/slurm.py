"""The tasks of a Slurm array: the work is written into files, each task of the array does its share, and the results are collected.

`fzbatch pack --engine slurm` writes `fzbatch.tasks` in the folder of packed files: a line with the settings, then one for each
task. Task i of n of the array does every n-th of them from number i on, and writes a line for each into a file of its own in
`fzbatch.results`. `fzbatch collect` reads these into the manifest. Others may have written these files: each line is checked, the
program and the folders are those of the command line of `share`, and no link is followed.
"""
from __future__ import annotations

import os
import re
import secrets
import socket
from contextlib import suppress
from dataclasses import dataclass, replace
from typing import Callable, Iterator, Mapping, Sequence, TextIO

from . import engines, files, inside, machine
from .names import RESULTS, TASKS
from .manifest import BadManifest
from .messages import LONGEST, BadMessage, Result, Settings, Task

OPTION = {"--codec": re.compile(r"[a-z]{1,16}"), "--tile": re.compile(r"[0-9,]{1,200}"), "--block": re.compile(r"[0-9]{1,9}"), "--workers": re.compile(r"[0-9]{1,9}")}


@dataclass(frozen=True)
class Share:
    """Which part of the work a task of the array has, and how many files it does at once."""

    task: int
    tasks: int
    jobs: int

    @classmethod
    def of(cls, environment: Mapping[str, str]) -> "Share":
        """As Slurm says it by its variables; all of the work if there are none."""
        first = int(environment.get("SLURM_ARRAY_TASK_MIN", "0"))
        step = int(environment.get("SLURM_ARRAY_TASK_STEP", "1"))
        task = (int(environment.get("SLURM_ARRAY_TASK_ID", str(first))) - first) // step
        return cls(task, int(environment.get("SLURM_ARRAY_TASK_COUNT", "1")), machine.processors(environment))


def array_of(count: int) -> int:
    """How many tasks an array should have for so many files: at most 16, with four files or more each."""
    return max(1, min(16, count // 4))


def tasks_file(packed: bytes) -> bytes:
    """The file with the work that waits."""
    return os.path.join(packed, TASKS)


def results_folder(packed: bytes) -> bytes:
    """The folder with the results that were not collected yet."""
    return os.path.join(packed, RESULTS)


def write(settings: Settings, tasks: Sequence[Task]) -> None:
    """Writes the work, whole or not at all."""
    with inside.folder(settings.packed, RESULTS, lambda path: 0o700):
        lines = (it.word().encode() + b"\n" for it in (settings, *tasks))
        inside.replace(tasks_file(settings.packed), lines, 0o600)


def read(packed: bytes) -> tuple[Settings, list[Task]]:
    """The work that waits."""
    try:
        number = inside.own(tasks_file(packed), os.O_RDONLY)
        with os.fdopen(number, encoding="ascii") as it:
            lines = _lines(it)
            settings, tasks = Settings.of(next(lines, "")), [Task.of(line) for line in lines]
        _check_options(settings.options)
    except (BadMessage, ValueError) as error:
        raise BadManifest(f"the tasks in {TASKS.decode()} are none that fzbatch wrote: {error}; move the file away, and start the run again") from error
    return settings, tasks


def _lines(it: TextIO) -> Iterator[str]:
    """The lines of a file, one after another: one that is too long, or has no end, is an error."""
    while line := it.readline(LONGEST):
        if not line.endswith("\n"):
            raise BadMessage("a line is too long, or has no end")
        yield line


def _check_options(options: Sequence[str]) -> None:
    left = list(options)
    while left:
        name = left.pop(0)
        if name != "--sums" and not (name in OPTION and left and OPTION[name].fullmatch(left.pop(0))):
            raise BadMessage("an option of fz pack")


def result_of_each(packed: bytes, settings: Settings, tasks: Sequence[Task]) -> dict[bytes, Result]:
    """One result for each file that has any: a good one if there is one, since a task that was stopped may have run again."""
    wanted = {it.path for it in tasks}
    found: dict[bytes, Result] = {}
    for it in results(packed, settings):
        if it.path in wanted and it.verb == settings.verb and (it.good or it.path not in found or not found[it.path].good):
            found[it.path] = it
    return found


def results(packed: bytes, settings: Settings) -> Iterator[Result]:
    """The results that are there, in no order of time. A line that was cut short by a kill, or that is none, is left out."""
    with inside.folder(packed, RESULTS) as above:
        for name in sorted(os.listdir(above)):
            if not name.startswith(settings.token + "."):
                continue
            with os.fdopen(os.open(name, inside.FILE, dir_fd=above), encoding="ascii", errors="replace") as it:
                with suppress(BadMessage):
                    for line in _lines(it):
                        with suppress(BadMessage):
                            yield Result.of(line)


def do_share(given: Settings, environment: Mapping[str, str], stopped: Callable[[], bool], tell: Callable[[Result], None]) -> tuple[int, int]:
    """Does the share of this task of the array, but for what has a good result already. How many it did, and how many are good.

    `given` has what this command says: the folders, the program and its identity. What the file says of them has to be the same.
    """
    kept, tasks = read(given.packed)
    if (kept.plain, kept.identity) != (given.plain, given.identity):
        which = "folder of plain files" if kept.plain != given.plain else "program fz"
        raise BadManifest(f"the tasks were made for another {which} than this command has: start the run again")
    share = Share.of(environment)
    memory = kept.memory or machine.limit_of_a_job(share.jobs, machine.memory(environment))
    settings = replace(kept, packed=given.packed, program=given.program, memory=memory)
    answered = {it.path for it in results(given.packed, settings) if it.good}
    mine = [it for it in tasks[share.task :: share.tasks] if it.path not in answered]
    name = f"{settings.token}.{share.task}.{re.sub(r'[^A-Za-z0-9_-]', '_', socket.gethostname())}.{os.getpid()}.{secrets.token_hex(4)}"
    good = 0
    with inside.folder(given.packed, RESULTS) as above:
        number = os.open(name, os.O_WRONLY | os.O_CREAT | os.O_EXCL | os.O_NOFOLLOW, 0o600, dir_fd=above)
        with os.fdopen(number, "w", encoding="ascii") as to:
            for result in engines.local(settings, mine, share.jobs, stopped):
                to.write(result.word() + "\n")
                to.flush()
                good += result.good
                tell(result)
            os.fsync(to.fileno())
    return len(mine), good


def clear(packed: bytes, token: str) -> None:
    """Removes the work and its results, which are in the manifest by then. Files of other names stay."""
    files.remove(tasks_file(packed))
    with inside.folder(packed, RESULTS) as above:
        for name in os.listdir(above):
            if name.startswith(token + "."):
                os.unlink(name, dir_fd=above)
    try:
        os.rmdir(results_folder(packed))
    except OSError:
        # something else is in it
        pass
