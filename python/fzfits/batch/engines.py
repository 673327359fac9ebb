"""Who does the tasks: processes of this machine, GNU parallel over ssh, a cluster of dask, or the tasks of a Slurm array.

An engine takes the settings and the tasks and gives results in the order in which they come. A task that never answers, since
its process was killed, has no result: the coordinator notices which are missing.
"""
from __future__ import annotations

import os
import shlex
import shutil
import subprocess
import sys
import tempfile
import threading
import time
from dataclasses import replace
from itertools import islice
from pathlib import Path
from typing import Callable, Iterator, Sequence

from . import calls, files, machine, work
from .loop import Loop
from .messages import BadMessage, Result, Settings, Task
from .rooms import rooms
from .steps import Apart, Steps

# What a line with a result begins with: a remote machine may print other lines before it.
RESULT = "fzbatch-result "
# So many tasks are one job of GNU parallel: starting Python takes about as long as packing a small file.
TASKS_OF_A_JOB = 8
# So many files are synced together, and those that were made in so many seconds.
MANY = 128
OLDEST = 1.0
PACKAGE = str(Path(__file__).resolve().parents[2])


class NoEngine(Exception):
    """The engine is not installed, or could not be started."""


def local(settings: Settings, tasks: Sequence[Task], jobs: int, stopped: Callable[[], bool]) -> Iterator[Result]:
    """As many tasks at once as there are jobs, all in this thread: each waits for its own fz (`loop`).

    The disk is waited for once for many files: those that were made within a second, at most so many. Meanwhile others are made.
    """
    batch: "list[work.Done]" = []
    since, syncs = 0.0, 0
    with files.private(), rooms(settings.packed, settings.token, jobs) as scratch, Loop(calls.shared.of(settings.program)) as loop:
        waiting = (work.prepare(settings, it, scratch) for it in tasks)
        while True:
            if not stopped() and len(batch) < MANY:
                for steps in islice(waiting, jobs + syncs - loop.busy):
                    loop.begin(steps)
            is_last = loop.busy == syncs
            if batch and not syncs and (is_last or len(batch) >= MANY or time.monotonic() - since >= OLDEST):
                loop.begin(_finished(settings, batch))
                batch, syncs = [], 1
            elif is_last and not syncs:
                return
            for ended in loop.ended(since + OLDEST - time.monotonic() if batch and not syncs else None):
                if isinstance(ended, work.Done):
                    since = since if batch else time.monotonic()
                    batch.append(ended)
                else:
                    syncs = 0
                    yield from ended


def _finished(settings: Settings, batch: "list[work.Done]") -> "Steps[list[Result]]":
    """Waits for the disk, which takes a thread of its own, and gives the results."""
    yield Apart(lambda: work.finish(settings, batch))
    return [it.result for it in batch]


def parallel(settings: Settings, tasks: Sequence[Task], options: Sequence[str], stopped: Callable[[], bool]) -> Iterator[Result]:
    """By GNU parallel, whose options name the machines. All see the folders, this package, Python and fz under the same names."""
    if shutil.which("parallel") is None or b"GNU" not in subprocess.run(["parallel", "--version"], capture_output=True, check=False).stdout:
        raise NoEngine("GNU parallel is not installed")
    # isolated: no module is imported from the folder in which a machine starts it
    code = f"import sys; sys.path.insert(0, {PACKAGE!r}); from fzfits.batch.engines import main; sys.exit(main(sys.argv[1:]))"
    command = f"{shlex.quote(sys.executable)} -I -c {shlex.quote(code)} {settings.word()}"
    words = ["parallel", "--will-cite", "-N", str(TASKS_OF_A_JOB), *options, command]
    # parallel wants a HOME, and reads options there: without one it gets an empty folder, and not the current one, which may be that of a stranger
    with tempfile.TemporaryDirectory(prefix="fzbatch-home-") as home, subprocess.Popen(words, stdin=subprocess.PIPE, stdout=subprocess.PIPE, env={"HOME": home, **os.environ}, text=True) as it:
        threading.Thread(target=_feed, args=(it, [task.word() for task in tasks]), daemon=True).start()
        assert it.stdout is not None
        for line in it.stdout:
            result = _result_of(line)
            if result is not None:
                yield result
            else:
                # a banner of the machine, say
                sys.stderr.write(line)
            if stopped():
                it.terminate()


def _result_of(line: str) -> "Result | None":
    try:
        return Result.of(line[len(RESULT) :]) if line.startswith(RESULT) else None
    except BadMessage:
        return None


def _feed(it: "subprocess.Popen[str]", lines: Sequence[str]) -> None:
    assert it.stdin is not None
    try:
        with it.stdin as to:
            to.writelines(line + "\n" for line in lines)
    except BrokenPipeError:
        pass


def dask(settings: Settings, tasks: Sequence[Task], scheduler: str, jobs: int, stopped: Callable[[], bool]) -> Iterator[Result]:
    """By the workers of a dask scheduler, or by those of a cluster on this machine if none is named."""
    try:
        import distributed
    except ImportError as error:
        raise NoEngine(f"dask.distributed is not installed: {error}") from error
    try:
        cluster = None if scheduler else distributed.LocalCluster(n_workers=jobs, threads_per_worker=1, dashboard_address=None)
        client = distributed.Client(scheduler or cluster)
    except (OSError, ValueError) as error:
        raise NoEngine(f"the dask scheduler does not answer: {error}") from error
    try:
        head = settings.word()
        asked = client.map(_of_lines, [head] * len(tasks), [it.word() for it in tasks], pure=False, retries=0)
        for future in distributed.as_completed(asked):
            if future.status == "finished":
                yield Result.of(future.result())
            if stopped():
                client.cancel(asked)
                return
    finally:
        client.close()
        if cluster is not None:
            cluster.close()


def _of_lines(settings: str, task: str) -> str:
    return work.do(_with_memory(Settings.of(settings)), Task.of(task)).word()


def _with_memory(settings: Settings) -> Settings:
    """On another machine: as if it had a job for each of its processors."""
    return replace(settings, memory=settings.memory or machine.limit_of_a_job(machine.processors()))


def main(words: Sequence[str]) -> int:
    """A job of GNU parallel: settings and tasks as words; a line with the result of each."""
    settings = _with_memory(Settings.of(words[0]))
    for word in words[1:]:
        print(RESULT + work.do(settings, Task.of(word)).word(), flush=True)
    return 0


if __name__ == "__main__":
    sys.exit(main(sys.argv[1:]))
