"""Who reads the files of an adopted folder: threads of this process, GNU parallel over ssh, or the workers of a dask scheduler."""
from __future__ import annotations

import shlex
import shutil
import subprocess
import sys
import threading
from concurrent import futures
from dataclasses import replace
from typing import Callable, Iterator, List, Sequence

from .. import engines as others
from .. import machine
from ..engines import PACKAGE, RESULT, NoEngine
from ..messages import BadMessage
from ..rooms import Rooms
from .examine import examine
from .messages import Asked, Found, One
from .scratch import scratch

Stopped = Callable[[], bool]


def local(asked: Asked, some: Iterator["List[One]"], jobs: int, stopped: Stopped) -> Iterator[Found]:
    """As many files at once as there are jobs. Each waits for its own fz, or for a hash, so threads are enough."""
    waiting = (it for part in some for it in part)
    with scratch(asked.folder, asked.token, jobs) as room, futures.ThreadPoolExecutor(jobs) as pool:
        running: "set[futures.Future[Found]]" = set()
        while True:
            while len(running) < 2 * jobs and not stopped():
                one = next(waiting, None)
                if one is None:
                    break
                running.add(pool.submit(_unless, stopped, asked, one, room))
            if not running:
                return
            ended, running = futures.wait(running, return_when=futures.FIRST_COMPLETED)
            yield from (it.result() for it in ended)


def _unless(stopped: Stopped, asked: Asked, one: One, room: Rooms) -> Found:
    return Found(one.folder, one.name, "stopped") if stopped() else examine(asked, one, room)


def parallel(asked: Asked, some: Iterator["List[One]"], options: Sequence[str], stopped: Stopped) -> Iterator[Found]:
    """By GNU parallel, whose options name the machines. All see the folder, this package, Python and fz under the same names."""
    if shutil.which("parallel") is None or b"GNU" not in subprocess.run(["parallel", "--version"], capture_output=True, check=False).stdout:
        raise NoEngine("GNU parallel is not installed")
    code = f"import sys; sys.path.insert(0, {PACKAGE!r}); from fzfits.batch.adopt.engines import main; sys.exit(main(sys.argv[1:]))"
    command = f"{shlex.quote(sys.executable)} -I -c {shlex.quote(code)} {asked.word()}"
    words = ["parallel", "--will-cite", "-N", str(others.TASKS_OF_A_JOB), *options, command]
    for part in some:
        with subprocess.Popen(words, stdin=subprocess.PIPE, stdout=subprocess.PIPE, text=True) as it:
            threading.Thread(target=_feed, args=(it, [one.word() + "\n" for one in part]), daemon=True).start()
            assert it.stdout is not None
            for line in it.stdout:
                found = _found_of(line)
                if found is not None:
                    yield found
                else:
                    sys.stderr.write(line)
                if stopped():
                    it.terminate()
        if stopped():
            return


def _feed(it: "subprocess.Popen[str]", lines: Sequence[str]) -> None:
    assert it.stdin is not None
    try:
        with it.stdin as to:
            to.writelines(lines)
    except BrokenPipeError:
        pass


def _found_of(line: str) -> "Found | None":
    try:
        return Found.of(line[len(RESULT) :]) if line.startswith(RESULT) else None
    except BadMessage:
        return None


def dask(asked: Asked, some: Iterator["List[One]"], scheduler: str, jobs: int, stopped: Stopped) -> Iterator[Found]:
    """By the workers of a dask scheduler, or by those of a cluster on this machine if none is named."""
    try:
        import distributed  # pylint: disable=import-outside-toplevel
    except ImportError as error:
        raise NoEngine(f"dask.distributed is not installed: {error}") from error
    try:
        cluster = None if scheduler else distributed.LocalCluster(n_workers=jobs, threads_per_worker=1, dashboard_address=None)
        client = distributed.Client(scheduler or cluster)
    except (OSError, ValueError) as error:
        raise NoEngine(f"the dask scheduler does not answer: {error}") from error
    try:
        for part in some:
            waiting = client.map(of_words, [asked.word()] * len(part), [it.word() for it in part], pure=False, retries=0)
            for future in distributed.as_completed(waiting):
                if future.status == "finished":
                    yield Found.of(future.result())
                if stopped():
                    client.cancel(waiting)
                    return
    finally:
        client.close()
        if cluster is not None:
            cluster.close()


def of_words(asked: str, one: str) -> str:
    """A file as a word, and what was found of it as a word."""
    return _alone(_with_memory(Asked.of(asked)), One.of(one)).word()


def _alone(asked: Asked, one: One) -> Found:
    with scratch(asked.folder, asked.token) as room:
        return examine(asked, one, room)


def _with_memory(asked: Asked) -> Asked:
    """On another machine: as if it had a job for each of its processors."""
    return replace(asked, memory=asked.memory or machine.limit_of_a_job(machine.processors()))


def main(words: Sequence[str]) -> int:
    """A job of GNU parallel: settings and files as words; a line with what was found of each."""
    asked = _with_memory(Asked.of(words[0]))
    for word in words[1:]:
        print(RESULT + _alone(asked, One.of(word)).word(), flush=True)
    return 0
