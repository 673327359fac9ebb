"""One run: it looks at the folders, hands tasks to an engine, writes the results into the manifest, and sums them up.

Only this process writes the manifest, and one run at a time works on a folder of packed files.
"""
from __future__ import annotations

import errno
import os
import secrets
import signal
import socket
import time
from dataclasses import replace
from typing import Iterator, Optional, TextIO

from .. import program
from ..errors import NoProgram
from . import before, calls, dry, engines, files, keep, lock, machine, names, plan, slurm, start, survey, work
from .logged import Log
from .manifest import BadManifest, Manifest, Row
from .messages import Result, Settings
from .progress import progress
from .record import record
from .scan import NoSource, Scan
from .tally import WORDS, Tally
from .wanted import DISK_FAILED, DONE, IDLE, NOT_DONE, NOTHING_DONE, Refuse, Wanted, checked, find_manifest, open_manifest, place, signals

# What the system says if a disk failed; after the first three nothing else can be written either.
FULL = (errno.ENOSPC, errno.EROFS, errno.EDQUOT)
DISK = tuple(os.strerror(it) for it in (*FULL, errno.EIO, errno.ESTALE, errno.ENODEV, errno.ENXIO))
STOPPING = (work.WRONG_OPTIONS, work.NO_PROGRAM, *(os.strerror(it) for it in FULL))

__all__ = ["DISK_FAILED", "DONE", "IDLE", "NOTHING_DONE", "NOT_DONE", "Refuse", "Wanted", "begin", "open_manifest"]


def begin(wanted: Wanted, out: TextIO, err: TextIO) -> int:
    """Does a run, and gives the status of fzbatch."""
    try:
        return _Run(wanted, out, err).status()
    except (Refuse, NoSource, BadManifest, NoProgram, lock.Locked, engines.NoEngine) as error:
        said, status = str(error), NOTHING_DONE
    except OSError as error:
        name = names.shown(os.fsencode(error.filename)) if isinstance(error.filename, (str, bytes)) else ""
        said = f"{name}: {error.strerror}" if name else str(error)
        status = DISK_FAILED if error.strerror in DISK else NOTHING_DONE
    print(f"fzbatch: {names.told(said)}", file=err)
    return status


class _Run:
    """A run while it goes on."""

    def __init__(self, wanted: Wanted, out: TextIO, err: TextIO):
        self.wanted, self.out, self.err = wanted, out, err
        self.token = secrets.token_hex(8)
        self.tally = Tally(wanted.verb)
        self.rows: dict[bytes, Row] = {}
        self.stop_signal = 0
        self.after_update = False
        self.began = time.monotonic()

    def status(self) -> int:
        calls.check_files()
        self.program = program.find(self.wanted.program)
        before.check(self.wanted, self.program)
        self.identity = work.identity_of(self.program)
        found = start.source(self.wanted)
        if self.wanted.dry_run:
            return dry.run(self.wanted, found, self.identity, self.out)
        self.log = self.tally.log = Log(self.wanted.log)
        try:
            return self._status(found)
        finally:
            self.log.close()

    def _status(self, found: Optional[Scan]) -> int:
        if self.wanted.verb == "pack":
            start.make_folder(self.wanted.packed, self.wanted.plain)
        with lock.held(os.path.join(self.wanted.packed, names.LOCK)):
            if files.there(slurm.tasks_file(self.wanted.packed)):
                raise Refuse("the tasks of an earlier run with --engine slurm were not collected: fzbatch collect does it")
            with self._manifest() as self.manifest:
                self.rows = {it.path: it for it in self.manifest.rows()}
                start.clean_up(self.wanted, self.manifest)
                todo = self._plan(found)
                self.after_update = survey.update_was_killed(self.manifest)
                verb = f"{self.wanted.verb}{' --update' if self.wanted.update else ''}"
                self.log.tell(f"{verb} begins: {names.shown(self.wanted.plain)}, {names.shown(self.wanted.packed)}: {len(todo.tasks)} files to do")
                self.manifest.begin(self.token, verb, socket.gethostname(), os.getpid())
                if self.wanted.engine == "slurm" and todo.tasks:
                    from . import submit  # pylint: disable=import-outside-toplevel

                    submit.hand_over(self.settings(0), todo.tasks, self.out)
                    return DONE
                self._do(todo)
                self.tally.seconds = time.monotonic() - self.began
                self._end()
        return self._summed_up()

    def _summed_up(self) -> int:
        """Prints the summary, and gives the status."""
        self.log.tell(self.tally.last_line() + (f"; stopped: {self.tally.stopped}" if self.tally.stopped else ""))
        if self.wanted.engine == "slurm":
            self.tally.notes.append("No file is to be done, and nothing to submit.")
        if self.wanted.verb == "pack" and self.tally.done:
            self.tally.notes.append(f"The packed files are in {names.shown(self.wanted.packed)}.")
        if not self.wanted.quiet or not self.tally.whole:
            self.tally.print(self.out, self.wanted.all_names)
        if self.stop_signal:
            return 128 + self.stop_signal
        if self.tally.disk_failed:
            return DISK_FAILED
        if self.wanted.tells_idle and self.tally.idle:
            return IDLE
        return DONE if self.tally.whole else NOT_DONE

    # before the first task

    def _manifest(self) -> Manifest:
        """The manifest: for a run that needs not write it a copy, if its disk cannot be written."""
        path = os.path.join(self.wanted.packed, names.MANIFEST)
        if self.wanted.verb == "pack":
            copy = os.path.join(self.wanted.packed, names.COPY)
            if not files.there(path) and files.there(copy):
                raise Refuse(f"{names.shown(path)} is not there, and its second copy is: fzbatch rebuild makes it again from the copy and the packed files (or move the copy away, and fzbatch pack begins anew)")
            if not files.there(path):
                # what it says of packed files is kept, so it has to be whole
                keep.read_sums(self.wanted.packed)
            return checked(Manifest(path), self.wanted.packed)
        find_manifest(self.wanted.packed)
        if lock.is_writable(self.wanted.packed) and os.access(path, os.W_OK):
            return checked(Manifest(path), self.wanted.packed)
        self.tally.notes.append(f"{names.shown(self.wanted.packed)} cannot be written, so the manifest does not record this run.")
        return checked(Manifest(path, writes=False), self.wanted.packed)

    def _plan(self, found: Optional[Scan]) -> plan.Plan:
        if found is None:
            todo = start.to_read(self.wanted, self.rows, self.tally)
            if self.wanted.verb == "restore":
                start.make_folder(self.wanted.plain, self.wanted.packed)
            return todo
        todo = start.to_pack(self.wanted, found, self.rows, self.identity, self.tally)
        start.note_source(self.wanted, found, self.manifest, self.tally)
        if not self.rows:
            start.note_sums(self.wanted, found, self.manifest, self.tally)
        return todo

    # the tasks

    def settings(self, jobs: int) -> Settings:
        """What all tasks have in common. The limit on memory is that of this machine for so many jobs, if none is given."""
        it = self.wanted
        memory = it.memory or (machine.limit_of_a_job(jobs) if jobs else 0)
        made = Settings(it.verb, it.plain, it.packed, self.token, self.program, self.identity, it.options, memory)
        made = replace(made, compare=it.compare, replace=it.update, accept_wrong_sums=it.accept_wrong_sums, sha256_only=it.sha256_only, after_update=self.after_update)
        return replace(made, without_plain=it.without_plain, time_limit=it.time_limit)

    def _results(self, todo: plan.Plan) -> Iterator[Result]:
        it, stopped = self.wanted, lambda: bool(self.tally.stopped)
        if it.engine == "parallel":
            return engines.parallel(self.settings(0), todo.tasks, ["--jobs", str(it.jobs), *it.machines], stopped)
        if it.engine == "dask":
            return engines.dask(self.settings(0), todo.tasks, it.scheduler, it.jobs, stopped)
        return engines.local(self.settings(it.jobs), todo.tasks, it.jobs, stopped)

    def _do(self, todo: plan.Plan) -> None:
        roots = {it: place(it) for it in (self.wanted.plain, self.wanted.packed)}
        answered = 0
        bar = progress(self.wanted.verb, len(todo.tasks), sum(todo.sizes.values()), names.unescaped(self.err), self.wanted.quiet)
        with signals(self._signalled):
            try:
                for result in self._results(todo):
                    if not result.good and self._must_stop(result, roots):
                        continue
                    if not self._record(result):
                        continue
                    answered += 1
                    bar.step(todo.sizes.get(result.path, 0), result.good)
            finally:
                bar.close()
        self.tally.untried = len(todo.tasks) - answered
        if self.tally.untried and not self.tally.stopped:
            self.tally.stopped = "the engine ended before all files were done"

    def _end(self) -> None:
        """Notes the end of the run, if there is room for it; otherwise the next run finds that this one did not end."""
        self.tally.notes += survey.accepted(self.rows[it] for it in sorted(self.rows))
        try:
            self.manifest.end(self.token, self.tally.last_line())
            if lock.is_writable(self.wanted.packed) and self.manifest.changed:
                self.tally.notes += keep.keep(self.manifest, self.wanted.packed)
        except BadManifest as error:
            self.manifest.give_up()
            self._stop(str(error))
        except OSError as error:
            self._stop(f"the second copy of the manifest cannot be written: {error.strerror}")

    def _stop(self, why: str) -> None:
        """Stops the run because of a disk."""
        self.tally.stopped = self.tally.stopped or why
        self.tally.disk_failed = True

    def _signalled(self, number: int) -> None:
        self.stop_signal = number
        self.tally.stopped = f"by {signal.Signals(number).name}"

    def _must_stop(self, result: Result, roots: dict[bytes, Optional[tuple[int, int]]]) -> bool:
        """Whether a bad result says nothing of its file, since the run is being stopped or a disk went away."""
        if result.outcome == "killed" and self.tally.stopped:
            return True
        for root, was in roots.items():
            if was is not None and place(root) != was:
                self._stop(f"{names.shown(root)} went away: is its disk still mounted?")
                return True
        self.tally.disk_failed = self.tally.disk_failed or result.cause.startswith(DISK)
        if result.cause.startswith(STOPPING):
            given = f" ({' '.join(self.wanted.options)})" if result.cause == work.WRONG_OPTIONS else ""
            self.tally.stopped = f"{result.cause}{given}: {result.advice}"
            return True
        return False

    def _record(self, result: Result) -> bool:
        """Writes a result into the manifest. If that has no room the run stops, and the next one finds the packed file and compares it."""
        try:
            row = record(self.manifest, self.rows.get(result.path), result, self.identity, " ".join(self.wanted.options), self.wanted.plain)
        except BadManifest as error:
            self.manifest.give_up()
            self._stop(str(error))
            return False
        self.rows[row.path] = row
        if result.warning:
            self.tally.notes.append(f"{names.shown(result.path)}: {result.warning}. A file from a stranger may be made to fill a disk.")
        if result.good and row.fault and result.verb != "restore":
            # it has the right SHA-256, which was not what was wrong with it
            self.tally.bad(result.path, row.cause, row.line, row.advice)
        elif result.good:
            self.tally.good(result.outcome, row.size or 0, row.packed_size or 0)
            self.log.tell(f"{names.shown(result.path)}: {WORDS[result.outcome]}")
        else:
            self.tally.bad(result.path, result.cause, result.line, result.advice)
        return True
