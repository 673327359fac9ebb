"""A run on an adopted folder: `adopt`, which takes it under its manifest, and `verify`, which reads all of it again.

Only this process writes the manifest, and one run at a time works on it. The folder is only read.
"""
from __future__ import annotations

import errno
import os
import secrets
import signal
import socket
import time
from contextlib import closing
from dataclasses import dataclass, field
from typing import Iterator, List, Optional, TextIO

from ... import program
from ...advice import counted
from .. import calls, files, lock, machine, names, rooms
from ..logged import Log
from ..manifest import BadManifest
from ..progress import progress
from ..scan import Left
from ..survey import SKIPS
from ..wanted import Refuse, place, signals
from ..work import identity_of
from . import copying, engines, places, verdict
from .count import Count
from .messages import Asked, Found
from .rows import WELL, Finding, Row
from .store import Store
from .waiting import Look, Waiting

DONE, NOT_DONE = 0, 1
# After these nothing else can be read either, so the run stops.
STOPPING = (errno.ENOSPC, errno.EDQUOT)
UNKNOWN = Finding("not in the manifest", "the manifest does not know it", "fzbatch adopt takes it in")


@dataclass
class Wanted:
    """What the command line asks for."""

    verb: str
    folder: bytes
    manifest: bytes
    program: Optional[str] = None
    memory: int = 0
    jobs: int = 1
    engine: str = "local"
    machines: List[str] = field(default_factory=list)
    scheduler: str = ""
    time_limit: float = 0.0
    allow_empty: bool = False
    all_names: bool = False
    days: Optional[float] = None
    update: bool = False
    moved: bool = False
    sha256_only: bool = False
    skips: "dict[str, bool]" = field(default_factory=dict)
    skip_nothing: bool = False
    quiet: bool = False
    log: Optional[str] = None


class Run:
    """A run while it goes on."""

    def __init__(self, wanted: Wanted, out: TextIO, err: TextIO):
        self.wanted, self.out, self.err = wanted, out, err
        self.count = Count(wanted.verb, wanted.all_names)
        # new files that could not be read: the manifest has no row of them
        self.unkept = Count(wanted.verb, wanted.all_names)
        self.token = secrets.token_hex(8)
        self.stop_signal = 0
        self.began = time.monotonic()
        self.number = 0

    def status(self) -> int:
        """Does the run, and gives the status of fzbatch."""
        calls.check_files()
        self.program = program.find(self.wanted.program)
        if not os.path.isdir(self.wanted.folder):
            raise Refuse(f"{names.shown(self.wanted.folder)} is not there, or is no folder: is its disk mounted?")
        if files.there(os.path.join(self.wanted.folder, names.MANIFEST)):
            raise Refuse(f"{names.shown(self.wanted.folder)} has a manifest of fzbatch pack: fzbatch verify {names.shown(self.wanted.folder)} checks it")
        writes = places.may_be_written(self.wanted.manifest)
        if not writes and self.wanted.verb == "adopt":
            raise Refuse(f"{names.shown(self.wanted.manifest)} cannot be written: --manifest names another place")
        with closing(Log(self.wanted.log)) as self.count.log:
            with lock.held(self.wanted.manifest + places.LOCK), self._opened(writes) as self.store:
                self.count.log.tell(f"{self.wanted.verb} begins: {names.shown(self.wanted.folder)}")
                self._do(writes)
            self.count.seconds = time.monotonic() - self.began
            self.count.sum_up(self.out, self.wanted.quiet)
        if self.stop_signal:
            return 128 + self.stop_signal
        return DONE if self.count.whole else NOT_DONE

    def _opened(self, writes: bool) -> Store:
        wanted = self.wanted
        if wanted.verb != "adopt" or files.there(wanted.manifest):
            if not writes:
                self.count.notes.append(f"{names.shown(wanted.manifest)} cannot be written, so the manifest does not record this run.")
            return places.opened(wanted.manifest, wanted.folder, writes, wanted.moved)
        copying.settle(wanted.manifest + places.COPY)
        places.check_new(wanted.manifest)
        return Store(wanted.manifest)

    def _do(self, writes: bool) -> None:
        rooms.remove_of_killed(self.wanted.folder)
        days = 0.0 if self.wanted.verb == "verify" else self.wanted.days
        waiting = Waiting(Look(days, self.wanted.verb == "verify", self.wanted.update))
        try:
            self._wait_for(waiting)
            if writes:
                self._begin(waiting)
            self._read(waiting, writes)
            if not self.count.stopped:
                self._gone(waiting, writes)
            self._known(waiting)
            if waiting.same and self.wanted.verb == "adopt":
                self.count.notes.append(f"{counted(waiting.same, 'file')} with the same length and time as before, not read again: fzbatch verify reads all, and fzbatch adopt --reread DAYS those that were not read for so long.")
            if writes:
                self._end()
        finally:
            waiting.close()

    def _wait_for(self, waiting: Waiting) -> None:
        waiting.fill(self.store, self.wanted.folder, self.wanted.jobs)
        shown = names.shown(self.wanted.folder)
        if not waiting.here and not self.wanted.allow_empty:
            raise Refuse(f"{shown} has no FITS file: is its disk mounted? --allow-empty says that it may be empty")
        if self.store.files and waiting.new == waiting.here and not self.wanted.allow_empty:
            raise Refuse(f"{shown} has none of the {self.store.files:,} files of the manifest: is it the right folder, and is its disk mounted? --allow-empty says so")

    def _begin(self, waiting: Waiting) -> None:
        """Notes what the look saw, if that is new, and that a run begins, if it has anything to write."""
        store, wanted = self.store, self.wanted
        if wanted.moved or store.fact("folder") is None:
            store.tell("folder", wanted.folder)
        for name, on in wanted.skips.items():
            if on or (wanted.skip_nothing and store.fact(name)):
                store.tell(name, int(on))
        store.leave_out(waiting.left, dict(waiting.others.most_common()))
        if waiting.count or waiting.gone or wanted.update or wanted.verb == "verify":
            self.number = store.begin(self.token, wanted.verb, socket.gethostname(), os.getpid(), identity_of(self.program))

    def _asked(self) -> Asked:
        it = self.wanted
        memory = it.memory or (machine.limit_of_a_job(it.jobs) if it.engine == "local" else 0)
        return Asked(it.folder, self.token, self.program, memory, it.time_limit, it.jobs, it.sha256_only)

    def _results(self, waiting: Waiting) -> Iterator[Found]:
        it, stopped = self.wanted, lambda: bool(self.count.stopped)
        if it.engine == "parallel":
            return engines.parallel(self._asked(), waiting.tasks(), ["--jobs", str(it.jobs), *it.machines], stopped)
        if it.engine == "dask":
            return engines.dask(self._asked(), waiting.tasks(), it.scheduler, it.jobs, stopped)
        return engines.local(self._asked(), waiting.tasks(), it.jobs, stopped)

    def _read(self, waiting: Waiting, writes: bool) -> None:
        was, answered, beside = place(self.wanted.folder), 0, places.Beside(self.store)
        bar = progress(self.wanted.verb, waiting.count, waiting.size, names.unescaped(self.err), self.wanted.quiet)
        with signals(self._signalled):
            try:
                for found in self._results(waiting):
                    if found.outcome == "stopped" or self._must_stop(found, was):
                        continue
                    if not self._record(found, waiting, writes):
                        continue
                    answered += 1
                    self.count.size += found.size
                    bar.step(found.size)
                    if writes:
                        self.count.stopped = beside.keep_now_and_then() or self.count.stopped
            finally:
                bar.close()
        self.count.untried = waiting.count - answered
        if self.count.untried and not self.count.stopped:
            self.count.stopped = "the engine ended before all files were read"

    def _signalled(self, number: int) -> None:
        self.stop_signal = number
        self.count.stopped = f"by {signal.Signals(number).name}"

    def _must_stop(self, found: Found, was: object) -> bool:
        """Whether a file that could not be read says nothing of itself, since a disk is full or went away."""
        if found.outcome != "unread":
            return False
        if place(self.wanted.folder) != was:
            self.count.stopped = f"{names.shown(self.wanted.folder)} went away: is its disk still mounted?"
        elif found.error in STOPPING:
            self.count.stopped = f"{found.line}: {found.advice}"
        return bool(self.count.stopped)

    def _record(self, found: Found, waiting: Waiting, writes: bool) -> bool:
        made = verdict.of(found, self.store.row, waiting.had, self.number, self.wanted.update)
        if made is None:
            said = Finding("not read", f"{found.cause}: {found.line}" if found.line != found.cause else found.line, found.advice)
            self.unkept.not_well(found.path, [said])
            self.count.not_well(found.path, [said])
            return True
        try:
            if writes:
                self.store.put(made.row)
                if made.drop is not None:
                    self.store.forget(*made.drop)
        except BadManifest as error:
            self.store.give_up()
            self.count.stopped = str(error)
            return False
        if made.drop is not None:
            waiting.found_again(*made.drop)
        if made.row.status in WELL:
            self.count.well(made.row.path, made.row.status)
        else:
            self.count.not_well(made.row.path, made.row.findings)
        return True

    def _gone(self, waiting: Waiting, writes: bool) -> None:
        for folder, name in waiting.still_gone():
            row = self.store.row(folder, name)
            if row is None:
                continue
            if verdict.other_half(row, waiting.row_there(self.store)):
                # it was packed or restored in its place, and the run was killed before it said so
                if writes:
                    self.store.forget(folder, name)
                continue
            made = verdict.gone(row)
            if writes and made != row:
                self.store.put(made)
            self.count.not_well(row.path, made.findings)
        for path in waiting.unknown:
            self.count.not_well(path, [UNKNOWN])

    def _known(self, waiting: Waiting) -> None:
        """Counts what needed no look, and names what an earlier run found of it."""
        if waiting.same and self.wanted.verb == "adopt":
            self._count_rows()
        self.count.left, notes = kept_left(self.store, waiting.left)
        self.count.notes += notes
        self.count.others = dict(waiting.others.most_common())

    def _count_rows(self) -> None:
        """What the manifest says of all files, also of those that were not read in this run."""
        told, self.count = self.count, of_store(self.store, self.wanted.verb, self.wanted.all_names)
        self.count.notes, self.count.stopped, self.count.untried, self.count.size = told.notes, told.stopped, told.untried, told.size
        self.count.log = told.log
        self.count.add(self.unkept)

    def _end(self) -> None:
        try:
            if self.number:
                self.store.end(self.number, self.count.last_line())
            if self.store.writes and (self.store.changed or places.is_stale(self.store.path)):
                self.count.notes += places.keep_beside(self.store)
        except BadManifest as error:
            self.store.give_up()
            self.count.stopped = self.count.stopped or str(error)
        except OSError as error:
            self.count.stopped = self.count.stopped or f"what lies beside the manifest cannot be written: {error.strerror}"


def of_store(store: Store, verb: str, all_names: bool) -> Count:
    """The counts of a manifest."""
    made = Count(verb, all_names)
    for it in store.folders():
        for status, many in it.of_status.items():
            if status in WELL:
                made.good(status, many)
    for row in store.not_well():
        made.not_well(row.path, row.findings)
    return made


def kept_left(store: Store, left: "List[Left]") -> "tuple[List[Left], List[str]]":
    """What is left out, without the sorts that the manifest says may be, and a line for each of these."""
    notes = []
    for fact, (sort, what, option) in SKIPS.items():
        if store.fact(fact):
            many = sum(it.sort == sort for it in left)
            left = [it for it in left if it.sort != sort]
            notes.append(f"{what}: {many} left out, as {option} says.")
    return left, notes


def row_of(store: Store, path: bytes) -> "Optional[Row]":
    """The row of a path."""
    return store.row(os.path.dirname(path), os.path.basename(path))
