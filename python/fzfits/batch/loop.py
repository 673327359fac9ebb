"""Many tasks at once: each is a generator of `steps`, and goes on when what it waits for is there.

All tasks are looked after by one thread, and threads beside it only wait for `fz` or for a disk. Python lets one thread run at a time,
and threads that all look at files take its lock from each other at each call of the system.
"""
from __future__ import annotations

import queue
import threading
import time
from itertools import islice
from typing import Any, Iterator, Optional, Tuple

from . import calls
from .steps import Steps, made


class Loop:
    """The tasks that are being done."""

    def __init__(self, program: calls.Program):
        self.program = program
        self._running = self._waiting = 0
        self._threads: "list[threading.Thread]" = []
        self._asked: "queue.SimpleQueue[Optional[Tuple[Steps[Any], Any]]]" = queue.SimpleQueue()
        self._made: "queue.SimpleQueue[Tuple[Steps[Any], Any, Optional[Exception]]]" = queue.SimpleQueue()
        self._ended: "list[Any]" = []

    def __enter__(self) -> "Loop":
        return self

    def __exit__(self, *_error: object) -> None:
        for _ in self._threads:
            self._asked.put(None)
        for it in self._threads:
            it.join()

    @property
    def busy(self) -> int:
        """How many tasks were begun and not yet given back by `ended`."""
        return self._running + len(self._ended)

    def begin(self, steps: "Steps[Any]") -> None:
        """Begins a task, up to the first thing that it waits for."""
        self._running += 1
        self._go_on(steps, None, None)

    def each(self, tasks: "Iterator[Steps[Any]]", many: int) -> Iterator[Any]:
        """Does all tasks, so many at once, and gives what each ends with, in no order."""
        while True:
            for it in islice(tasks, many - self.busy):
                self.begin(it)
            if not self.busy:
                return
            yield from self.ended()

    def ended(self, seconds: Optional[float] = None) -> "list[Any]":
        """What the tasks end with that ended by now. It waits until one has, or so many seconds."""
        end = None if seconds is None else time.monotonic() + max(0.0, seconds)
        try:
            while self._running and not self._ended:
                self._go_on(*self._made.get(timeout=None if end is None else max(0.0, end - time.monotonic())))
                self._waiting -= 1
        except queue.Empty:
            pass
        found, self._ended = self._ended, []
        return found

    def _go_on(self, steps: "Steps[Any]", value: Any, fault: Optional[Exception]) -> None:
        """Does a task up to the next thing that it waits for, or to its end."""
        try:
            step = steps.throw(fault) if fault is not None else steps.send(value)
        except StopIteration as ended:
            self._running -= 1
            self._ended.append(ended.value)
            return
        self._waiting += 1
        if self._waiting > len(self._threads):
            self._threads.append(threading.Thread(target=self._wait, daemon=True))
            self._threads[-1].start()
        self._asked.put((steps, step))

    def _wait(self) -> None:
        while True:
            asked = self._asked.get()
            if asked is None:
                return
            self._made.put((asked[0], *made(asked[1], self.program)))
