"""Work that waits for `fz` or for a disk, as steps: a generator yields what it waits for, and gets what came of it.

So one thread looks after many files at once (`loop`): while `fz` works on some, it looks at others. `alone` does one after another.
"""
from __future__ import annotations

import os
from dataclasses import dataclass
from typing import Any, Callable, Generator, Sequence, TypeVar, Union

from . import calls, files

# Files from this size on are read apart, so that the others do not wait for it.
LARGE = 1 << 18


@dataclass(frozen=True)
class Call:
    """A run of the program: its words, the open files that it is given, and its time. An `Outcome` comes of it."""

    words: "Sequence[str | bytes]"
    numbers: "tuple[int, ...]"
    seconds: float


@dataclass(frozen=True)
class Apart:
    """Something that takes long, and is called in a thread of its own. What it gives comes of it."""

    call: Callable[[], Any]


Result = TypeVar("Result")
Steps = Generator[Union[Call, Apart], Any, Result]


def looked(number: int) -> "Steps[files.Looked]":
    """Reads a whole open regular file from its beginning."""
    if os.fstat(number).st_size < LARGE:
        return files.look_at(number)
    found: files.Looked = yield Apart(lambda: files.look_at(number))
    return found


def made(step: "Call | Apart", program: calls.Program) -> "tuple[Any, Exception | None]":
    """What comes of a step, or what it raised."""
    try:
        return (step.call() if isinstance(step, Apart) else program.run(step.words, step.numbers, step.seconds)), None
    except Exception as error:  # pylint: disable=broad-except
        # it is one of the task, and not of those that do the steps
        return None, error


def alone(steps: "Steps[Result]", program: calls.Program) -> Result:
    """Does the steps one after another, and gives what they end with."""
    value: Any = None
    fault: "Exception | None" = None
    while True:
        try:
            step = steps.throw(fault) if fault is not None else steps.send(value)
        except StopIteration as ended:
            result: Result = ended.value
            return result
        value, fault = made(step, program)
