"""What waits for the disk: files that were made are synced together, and only then get their names."""
from __future__ import annotations

import os
from contextlib import ExitStack, contextmanager, suppress
from dataclasses import dataclass
from typing import Callable, Iterator, Optional, Sequence

from ..errors import NoProgram
from . import advice, files, inside, tries
from .messages import Result, Settings, Task
from .tries import Stop

NO_PROGRAM = "fz could not be started"


@dataclass
class Made:
    """A file that was made and has no final name yet."""

    root: bytes
    path: bytes
    part: bytes
    replace: bool
    synced: bool


@dataclass
class Done:
    """A task that is done, but for what waits for the disk."""

    task: Task
    result: Result
    made: Optional[Made] = None


class guarded:
    """What the block raises is put into the result. `held` says that it raised nothing."""

    def __init__(self, result: Result):
        self.result, self.held = result, False

    def __enter__(self) -> "guarded":
        return self

    def __exit__(self, kind: object, error: Optional[BaseException], trace: object) -> bool:
        self.held = error is None
        if error is not None and not isinstance(error, Exception):
            return False
        if error is not None:
            it = self.result
            it.outcome, it.cause, it.line, it.advice, it.kind = _told(error)
        self.result.escape()
        return True


def _told(error: Exception) -> "tuple[str, str, str, str, int]":
    """Outcome, cause, line, advice and kind of what a task raised."""
    if isinstance(error, Stop):
        return error.outcome, error.cause, error.line, error.what, error.kind
    if isinstance(error, NoProgram):
        return "failed", NO_PROGRAM, str(error), "check that the program still exists, and that there are not too many processes", 0
    if isinstance(error, OSError):
        said = error.strerror or str(error)
        if isinstance(error, inside.NotInside):
            return "failed", "a link is in the way", said, advice.NO_LINKS, 0
        return "failed", said, said, advice.of_errno(error.errno or 0), 0
    # whatever a file of a stranger brings about: it is named, and the run goes on
    return "failed", "fault of fzbatch", f"{type(error).__name__}: {error}", "report it with the file", 0


@contextmanager
def of_plain() -> Iterator[None]:
    """What the system says of a plain file is told of that file: a look at its packed file does not forget it."""
    try:
        yield
    except OSError as error:
        outcome, cause, line, what, kind = _told(error)
        raise Stop(outcome, cause, f"the plain file: {line}", what, kind) from error


@contextmanager
def plain_file(settings: Settings, task: Task) -> Iterator[int]:
    """The plain file of a task, open."""
    with ExitStack() as stack:
        with of_plain():
            number = stack.enter_context(inside.file(settings.plain, task.path))
        yield number


def finish(settings: Settings, batch: Sequence[Done]) -> None:
    """Waits until the disk has what was made, gives the files their names, and waits until the disk has these."""
    with ExitStack() as stack:
        folders = _Folders(stack)
        ready = [it for it in batch if it.made is not None]
        ready = [it for it in ready if folders.does(it, folders.sync)]
        ready = [it for it in ready if folders.does(it, lambda above, done: _name(settings, above, done))]
        for it in ready:
            folders.does(it, folders.sync_names)


class _Folders:
    """The open folders of the files of a batch, and what the disk has of them."""

    def __init__(self, stack: ExitStack):
        self.stack = stack
        self.opened: dict[tuple[bytes, bytes], int] = {}
        # of each disk, and of each folder: whether it was synced, or why not
        self.disks: dict[int, "bool | OSError"] = {}
        self.named: dict[int, Optional[OSError]] = {}

    def does(self, done: Done, call: Callable[[int, Done], None]) -> bool:
        """Calls something with the folder of a file. If it fails the result says so, and the file is removed if it has no name yet."""
        above = -1
        with guarded(done.result) as guard:
            assert done.made is not None
            key = (done.made.root, os.path.dirname(done.made.path))
            if key not in self.opened:
                self.opened[key] = self.stack.enter_context(inside.folder(*key))
            above = self.opened[key]
            call(above, done)
        if guard.held:
            return done.made is not None
        if above >= 0 and done.made is not None:
            with suppress(OSError):
                files.remove(done.made.part, above)
        done.made = None
        return False

    def sync(self, above: int, done: Done) -> None:
        """Waits for the bytes of a file: for all of its disk at once if the system can do that."""
        assert done.made is not None
        if done.made.synced:
            return
        device = os.fstat(above).st_dev
        if device not in self.disks:
            try:
                self.disks[device] = files.sync_disk(above)
            except OSError as error:
                self.disks[device] = error
        found = self.disks[device]
        if isinstance(found, OSError):
            raise OSError(found.errno, found.strerror)
        if not found:
            number = os.open(done.made.part, inside.FILE, dir_fd=above)
            try:
                os.fsync(number)
            finally:
                os.close(number)

    def sync_names(self, above: int, done: Done) -> None:
        """Waits for the names of a folder, once."""
        if above not in self.named:
            try:
                inside.sync_number(above)
                self.named[above] = None
            except OSError as error:
                self.named[above] = error
        found = self.named[above]
        if found is not None:
            raise OSError(found.errno, found.strerror)


def _name(settings: Settings, above: int, done: Done) -> None:
    """Gives a file its name, which no other file loses by it."""
    made = done.made
    assert made is not None
    name = os.path.basename(made.path)
    if not files.give_name(above, made.part, name, made.replace):
        files.remove(made.part, above)
        done.made = None
        if settings.verb == "pack":
            raise Stop("failed", "packed name is taken", "another file has the name of the packed file", "run fzbatch again, which compares it")
        tries.is_the_plain_file(settings, done.task, done.result)
    elif settings.verb == "pack":
        it = os.stat(name, dir_fd=above, follow_symlinks=False)
        done.result.packed_size, done.result.packed_mtime = it.st_size, it.st_mtime_ns
