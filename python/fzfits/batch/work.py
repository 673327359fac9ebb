"""One file: packed, verified, compared or restored. It calls fz, and touches the plain and the packed file of its task only.

fz is given open files and folders in the place of names (`calls`), so it works on what was looked at here. A small file is made in
memory (`rooms`). What is made has a name of its own until it is whole, verified, and on the disk: `finish` waits for the disk once
for many files, and only then gives them their names.
"""
from __future__ import annotations

import os
import time

from . import advice, calls, files, inside, names, tries
from .finishing import NO_PROGRAM, Done, Made, finish, guarded, of_plain, plain_file
from .messages import CAME_BACK, Result, Settings, Task
from .rooms import Rooms
from .steps import Steps, alone, looked
from .tries import WRONG_OPTIONS, Stop

__all__ = ["NO_PROGRAM", "WRONG_OPTIONS", "Done", "do", "finish", "guarded", "identity_of", "prepare"]


def identity_of(path: str) -> str:
    """The SHA-256 of the program, which says which one packed a file."""
    return files.look(os.fsencode(os.path.realpath(path))).sha256


def do(settings: Settings, task: Task) -> Result:
    """Does one task, and waits for the disk."""
    with files.private():
        with_rooms = Rooms(settings.packed, settings.token)
        try:
            done = alone(prepare(settings, task, with_rooms), calls.shared.of(settings.program))
            finish(settings, [done])
        finally:
            with_rooms.close()
    return done.result


def prepare(settings: Settings, task: Task, scratch: Rooms) -> "Steps[Done]":
    """Does one task up to the sync. Nothing is raised for the file's sake: the result says what happened."""
    began = time.monotonic()
    done = Done(task, Result(task.path, settings.verb))
    with guarded(done.result):
        yield from _Work(settings, task, done, scratch).do()
    done.result.seconds = time.monotonic() - began
    return done


class _Work:
    """One task while it is done."""

    def __init__(self, settings: Settings, task: Task, done: Done, scratch: Rooms):
        self.settings, self.task, self.done, self.result, self.scratch = settings, task, done, done.result, scratch
        self.packed_path = names.packed_name(task.path)
        self.fz = tries.Tries(settings, task, done.result, scratch)

    def do(self) -> "Steps[None]":
        yield from getattr(self, self.settings.verb)()

    # the four verbs

    def pack(self) -> "Steps[None]":
        with plain_file(self.settings, self.task) as source:
            # before it is read: a large file takes long, and may change meanwhile
            self.result.looked = time.time_ns()
            with of_plain():
                before = yield from looked(source)
            self.result.size, self.result.mtime, self.result.sha256, self.result.mode = before.size, before.mtime, before.sha256, before.mode
            known = self.task.sha256
            if inside.state(self.settings.packed, self.packed_path) is None:
                if known not in (None, before.sha256) and not self.settings.replace:
                    raise Stop("changed", "packed file is lost, and plain file changed", advice.BOTH_CHANGED, advice.LOST_AND_CHANGED)
                yield from self._make_packed(source, before)
            elif known is None:
                yield from self._adopt(source, before)
            elif known == before.sha256 and (yield from self._is_what_was_made()):
                self.result.outcome = "there"
            elif self.settings.replace:
                yield from self._make_packed(source, before, replace=True)
            elif known == before.sha256:
                raise Stop("damaged", "packed file changed", "the packed file is another than the one that was made", advice.UPDATE)
            elif not (self.settings.after_update and (yield from self._was_updated(source, before))):
                raise Stop("changed", "plain file changed", "the plain file is another than the one that was packed", advice.ANOTHER_PLAIN)

    def verify(self) -> "Steps[None]":
        with tries.opened(self.settings, self.task) as number:
            now = yield from self.fz.as_it_was(number)
            if not self.settings.sha256_only:
                yield from self.fz.sums_are_right(number, now)
        self.result.outcome = "right"

    def compare(self) -> "Steps[None]":
        with tries.opened(self.settings, self.task) as number:
            now = yield from self.fz.as_it_was(number)
            with of_plain():
                plain = inside.state(self.settings.plain, self.task.path)
            if plain is not None:
                with plain_file(self.settings, self.task) as source, of_plain():
                    found = yield from looked(source)
                if found.sha256 != self.task.sha256:
                    raise Stop("changed", "plain file changed", "the plain file is another than the one that was packed", advice.ANOTHER_PLAIN)
            yield from self.fz.comes_back(number, now, self.task.sha256)
        self.result.outcome = "same" if plain is not None else "unpacked"
        if plain is None and not self.settings.without_plain:
            said = "the plain file is gone; the packed file restores it, by its SHA-256 in the manifest"
            raise Stop("gone", "plain file is gone", said, advice.WITHOUT_PLAIN)

    def restore(self) -> "Steps[None]":
        if inside.state(self.settings.plain, self.task.path) is not None:
            tries.is_the_plain_file(self.settings, self.task, self.result)
            return
        with tries.opened(self.settings, self.task) as number:
            now = yield from self.fz.as_it_was(number)
            modes = inside.with_rights_of(self.settings.packed)
            with inside.folder(self.settings.plain, os.path.dirname(self.task.path), modes) as above:
                yield from self._make_plain(number, now, above)
        self.result.outcome = "restored"

    # what they are made of

    def _is_what_was_made(self) -> "Steps[bool]":
        with inside.file(self.settings.packed, self.packed_path) as number:
            if files.is_longer(number, self.task.packed_size):
                return False
            now = yield from looked(number)
        self.result.packed_size, self.result.packed_mtime, self.result.packed_sha256 = now.size, now.mtime, now.sha256
        return now.sha256 == self.task.packed_sha256

    def _part(self) -> bytes:
        return names.part_name(self.settings.token, self.task.number)

    def _make_packed(self, source: int, before: files.Looked, replace: bool = False) -> "Steps[None]":
        yield from self.fz.plain_sums(source, before)
        modes = inside.with_rights_of(self.settings.plain)
        with inside.folder(self.settings.packed, os.path.dirname(self.packed_path), modes) as above:
            if replace:
                tries.may_replace(self.settings.packed, self.packed_path, self.task)
            part = self._part()
            try:
                number, after, synced = yield from self.fz.pack(source, above, part, before)
                try:
                    yield from self.fz.check_packed(number, after, source, before)
                    if not before.is_still(inside.state(self.settings.plain, self.task.path)):
                        raise Stop("failed", "plain file is being written", "the plain file changed while it was packed", "run fzbatch again when nothing writes it")
                    files.set_rights(number, before.mode & 0o666)
                finally:
                    os.close(number)
            except BaseException:
                files.remove(part, above)
                raise
        self._note_packed(after, before)
        self.done.made = Made(self.settings.packed, self.packed_path, part, replace, synced)

    def _note_packed(self, after: files.Looked, before: files.Looked) -> None:
        self.result.packed_size, self.result.packed_mtime, self.result.packed_sha256 = after.size, after.mtime, after.sha256
        self.result.outcome = "copied" if after.sha256 == before.sha256 else "packed"

    def _adopt(self, source: int, before: files.Looked) -> "Steps[None]":
        """There is a packed file, of a killed run or of another packer: it is accepted if the plain file comes back from it."""
        yield from self.fz.plain_sums(source, before)
        try:
            after = yield from self._restores(before)
        except (Stop, OSError) as error:
            if self.settings.replace:
                yield from self._make_packed(source, before, replace=True)
                return
            said = error.line if isinstance(error, Stop) else error.strerror
            said = f"{names.shown(self.packed_path)} is there and is not this file packed ({said})"
            raise Stop("failed", "packed name is taken", said, "find out what it is; move it away, or let fzbatch pack --update replace it") from error
        self._note_packed(after, before)

    def _was_updated(self, source: int, before: files.Looked) -> "Steps[bool]":
        """Whether the packed file is already that of the changed plain file, as after an update that was killed."""
        try:
            after = yield from self._restores(before)
        except (Stop, OSError):
            return False
        if after.sha256 == self.task.packed_sha256:
            return False
        yield from self.fz.plain_sums(source, before)
        self._note_packed(after, before)
        return True

    def _restores(self, before: files.Looked) -> "Steps[files.Looked]":
        with inside.file(self.settings.packed, self.packed_path) as number:
            after = yield from looked(number)
            yield from self.fz.comes_back(number, after, before.sha256)
            yield from self.fz.expect_verified(number, after)
        return after

    def _make_plain(self, number: int, now: files.Looked, above: int) -> "Steps[None]":
        part = self._part()
        try:
            made, after, synced = yield from self.fz.unpack(number, now, above, part)
            try:
                if after.sha256 != self.task.sha256:
                    raise Stop("differs", "unpacked file differs from the original", advice.DIFFERS, advice.ANOTHER_COPY)
                self.result.tests |= CAME_BACK
                if self.task.mtime is not None:
                    os.utime(made, ns=(self.task.mtime, self.task.mtime))
                if self.task.mode is not None:
                    files.set_rights(made, self.task.mode & 0o777)
            finally:
                os.close(made)
        except BaseException:
            files.remove(part, above)
            raise
        self.done.made = Made(self.settings.plain, self.task.path, part, False, synced)
