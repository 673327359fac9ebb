"""What a task asks of fz, and what the answers mean."""
from __future__ import annotations

import os
import unicodedata
from contextlib import contextmanager
from typing import Iterator, Optional

from ..program import Outcome
from . import advice, calls, expansion, files, inside, names
from .messages import CAME_BACK, VERIFIED, Result, Settings, Task
from .rooms import Rooms
from .steps import Call, Steps, looked

WRONG_OPTIONS = "wrong options"
# A run of fz may take so long, and a second more for each million bytes.
LEAST_SECONDS = 300.0
BYTES_OF_A_SECOND = 1e6
# So many HDUs with a wrong checksum are named of a file.
NAMED = 20


class Stop(Exception):
    """Ends a task with an outcome, its cause, the line that says it, and what to do."""

    def __init__(self, outcome: str, cause: str, line: str, what: str, kind: int = 0):
        super().__init__(line)
        self.outcome, self.cause, self.line, self.what, self.kind = outcome, cause, line, what, kind


@contextmanager
def opened(settings: Settings, task: Task) -> Iterator[int]:
    """The packed file of a task, open; `Stop` if it is not there."""
    try:
        file = inside.file(settings.packed, names.packed_name(task.path))
        number = file.__enter__()
    except FileNotFoundError:
        raise Stop("lost", "packed file is lost", "the packed file is not there", advice.LOST) from None
    try:
        yield number
    finally:
        file.__exit__(None, None, None)


def wrong_lines(ended: Outcome) -> str:
    """The lines of `fz verify` about wrong checksums: the first of them, and how many more there are."""
    found = [it for it in ended.lines if "wrong" in it]
    more = [f"and {len(found) - NAMED:,} more HDUs"] if len(found) > NAMED else []
    return "; ".join(found[:NAMED] + more)


def is_the_plain_file(settings: Settings, task: Task, result: Result) -> None:
    """A plain file that is there is never touched: it is the file that was packed, or is named."""
    with inside.file(settings.plain, task.path) as number:
        found = files.look_at(number)
    with inside.folder(settings.plain, os.path.dirname(task.path)) as above:
        spelled = _is_alone(above, os.path.basename(task.path))
    if found.sha256 != task.sha256 or not spelled:
        said = "a plain file is there, and is another than the one that was packed"
        said += "" if spelled else " (its name has other letters: this disk ignores case)"
        raise Stop("changed", "another plain file is there", said, "decide which one is right: move the plain file away to restore the packed one")
    result.outcome = "there"


def may_replace(root: bytes, path: bytes, task: Task) -> None:
    """Raises `Stop` if the packed file that has this path is also that of another file, by its name or by that of a folder."""
    parts = path.split(b"/")
    if task.shared or not all(_is_listed(root, b"/".join(parts[:it]), parts[it]) for it in range(len(parts))):
        said = f"{names.shown(path)} is also the packed file of another file of the manifest (does the disk ignore case?)"
        raise Stop("failed", "packed name is taken", said, "give the plain file another name, or pack to a disk that tells these names apart")


def _is_listed(root: bytes, folder: bytes, name: bytes) -> bool:
    with inside.folder(root, folder) as above:
        return _is_alone(above, name)


def _is_alone(above: int, name: bytes) -> bool:
    """Whether the folder lists this very name, if the disk may find files by names that it does not list."""
    text = os.fsdecode(name)
    others = {text.swapcase(), *(unicodedata.normalize(form, text) for form in ("NFC", "NFD") if not any("\ud800" <= it <= "\udfff" for it in text))} - {text}
    try:
        here = os.stat(name, dir_fd=above, follow_symlinks=False)
    except FileNotFoundError:
        return True
    for it in others:
        try:
            found = os.stat(it, dir_fd=above, follow_symlinks=False)
        except OSError:
            continue
        if (found.st_dev, found.st_ino) == (here.st_dev, here.st_ino):
            return inside.is_spelled(above, name)
    return True


class Tries:
    """The calls of fz for one task, each of them a step (`steps`)."""

    def __init__(self, settings: Settings, task: Task, result: Result, scratch: Rooms):
        self.settings, self.task, self.result, self.scratch = settings, task, result, scratch
        self.program = calls.shared.of(settings.program)
        self.made = b""
        self.is_verified = False
        self._length: Optional[int] = None

    def unpacked(self, number: int, now: files.Looked) -> int:
        """About how long the packed file of this task is when it is unpacked, as its headers claim."""
        if self._length is None:
            self._length = expansion.unpacked(number, now.size)
        return self._length

    def believed(self, number: int, now: files.Looked) -> int:
        """The same for a limit on time, which no claim of a header makes endless."""
        return expansion.believed(self.unpacked(number, now), now.size)

    def as_it_was(self, number: int) -> "Steps[files.Looked]":
        """Reads the open packed file of the task. `Stop` if it is not the one that was made."""
        if files.is_longer(number, self.task.packed_size):
            raise Stop("damaged", "packed file changed", advice.LONGER, advice.ANOTHER_COPY)
        now = yield from looked(number)
        self.result.packed_size, self.result.packed_mtime = now.size, now.mtime
        if now.sha256 != self.task.packed_sha256:
            ended = yield from self.run("verify", (number,), now.size)
            said = ended.line if ended.status >= 2 else wrong_lines(ended) or "its tiles and checksums are right"
            raise Stop("damaged", "packed file changed", f"the packed file is another than the one that was made (fz verify: {said})", advice.ANOTHER_COPY)
        self.result.warning = expansion.warning(self.unpacked(number, now), now.size)
        return now

    # the plain file

    def plain_sums(self, source: int, before: files.Looked) -> "Steps[None]":
        """The checksums of the plain file are right before it is packed, or are accepted as they are, which the manifest keeps."""
        if not before.has_sums:
            return
        ended = yield from self.run("verify", (source,), before.size)
        self.is_verified = ended.status == 0
        if ended.status != 1:
            # what fz refuses is refused by `fz pack` too, with its own words
            return
        self.result.sums_line = wrong_lines(ended)
        if not self.settings.accept_wrong_sums:
            raise Stop("failed", "wrong checksum in the plain file", self.result.sums_line, advice.STATUSES[1])
        self.result.wrong_sums = 1

    def pack(self, source: int, above: int, part: bytes, before: files.Looked) -> "Steps[tuple[int, files.Looked, bool]]":
        """Packs into a new file of an open folder, and gives it, open and read, and whether fz has synced it.

        A small file is made in memory, without a sync, and copied: what is verified then is the copy.
        """
        small = self.scratch.is_small(before.size)
        if small:
            self.made = self.scratch.name(before.size, b"fz")
        target = self.made if small else os.path.join(self.program.second, part)
        where = os.path.dirname(self.made) if small else os.path.join(self.settings.packed, os.path.dirname(self.task.path))
        ended = yield from self.run("pack", (source, above), before.size, *self.settings.options, out=target, where=where)
        self._expect(ended, "pack")
        number, found = yield from self._taken(above, part, small)
        return number, found, not small

    def _taken(self, above: int, part: bytes, small: bool) -> "Steps[tuple[int, files.Looked]]":
        """What fz has made, in the folder where it belongs, open and read."""
        if not small:
            number = os.open(part, inside.FILE, dir_fd=above)
            return number, (yield from looked(number))
        found = files.copy_into(above, part, self.made)
        files.remove(self.made)
        return found

    def check_packed(self, number: int, after: files.Looked, source: int, before: files.Looked) -> "Steps[None]":
        """The packed file is right: its tiles decode, and its checksums are those of its bytes."""
        if after.sha256 == before.sha256 and self.is_verified:
            # nothing was packed, and these very bytes were verified
            return
        ended = yield from self.run("verify", (number,), max(before.size, after.size))
        if ended.status == 1 and not self.result.wrong_sums:
            wrong = yield from self.run("verify", (source,), before.size)
            if wrong.status != 1:
                raise Stop("failed", "packed file is wrong", f"fz verify of the packed file: {ended.line}", "run fzbatch again; if it happens again, report it with the file")
            self.result.sums_line = wrong_lines(wrong)
            if not self.settings.accept_wrong_sums:
                raise Stop("failed", "wrong checksum in the plain file", self.result.sums_line, advice.STATUSES[1])
            self.result.wrong_sums = 1
        elif ended.status != 1:
            self._expect(ended, "verify")
            if before.has_sums and not self.is_verified and not self.result.wrong_sums:
                raise Stop("failed", "checksums of the plain file are not known", "fz verify of the plain file ended otherwise than fz pack", "report it with the file")
        if self.settings.compare or self.result.wrong_sums:
            yield from self.comes_back(number, after, before.sha256)

    # the packed file

    def unpack(self, number: int, now: files.Looked, above: int, part: bytes) -> "Steps[tuple[int, files.Looked, bool]]":
        """Unpacks into a new file of an open folder, and gives it, open and read, and whether fz has synced it."""
        small = self.scratch.is_small(max(now.size, self.task.size or 0))
        if small:
            self.made = self.scratch.name(self.task.size or now.size, b"out")
        target = self.made if small else os.path.join(self.program.second, part)
        where = os.path.dirname(self.made) if small else os.path.join(self.settings.plain, os.path.dirname(self.task.path))
        ended = yield from self.run("unpack", (number, above), self.believed(number, now), out=target, where=where)
        self._expect(ended, "unpack")
        number, found = yield from self._taken(above, part, small)
        return number, found, not small

    def comes_back(self, number: int, now: files.Looked, sha256: Optional[str], with_sums: bool = False) -> "Steps[files.Looked]":
        """Unpacks into the scratch folder, and keeps nothing. `with_sums` also verifies the checksums of what came back."""
        again = self.scratch.name(self.unpacked(number, now), b"again")
        where = os.path.dirname(again)
        try:
            ended = yield from self.run("unpack", (number,), self.believed(number, now), out=again, where=where)
            self._expect(ended, "unpack")
            opened = os.open(again, inside.FILE)
            try:
                found = yield from looked(opened)
                if sha256 is not None and found.sha256 != sha256:
                    raise Stop("differs", "unpacked file differs from the original", advice.DIFFERS, "keep the plain file. " + advice.ANOTHER_COPY)
                if with_sums:
                    yield from self.restored_sums(opened, found)
                self.result.tests |= CAME_BACK if sha256 is not None else 0
            finally:
                os.close(opened)
        except OSError as error:
            raise OSError(error.errno, f"{error.strerror} (for temporary files, in {names.shown(where)}; TMPDIR names another folder)") from error
        finally:
            files.remove(again)
        return found

    def restored_sums(self, number: int, found: files.Looked) -> "Steps[None]":
        """The checksums that the images had before they were packed are those of the images that come back."""
        ended = yield from self.run("verify", (number,), found.size)
        self.result.sums_line = wrong_lines(ended) if ended.status == 1 else ""
        if ended.status == 1 and not (self.task.wrong_sums or self.settings.accept_wrong_sums):
            raise Stop("differs", "wrong checksum in the restored file", f"{advice.WRONG_INSIDE}: {wrong_lines(ended)}", advice.WRONG_RESTORED)
        self.result.wrong_sums = int(ended.status == 1)
        if ended.status != 1:
            self._expect(ended, "verify")

    def expect_verified(self, number: int, now: files.Looked) -> "Steps[None]":
        """`fz verify` finds all checksums right, or those wrong that were accepted."""
        ended = yield from self.run("verify", (number,), self.believed(number, now))
        if not (ended.status == 1 and (self.task.wrong_sums or self.settings.accept_wrong_sums)):
            self._expect(ended, "verify")
        self.result.tests |= VERIFIED

    def sums_are_right(self, number: int, now: files.Looked) -> "Steps[None]":
        """All checksums are right: those of the packed file, and those of the images before they were packed."""
        yield from self.expect_verified(number, now)
        if now.has_image_sums:
            yield from self.comes_back(number, now, self.task.sha256, with_sums=True)

    # calls

    def run(self, verb: str, numbers: "tuple[int, ...]", size: int, *options: str, out: bytes = b"", where: bytes = b"") -> "Steps[Outcome]":
        """Calls fz on an open file, with the limits on memory and on time."""
        words: "list[str | bytes]" = [verb, *options, *(("--memory", str(self.settings.memory)) if self.settings.memory else ()), "--", self.program.first]
        limit = self.settings.time_limit or LEAST_SECONDS + size / BYTES_OF_A_SECOND
        try:
            ended: Outcome = yield Call(words + [out] if out else words, numbers, limit)
        except calls.OverTime as error:
            raise Stop("failed", f"fz {verb}: over time", f"fz {verb}: {error}", advice.OVER_TIME) from error
        if ended.status == 5 and where:
            self._no_room(where)
        return ended

    def _no_room(self, folder: bytes) -> None:
        """After a write fault: says what the system says when it is asked for the same."""
        probe = os.path.join(folder, names.part_name(self.settings.token, self.task.number) + b".probe")
        try:
            number = os.open(probe, os.O_WRONLY | os.O_CREAT | os.O_EXCL | os.O_NOFOLLOW, 0o600)
            with os.fdopen(number, "wb") as it:
                it.write(bytes(65536))
                it.flush()
                os.fsync(it.fileno())
        finally:
            files.remove(probe)
        free = os.statvfs(folder)
        if free.f_bavail * free.f_frsize < (self.result.size or 0):
            raise OSError(advice.NO_SPACE, os.strerror(advice.NO_SPACE))

    def _expect(self, ended: Outcome, verb: str) -> None:
        if ended.status == 0:
            return
        root, path = (self.settings.plain, self.task.path) if verb == "pack" else (self.settings.packed, names.packed_name(self.task.path))
        # what this very file says more comes in the place of what is said of all files of its kind
        line, what = advice.of_file(ended, verb, os.path.join(root, path))
        what = what or advice.of_outcome(ended)
        if ended.status < 0:
            raise Stop("killed", f"fz {verb}: {ended.signal}", f"fz {verb} was ended by {ended.signal}", what)
        if ended.status == 3:
            kind, name = advice.kind_of(ended.line)
            raise Stop("refused", f"{kind} {name}", f"fz {verb}: {line or ended.line}", what, kind)
        said = line or ended.line or ended.errors.strip() or f"status {ended.status}"
        if ended.status == 2:
            raise Stop("failed", WRONG_OPTIONS, f"fz {verb}: {said}", what)
        head = ended.line or said
        if ended.status == 1:
            head = said = wrong_lines(ended)
        raise Stop("failed", f"fz {verb}: {head.split(':')[0]}", f"fz {verb}: {said}", what)
