"""One file that is packed beside itself, or restored beside itself: it is made under another name, compared, and synced.

What is there is never replaced. A file is removed by `remove` only, after the other one has its name, was compared with it byte for
byte, and is on the disk.
"""
from __future__ import annotations

import json
import os
import time
from contextlib import suppress
from dataclasses import asdict, dataclass, field
from typing import List, Optional

from ...headers import headers
from ...program import Outcome
from .. import advice, files, inside, lock, names
from ..inside import is_there, opened_in
from ..rooms import Rooms
from ..tries import wrong_lines
from . import known
from .alone import hdus_text
from .calling import Fz, Undone
from .messages import Asked
from .rows import GRAIN, Plain, Row

OTHER = "packed name is taken"
WRITTEN = ("plain file is being written", "the plain file changed while it was packed", "run fzbatch again when nothing writes it")


@dataclass
class Place:
    """A plain file and the packed one beside it: what the manifest says of them, if it does.

    `plain` is what it has noted when the packed file was made, and `adopted` is the row of the plain file itself.
    """

    folder: bytes
    name: bytes
    number: int
    packed_sha256: str = ""
    plain: Optional[Plain] = None
    next_sha256: str = ""
    adopted: Optional[Row] = None

    @property
    def packed_name(self) -> bytes:
        """The name of the packed file."""
        return names.packed_name(self.name)

    def path(self, name: bytes) -> bytes:
        """The path of a name of its folder."""
        return self.folder + b"/" + name if self.folder else name


@dataclass
class Did:
    """What became of it. `outcome` is packed, there, plain (it has nothing to pack), restored, or not done."""

    place: Place
    outcome: str = "not done"
    cause: str = ""
    line: str = ""
    advice: str = ""
    error: Optional[int] = None
    plain: Optional[files.Looked] = None
    packed: Optional[files.Looked] = None
    began: int = field(default_factory=time.time_ns)
    looked: int = 0
    hdus: str = "[]"
    # what fz verify says of the plain file, if a wrong checksum of it was accepted
    wrong_sums: str = ""

    @property
    def good(self) -> bool:
        """Whether both files are there, and each is the other one."""
        return self.outcome in ("packed", "there", "restored")

    def made_of(self) -> str:
        """What the manifest keeps of the plain file."""
        assert self.plain is not None
        return json.dumps(asdict(Plain(self.plain.sha256, self.plain.size, self.plain.mtime, self.plain.mode)))


class InPlace:
    """One file while it is worked on."""

    def __init__(self, asked: Asked, place: Place, room: Rooms, options: "List[str]", accept: bool):
        self.asked, self.place, self.room, self.options, self.accept = asked, place, room, options, accept
        self.fz = Fz(asked, room)
        self.part = names.part_name(asked.token, place.number)
        self.did = Did(place)

    def do(self, verb: str) -> Did:
        """Packs or restores; nothing is raised for the file's sake."""
        did = self.did
        try:
            getattr(self, verb)()
        except Undone as error:
            did.cause, did.line, did.advice, did.error = error.cause, error.line, error.what, error.error
        except inside.NotInside as error:
            did.cause, did.line, did.advice = "a link is in the way", error.strerror or str(error), advice.NO_LINKS
        except OSError as error:
            did.cause = did.line = error.strerror or str(error)
            did.advice, did.error = advice.of_errno(error.errno or 0), error.errno
        except Exception as error:  # pylint: disable=broad-except
            did.cause, did.line, did.advice = "fault of fzbatch", f"{type(error).__name__}: {error}", "report it with the file"
        did.cause, did.line, did.advice = map(names.told, (did.cause, did.line, did.advice))
        if did.cause:
            did.outcome = "not done"
        return did

    # the two ways

    def pack(self) -> None:
        """Makes the packed file beside a plain one."""
        with inside.folder(self.asked.folder, self.place.folder) as above:
            source = opened_in(above, self.place.name)
            try:
                before = self.did.plain = files.look_at(source)
                known.check_plain(self.place, before, self.accept)
                if is_there(above, self.place.packed_name):
                    self._sums(source, before)
                    self._accept(above, before)
                    return
                known.check_lost(self.place, before)
                if not any(it.is_packable for it in headers(f"/proc/self/fd/{source}")):
                    self._expect("list", source, before.size)
                    self.did.outcome = "plain"
                    return
                self._sums(source, before)
                self._make(above, source, before)
            finally:
                os.close(source)

    def restore(self) -> None:
        """Makes the plain file beside a packed one, which is the one that the manifest knows."""
        wanted = self.place.plain
        assert wanted is not None
        with inside.folder(self.asked.folder, self.place.folder) as above:
            if not is_there(above, self.place.packed_name) and is_there(above, self.place.name):
                # a run that was killed removed the packed file, and did not say so
                self._same(above, wanted)
                return
            source = opened_in(above, self.place.packed_name)
            try:
                now = self.did.packed = files.look_at(source)
                self.did.looked = self.did.began
                if now.sha256 != self.place.packed_sha256:
                    raise Undone("packed file changed", "the packed file is another than the one that was made", advice.ANOTHER_COPY)
                self.fz.check_growth(source, wanted.size)
                if is_there(above, self.place.name):
                    self._same(above, wanted)
                    # the manifest may be that of others, and the packed file be removed
                    self._restores(source, max(now.size, wanted.size), wanted.sha256)
                    return
                try:
                    self._expect("unpack", source, max(now.size, wanted.size), out=self.part, above=above)
                    after = self._finished(above, wanted.mode & 0o777, wanted.mtime)
                    if after.sha256 != wanted.sha256:
                        raise Undone("unpacked file differs from the original", "what comes back is another file than the one that was packed", advice.ANOTHER_COPY)
                    self._name(above, self.place.name)
                finally:
                    files.remove(self.part, above)
                self.did.plain, self.did.outcome = after, "restored"
            finally:
                os.close(source)

    def remove(self, name: bytes) -> bool:
        """Removes one of the two files, if both are still the ones that were compared. False if one is not."""
        did, place = self.did, self.place
        assert did.plain is not None and did.packed is not None
        with inside.folder(self.asked.folder, place.folder) as above, suppress(FileNotFoundError):
            if not lock.takes(above):
                return False
            for one, looked in ((place.name, did.plain), (place.packed_name, did.packed)):
                it = os.stat(one, dir_fd=above, follow_symlinks=False)
                if (it.st_ino, it.st_size, it.st_mtime_ns) != (looked.inode, looked.size, looked.mtime):
                    return False
                # a name that was given changed the ctime of the other one
                if one == name and not (looked.is_still(it) and self._is_sure(above, one, looked)):
                    return False
            inside.sync_number(above)
            files.remove(name, above)
            inside.sync_number(above)
            return True
        return False

    def _is_sure(self, above: int, name: bytes, looked: files.Looked) -> bool:
        """Whether a file has the bytes that it had: it is read again if a later change may have left its times the same."""
        if looked.mtime <= self.did.began - GRAIN:
            return True
        number = opened_in(above, name)
        try:
            return files.look_at(number).sha256 == looked.sha256
        finally:
            os.close(number)

    # what they are made of

    def _expect(self, verb: str, source: "int | bytes", size: int, *options: str, out: bytes = b"", above: Optional[int] = None) -> Outcome:
        ended = self.fz.run(verb, source, size, *options, out=out, above=above)
        if ended.status == 3:
            kind, name = advice.kind_of(ended.line)
            raise Undone(f"{kind} {name}", f"fz {verb}: {ended.line}", advice.of_refusal(ended.line))
        if ended.status == 1 and not self.accept:
            raise Undone("wrong checksum", f"fz {verb}: {wrong_lines(ended)}", advice.STATUSES[1])
        return ended

    def _sums(self, source: int, before: files.Looked) -> None:
        """The checksums of the plain file are right, or are accepted."""
        if not before.has_sums:
            return
        ended = self.fz.run("verify", source, before.size)
        if ended.status == 1 and not self.accept:
            raise Undone("wrong checksum in the plain file", wrong_lines(ended), advice.STATUSES[1])
        self.did.wrong_sums = wrong_lines(ended) if ended.status == 1 else ""

    def _make(self, above: int, source: int, before: files.Looked) -> None:
        try:
            self._expect("pack", source, before.size, *self.options, out=self.part, above=above)
            after = self._finished(above, before.mode & 0o666, before.mtime)
            made = opened_in(above, self.part)
            try:
                self._comes_back(made, before)
            finally:
                os.close(made)
            if not before.is_still(os.stat(self.place.name, dir_fd=above, follow_symlinks=False)):
                raise Undone(*WRITTEN)
            self._name(above, self.place.packed_name)
        finally:
            files.remove(self.part, above)
        self.did.packed, self.did.outcome = after, "packed"

    def _comes_back(self, number: int, before: files.Looked) -> None:
        """The packed file is right, and what comes back is the plain file, byte for byte."""
        self.fz.check_growth(number, before.size)
        ended = self._expect("verify", number, before.size)
        self._restores(number, before.size, before.sha256)
        self.did.looked = self.did.began
        self.did.hdus = hdus_text(number, ended)

    def _restores(self, number: int, size: int, sha256: str) -> None:
        """Unpacks an open packed file into the folder for temporary files, and compares what comes back."""
        again = self.room.name(size, b"again")
        try:
            self._expect("unpack", number, size, out=again)
            if files.look(again).sha256 != sha256:
                raise Undone("unpacked file differs from the original", "what comes back is another file than the one that was packed", "keep the plain file, and report it")
        finally:
            files.remove(again)

    def _accept(self, above: int, before: files.Looked) -> None:
        """A packed file is there, of a killed run or of another packer: it is taken if the plain file comes back from it."""
        made = opened_in(above, self.place.packed_name)
        try:
            after = files.look_at(made)
            known.check_there(self.place, before, after)
            try:
                self._comes_back(made, before)
            except Undone as error:
                raise Undone(OTHER, f"{names.shown(self.place.packed_name)} is there, and is not this file packed ({error.line})", "find out what it is, and move it away") from error
            os.fsync(made)
        finally:
            os.close(made)
        inside.sync_number(above)
        self.did.packed, self.did.outcome = after, "there"

    def _same(self, above: int, wanted: Plain) -> None:
        """A plain file is there: it is the one that was packed, or is named."""
        number = opened_in(above, self.place.name)
        try:
            found = files.look_at(number)
            if found.sha256 != wanted.sha256:
                raise Undone("another plain file is there", "a plain file is there, and is another than the one that was packed", "decide which one is right, and move the other one away")
            os.fsync(number)
        finally:
            os.close(number)
        inside.sync_number(above)
        self.did.plain, self.did.outcome = found, "there"

    def _finished(self, above: int, mode: int, mtime: int) -> files.Looked:
        """Gives what was made its time and its rights, waits until the disk has it, and reads it."""
        number = opened_in(above, self.part)
        try:
            os.utime(number, ns=(mtime, mtime))
            files.set_rights(number, mode)
            os.fsync(number)
            return files.look_at(number)
        finally:
            os.close(number)

    def _name(self, above: int, name: bytes) -> None:
        if not files.give_name(above, self.part, name):
            raise Undone(OTHER, f"{names.shown(name)} is there by now", "run fzbatch again, which compares it")
        inside.sync_number(above)
