"""`fzbatch retile`: packed files of any packer as `fz` packs them, in other tiles, in the place of the old ones, if all their pixels come back.

A file is packed again if `fz` decodes it as a whole and no checksum of it is wrong. The new file is made under another name; both are
unpacked, and what comes back has to be the same, byte for byte, before the old one is replaced. Whether that is what its packer was
given is not known, and said.
"""
from __future__ import annotations

import os
from typing import Iterator, List

from ...headers import headers
from .. import advice, files, inside
from ..inside import opened_in
from ..opening import BadManifest
from ..rooms import Rooms
from ..tries import wrong_lines
from . import only_packed
from .alone import hdus_text
from .beside import Beside
from .calling import Undone
from .in_place import Did, InPlace, Place
from .messages import Asked
from .rows import PART, RIGHT, Finding, Row

# It has what the file that it stands for has not.
ONLY = "something would be lost"


class Retiled(InPlace):
    """One packed file while it is packed again."""

    def retile(self) -> None:
        """Makes the new file beside the old one. `put_in_place` gives it the name."""
        with inside.folder(self.asked.folder, self.place.folder) as above:
            source = opened_in(above, self.place.name)
            try:
                before = self.did.plain = files.look_at(source)
                if before.sha256 == self.place.next_sha256:
                    # a run that was killed gave it the name, and did not say so
                    ended = self._expect("verify", source, before.size)
                    self.did.looked, self.did.hdus = self.did.began, hdus_text(source, ended)
                    self.did.packed, self.did.outcome = before, "there"
                    return
                if before.sha256 != self.place.packed_sha256:
                    raise Undone("changed", "it is another file than the one that was adopted", "fzbatch adopt names what is wrong with it")
                self.fz.check_growth(source)
                self._expect("verify", source, before.size)
                try:
                    self._expect("retile", source, before.size, *self.options, out=self.part, above=above)
                    after = self._finished(above, before.mode & 0o666, before.mtime)
                    self.did.outcome = "there" if after.sha256 == before.sha256 else "retiled"
                    if self.did.outcome == "retiled":
                        self._same_pixels(above, source)
                        self.did.packed = after
                finally:
                    if self.did.packed is None:
                        files.remove(self.part, above)
            finally:
                os.close(source)

    def put_in_place(self) -> bool:
        """Gives the new file the name of the old one, if that is still the one that was packed again. False if it is not."""
        assert self.did.plain is not None
        with inside.folder(self.asked.folder, self.place.folder) as above:
            try:
                if not self.did.plain.is_still(os.stat(self.place.name, dir_fd=above, follow_symlinks=False)):
                    return False
                files.give_name(above, self.part, self.place.name, replace=True)
                inside.sync_number(above)
            finally:
                files.remove(self.part, above)
        return True

    def _same_pixels(self, above: int, source: int) -> None:
        made = opened_in(above, self.part)
        try:
            ended = self._expect("verify", made, os.fstat(made).st_size)
            both = [self._unpacked(it, it == source) for it in (source, made)]
            if both[0] != both[1]:
                raise Undone("unpacked file differs from the original", "the file that was packed again restores another one", "the old file stays; report it")
            self.did.looked, self.did.hdus = self.did.began, hdus_text(made, ended)
        finally:
            os.close(made)

    def _unpacked(self, number: int, is_old: bool) -> str:
        out = self.room.name(os.fstat(number).st_size, b"again")
        try:
            self._expect("unpack", number, os.fstat(number).st_size, out=out)
            checked = self.fz.run("verify", out, os.fstat(number).st_size)
            if checked.status == 1:
                raise Undone("image checksum is wrong", wrong_lines(checked), "fetch the file from another copy")
            lost = only_packed.lost(list(headers(f"/proc/self/fd/{number}")), list(headers(out))) if is_old else ""
            if lost:
                raise Undone(ONLY, f"{lost}, which the file that it stands for has not, and a new one would not have", "the old file stays; if that may be lost, fz retile makes another file of it")
            return files.look(out).sha256
        finally:
            files.remove(out)


class Retile(Beside):
    """A run while it goes on."""

    def _places(self) -> Iterator[Place]:
        number = skipped = bad = 0
        for folder in [it.path for it in self.store.folders()]:
            for row in list(self.store.rows_of(folder)):
                if row.sort != "packed":
                    continue
                if row.status == PART:
                    skipped += 1
                elif row.status != RIGHT:
                    bad += 1
                    self.count.not_well(row.path, [Finding("not well", "it is not well by the manifest, and stays as it is", "fzbatch missing says what is wrong")])
                else:
                    number += 1
                    yield Place(folder, row.name, number, row.sha256.hex(), next_sha256=row.next.hex())
        if skipped:
            self.count.notes.append(f"{skipped:,} packed files have an HDU that fz does not decode, and stay as they are.")

    def _one(self, asked: Asked, one: Place, room: Rooms) -> InPlace:
        made = Retiled(asked, one, room, self.wanted.options, False)
        if self.count.stopped:
            made.did.cause = "stopped"
        else:
            made.do("retile")
        return made

    def _note(self, some: "List[InPlace]") -> None:
        """First the manifest has both SHA-256 of each file; then the new file gets the name; then the manifest has its row."""
        good = [it for it in some if isinstance(it, Retiled) and it.did.outcome == "retiled"]
        try:
            for it in good:
                row = self.store.row(it.place.folder, it.place.name)
                assert row is not None and it.did.packed is not None
                row.next = bytes.fromhex(it.did.packed.sha256)
                self.store.put(row)
            self.store.save()
            for it in good:
                if self._put_in_place(it):
                    self.store.put(self._row(it.did))
            for one in some:
                if one.did.outcome == "there" and one.did.packed is not None:
                    self.store.put(self._row(one.did))
        except BadManifest as error:
            self.store.give_up()
            self.count.stopped = str(error)
        for one in some:
            self._count(one)

    @staticmethod
    def _put_in_place(it: Retiled) -> bool:
        try:
            if it.put_in_place():
                return True
            it.did.cause, it.did.line, it.did.advice = "file is being written", "it changed while it was packed again", "run fzbatch again when nothing writes it"
        except OSError as error:
            it.did.cause = it.did.line = error.strerror or str(error)
            it.did.advice, it.did.error = advice.of_errno(error.errno or 0), error.errno
        return False

    def _row(self, did: Did) -> Row:
        assert did.packed is not None
        old = self.store.row(did.place.folder, did.place.name)
        row = Row(did.place.folder, did.place.name, did.packed.size, did.packed.mtime, did.looked, bytes.fromhex(did.packed.sha256), "packed", RIGHT, b"", did.hdus)
        row.made_of = old.made_of if old is not None else ""
        row.adopted, row.read_in = (old.adopted if old is not None else self.number), self.number
        return row

    def _end(self) -> None:
        if self.count.outcomes["retiled"]:
            self.count.notes.append("Each new file restores what the old one restored, byte for byte. Whether that is what its packer was given, byte for byte, is not known.")
        super()._end()
