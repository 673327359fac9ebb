"""`fzbatch pack --beside` and `restore --beside`: the packed file in the place of the plain one, and back, under the manifest beside the folder.

The order is: the new file is made under another name, verified, unpacked again and compared, synced, named, and the folder synced;
then the manifest says so, and is on the disk; only then the other file is removed, if that is asked for, and the folder synced. So at
any moment at least one of the two is there, whole. A second run goes on from wherever the first one ended.
"""
from __future__ import annotations

import os
import secrets
import signal
import socket
import time
from concurrent import futures
from contextlib import closing, suppress
from dataclasses import dataclass, field
from typing import Iterator, List, Optional, TextIO

from ... import program
from ...advice import counted
from .. import before, calls, files, lock, machine, names, rooms
from ..logged import Log
from ..manifest import BadManifest
from ..progress import progress
from ..scan import folders_of
from ..wanted import Refuse, signals
from ..work import identity_of
from . import places, run
from .alone import SUMS, WRONG_IMAGE
from .count import Count
from .in_place import Did, InPlace, Place
from .messages import Asked
from .rows import ACCEPTED, FAULTY, RESTORED, RIGHT, UNREAD, Finding, Row, packed_text
from .scratch import scratch
from .store import Store
from .walk import entries, walk

MANY, SECOND = 128, 1.0


@dataclass
class Wanted:
    """What the command line asks for. `verb` is pack or restore; with `delete` the other file is removed."""

    verb: str
    folder: bytes
    manifest: bytes
    program: Optional[str] = None
    memory: int = 0
    jobs: int = 1
    time_limit: float = 0.0
    options: List[str] = field(default_factory=lambda: ["--sums"])
    delete: bool = False
    accept_wrong_sums: bool = False
    all_names: bool = False
    quiet: bool = False
    log: Optional[str] = None


class Beside:
    """A run while it goes on."""

    def __init__(self, wanted: Wanted, out: TextIO, err: TextIO):
        self.wanted, self.out, self.err = wanted, out, err
        verb = wanted.verb if wanted.verb == "retile" else f"{wanted.verb} --beside"
        self.count = Count(verb, wanted.all_names)
        self.token, self.stop_signal, self.began = secrets.token_hex(8), 0, time.monotonic()
        self.plain_bytes = self.packed_bytes = self.removed = 0

    def status(self) -> int:
        """Does the run, and gives the status of fzbatch."""
        wanted = self.wanted
        calls.check_files()
        self.program = program.find(wanted.program)
        if not os.path.isdir(wanted.folder):
            raise Refuse(f"{names.shown(wanted.folder)} is not there, or is no folder: is its disk mounted?")
        archive = places.archive_around(wanted.folder) or (places.archive_in(wanted.folder) if wanted.verb == "retile" else None)
        if archive is not None:
            raise Refuse(f"{names.shown(archive)} has a manifest of fzbatch pack, which knows its files as they are: {self.count.verb} writes into no folder of such an archive")
        if not places.may_be_written(wanted.manifest):
            raise Refuse(f"{names.shown(wanted.manifest)} cannot be written: --manifest names another place")
        is_new = not files.there(wanted.manifest)
        if is_new and wanted.verb != "pack":
            raise Refuse(f"{names.shown(wanted.manifest)} is not there: fzbatch adopt makes it")
        if is_new:
            places.check_new(wanted.manifest)
        before.check_options(wanted.options, self.program, "retile" if wanted.verb == "retile" else "pack")
        with closing(Log(wanted.log)) as self.count.log:
            with lock.held(wanted.manifest + places.LOCK), files.private():
                with Store(wanted.manifest) if is_new else places.opened(wanted.manifest, wanted.folder, True) as self.store:
                    self.count.log.tell(f"{self.count.verb}{' --delete' if wanted.delete else ''} begins: {names.shown(wanted.folder)}")
                    self._do()
            self.count.seconds = time.monotonic() - self.began
            self.count.sum_up(self.out, wanted.quiet)
        if self.stop_signal:
            return 128 + self.stop_signal
        return run.DONE if self.count.whole else run.NOT_DONE

    def _do(self) -> None:
        wanted = self.wanted
        rooms.remove_of_killed(wanted.folder)
        self._clean_up()
        if self.store.fact("folder") is None:
            self.store.tell("folder", wanted.folder)
        self.number = self.store.begin(self.token, f"{self.count.verb}{' --delete' if wanted.delete else ''}", socket.gethostname(), os.getpid(), identity_of(self.program))
        memory = wanted.memory or machine.limit_of_a_job(wanted.jobs)
        asked = Asked(wanted.folder, self.token, self.program, memory, wanted.time_limit, wanted.jobs)
        bar = progress(self.count.verb, 0, 0, names.unescaped(self.err))
        with signals(self._signalled):
            for some in self._batches(asked):
                self._note(some)
                for it in some:
                    bar.step(it.did.plain.size if it.did.plain else 0)
        bar.close()
        self._end()

    def _clean_up(self) -> None:
        """Removes what killed runs were making: files with the token of such a run in their names."""
        tokens = {token for _, token, _, _, _, _, _, ended, _ in self.store.runs() if ended is None}
        for folder in folders_of(self.wanted.folder) if tokens else ():
            for name in os.listdir(folder):
                if names.is_part_of(name, tokens):
                    with suppress(OSError):
                        files.remove(os.path.join(folder, name))

    def _signalled(self, number: int) -> None:
        self.stop_signal = number
        self.count.stopped = f"by {signal.Signals(number).name}"

    # which files

    def _places(self) -> Iterator[Place]:
        return self._to_pack() if self.wanted.verb == "pack" else self._to_restore()

    def _to_pack(self) -> Iterator[Place]:
        number, seen_any = 0, False
        for seen in walk(self.wanted.folder, 0, 1):
            self.count.left += seen.left
            for name, _, _ in entries(self.wanted.folder, seen.path):
                seen_any = True
                if not names.is_fits(name) or name.lower().endswith(names.PACKED):
                    continue
                row = self.store.row(seen.path, names.packed_name(name))
                number += 1
                yield Place(seen.path, name, number, row.sha256.hex() if row else "", row.plain if row else None, row.next.hex() if row else "", self.store.row(seen.path, name))
        if not seen_any:
            raise Refuse(f"{names.shown(self.wanted.folder)} has no FITS file: is its disk mounted?")

    def _to_restore(self) -> Iterator[Place]:
        number = others = 0
        for folder in [it.path for it in self.store.folders()]:
            for row in list(self.store.rows_of(folder)):
                # a file that was given another name may have no .fz any more
                if row.plain is None or not row.name.endswith(names.PACKED):
                    others += row.sort == "packed"
                    continue
                number += 1
                yield Place(folder, row.name[: -len(names.PACKED)], number, row.sha256.hex(), row.plain)
        if others:
            self.count.notes.append(f"{counted(others, 'packed file')} not made by fzbatch pack --beside: left as they are. fz unpack restores such a file, and whether it is byte for byte what was packed is not known.")
        if not number:
            raise Refuse(f"the manifest of {names.shown(self.wanted.folder)} has no file that fzbatch pack --beside made")

    # the work

    def _batches(self, asked: Asked) -> "Iterator[List[InPlace]]":
        """What was done, together with what was done in about the same second."""
        batch: "List[InPlace]" = []
        since = time.monotonic()
        with scratch(asked.folder, asked.token, asked.jobs) as room, futures.ThreadPoolExecutor(asked.jobs) as pool:
            waiting, running = self._places(), set()  # type: ignore[var-annotated]
            while True:
                while len(running) < 2 * asked.jobs and not self.count.stopped:
                    one = next(waiting, None)
                    if one is None:
                        break
                    running.add(pool.submit(self._one, asked, one, room))
                if not running:
                    break
                ended, running = futures.wait(running, timeout=SECOND, return_when=futures.FIRST_COMPLETED)
                batch += [it.result() for it in ended]
                if batch and (len(batch) >= MANY or time.monotonic() - since >= SECOND):
                    yield batch
                    batch, since = [], time.monotonic()
            if batch:
                yield batch

    def _one(self, asked: Asked, one: Place, room: rooms.Rooms) -> InPlace:
        made = InPlace(asked, one, room, self.wanted.options, self.wanted.accept_wrong_sums)
        if self.count.stopped:
            made.did.cause = "stopped"
        else:
            made.do(self.wanted.verb)
        return made

    def _note(self, some: "List[InPlace]") -> None:
        """Writes what was done into the manifest, waits for the disk, and then removes the other files."""
        good = [it for it in some if it.did.good]
        try:
            for it in good:
                if it.did.packed is None:
                    self.store.forget(it.place.folder, it.place.packed_name)
                else:
                    self.store.put(self._row(it.did))
                if it.did.plain is not None and self.wanted.verb == "restore" and self.store.row(it.place.folder, it.place.name) is None:
                    self.store.put(self._row_of_plain(it.did, it.did.plain))
            self.store.save()
        except BadManifest as error:
            self.store.give_up()
            self.count.stopped = str(error)
            self.count.untried += len(some)
            return
        for it in some:
            self._count(it)
            if it.did.good and it.did.packed is not None and self.wanted.delete:
                self._delete(it)

    def _row(self, did: Did) -> Row:
        assert did.packed is not None
        old = self.store.row(did.place.folder, did.place.packed_name)
        made = Row(did.place.folder, did.place.packed_name, did.packed.size, did.packed.mtime, did.looked, bytes.fromhex(did.packed.sha256), "packed", RIGHT, b"", did.hdus, made_of=did.made_of(), adopted=self.number, read_in=self.number)
        if old is not None and old.sha256.hex() == did.packed.sha256:
            made = old
            made.size, made.mtime, made.made_of = did.packed.size, did.packed.mtime, did.made_of()
        if did.wrong_sums and made.status == RIGHT:
            # what was accepted is kept, and named as if it had been adopted
            made.status, made.found = FAULTY, packed_text([Finding(SUMS, f"{ACCEPTED}: {did.wrong_sums}", WRONG_IMAGE)])
        return made

    def _row_of_plain(self, did: Did, plain: files.Looked) -> Row:
        """A restored file is adopted with the SHA-256 that it had when it was packed: the row that has it is gone with the packed file."""
        return Row(did.place.folder, did.place.name, plain.size, plain.mtime, did.began, bytes.fromhex(plain.sha256), "plain", UNREAD, found=packed_text([RESTORED]), adopted=self.number, read_in=self.number)

    def _delete(self, it: InPlace) -> None:
        place = it.place
        name = place.name if self.wanted.verb == "pack" else place.packed_name
        path = place.path(name)
        try:
            removed = it.remove(name)
        except OSError as error:
            self.count.not_well(path, [Finding("not removed", error.strerror or str(error), "remove it by hand: the other file is whole")])
            return
        if not removed:
            self.count.not_well(path, [Finding("not removed", "it, or the other file, changed since both were compared", "run fzbatch again")])
            return
        self.removed += 1
        if self.store.row(place.folder, name) is not None:
            self.store.forget(place.folder, name)

    def _count(self, it: InPlace) -> None:
        did, path = it.did, it.place.path(it.place.name)
        if did.cause == "stopped":
            self.count.untried += 1
        elif did.cause:
            self.count.not_well(path, [Finding(did.cause, did.line, did.advice)])
            if did.error in run.STOPPING:
                self.count.stopped = self.count.stopped or f"{did.line}: {did.advice}"
        else:
            self.count.well(path, did.outcome)
            self.count.size += did.plain.size if did.plain else 0
            self.plain_bytes += did.plain.size if did.plain and did.packed else 0
            self.packed_bytes += did.packed.size if did.packed else 0

    def _end(self) -> None:
        if self.packed_bytes:
            self.count.notes.append(f"{self.plain_bytes:,} plain and {self.packed_bytes:,} packed bytes: {self.plain_bytes / self.packed_bytes:.2f} to 1; {counted(self.removed, 'file')} removed, after a comparison with the other one.")
        if self.count.outcomes["plain"]:
            self.count.notes.append(f"{counted(self.count.outcomes['plain'], 'file')} without an image of integers: left as they are.")
        try:
            self.store.end(self.number, self.count.last_line())
            self.count.notes += places.keep_beside(self.store)
        except BadManifest as error:
            self.store.give_up()
            self.count.stopped = self.count.stopped or str(error)
        except OSError as error:
            self.count.stopped = self.count.stopped or f"what lies beside the manifest cannot be written: {error.strerror}"
