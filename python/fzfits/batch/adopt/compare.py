"""`fzbatch compare PLAIN FOLDER` of an adopted folder: each of its files beside the plain file of the same name in PLAIN."""
from __future__ import annotations

import os
import secrets
import signal
from concurrent import futures
from contextlib import closing
from dataclasses import dataclass, field
from typing import Iterator, List, Optional, TextIO, Tuple

from ... import program
from .. import advice, calls, files, inside, machine, names, rooms
from ..logged import Log
from ..progress import progress
from ..scan import Left
from ..wanted import Refuse, signals
from . import compressed, places, run
from .calling import Fz, Undone
from .count import Count
from .messages import Asked
from .pairs import DIFFERS, WHAT, Compared, Pair, plain_name
from .rows import Finding, Row
from .scratch import scratch
from .store import Store
from .walk import entries, walk

CHANGED = Finding("changed", "it is another file than the one that was adopted", "fzbatch adopt names what is wrong with it")
NO_PLAIN = Finding("no plain file", "the plain file is not there", advice.WITHOUT_PLAIN.replace("fzbatch restore makes it again", "fz unpack makes one"))
NOT_PACKED = Finding("no packed file", "it has no packed file in the folder", "fzbatch pack packs it; if its packed file was lost, fetch that from another copy")
# What the name of a packed file may have after that of its plain file; a plain file may be in the folder too.
PACKED = (b".fz", b"", b".FZ", b".Fz", b".fZ")
ANOTHER_SORT = ("gzip", "compressed")


@dataclass
class Wanted:
    """What the command line asks for."""

    plain: bytes
    folder: bytes
    manifest: bytes
    program: Optional[str] = None
    memory: int = 0
    jobs: int = 1
    time_limit: float = 0.0
    without_plain: bool = False
    all_names: bool = False
    quiet: bool = False
    log: Optional[str] = None


@dataclass
class One:
    """What became of one file."""

    path: bytes
    size: int
    outcome: str = ""
    found: List[Finding] = field(default_factory=list)
    compared: Optional[Compared] = None


class Compare:
    """A run while it goes on. Nothing is written but in the folder for temporary files."""

    def __init__(self, wanted: Wanted, out: TextIO, err: TextIO):
        self.wanted, self.out, self.err = wanted, out, err
        self.count = Count("compare", wanted.all_names)
        self.stop_signal = 0

    def status(self) -> int:
        """Does the run, and gives the status of fzbatch."""
        wanted = self.wanted
        calls.check_files()
        if not os.path.isdir(wanted.plain):
            raise Refuse(f"{names.shown(wanted.plain)} is not there, or is no folder: is its disk mounted?")
        memory = wanted.memory or machine.limit_of_a_job(wanted.jobs)
        asked = Asked(wanted.folder, secrets.token_hex(8), program.find(wanted.program), memory, wanted.time_limit, wanted.jobs)
        with closing(Log(wanted.log)) as self.count.log, places.opened(wanted.manifest, wanted.folder) as store:
            self.count.log.tell(f"compare begins: {names.shown(wanted.plain)}, {names.shown(wanted.folder)}")
            with signals(self._signalled):
                bar = progress("compare", store.files, store.bytes, names.unescaped(self.err), wanted.quiet)
                for one in self._results(asked, store.rows()):
                    self._count(one)
                    bar.step(one.size)
                bar.close()
            if not self.count.stopped:
                self._not_compared(store)
            self._sum_up()
        return 128 + self.stop_signal if self.stop_signal else run.DONE if self.count.whole else run.NOT_DONE

    def _not_compared(self, store: Store) -> None:
        """Names what no row of the manifest stands for: plain files without a packed one, and files of the folder that it does not know."""
        for root, finding, form in ((self.wanted.plain, NOT_PACKED, PACKED), (self.wanted.folder, run.UNKNOWN, (b"",))):
            left: "List[Left]" = []
            for seen in walk(root, 0, 1):
                left += seen.left
                for name, _, _ in entries(root, seen.path):
                    if not any(self._stands_for(store, root, seen.path, name, it) for it in form):
                        self.count.not_well(os.path.join(seen.path, name), [finding])
            kept, notes = run.kept_left(store, left)
            self.count.left += kept
            self.count.notes += [it for it in notes if left]

    def _stands_for(self, store: Store, root: bytes, folder: bytes, name: bytes, ending: bytes) -> bool:
        """Whether a file of the manifest stands for one of these folders: of a packed one beside plain files only the very same file does."""
        row = store.row(folder, name + ending)
        if row is None or ending or root == self.wanted.folder or not name.lower().endswith(names.PACKED):
            return row is not None
        try:
            with inside.file(root, row.path) as number:
                return files.look_at(number).sha256 == row.sha256.hex()
        except OSError:
            return False

    def _sum_up(self) -> None:
        for outcome, what in (("pixels", "have the pixels and tables of their plain file, and another header: whether that is all that fpack was given is not known"), ("part", "have an HDU that fz does not decode, which was not compared"), ("compressed", "are compressed as a whole, and were not compared")):
            if self.count.outcomes[outcome]:
                self.count.notes.append(f"{self.count.outcomes[outcome]:,} files {what}.")
        self.count.sum_up(self.out, self.wanted.quiet)

    def _signalled(self, number: int) -> None:
        self.stop_signal = number
        self.count.stopped = f"by {signal.Signals(number).name}"

    def _results(self, asked: Asked, rows: Iterator[Row]) -> Iterator[One]:
        with scratch(asked.folder, asked.token, asked.jobs) as room, futures.ThreadPoolExecutor(asked.jobs) as pool:
            running: "set[futures.Future[One]]" = set()
            while True:
                while len(running) < 2 * asked.jobs and not self.count.stopped:
                    row = next(rows, None)
                    if row is None:
                        break
                    running.add(pool.submit(self._one, asked, row, room))
                if not running:
                    return
                ended, running = futures.wait(running, return_when=futures.FIRST_COMPLETED)
                yield from (it.result() for it in ended)

    def _one(self, asked: Asked, row: Row, room: rooms.Rooms) -> One:
        one = One(row.path, row.size)
        try:
            self._compare(asked, row, room, one)
        except Undone as error:
            one.found = [Finding(error.cause, names.told(error.line), error.what)]
        except OSError as error:
            said = names.told(error.strerror or str(error))
            one.found = [Finding(said, said, advice.of_errno(error.errno or 0))]
        except Exception as error:  # pylint: disable=broad-except
            one.found = [Finding("fault of fzbatch", names.told(f"{type(error).__name__}: {error}"), "report it with the file")]
        return one

    def _compare(self, asked: Asked, row: Row, room: rooms.Rooms, one: One) -> None:
        plain, packed = self._opened(asked.folder, row)
        try:
            if packed is None:
                one.found = [Finding("gone", "it is not there", "fzbatch adopt names it")]
                return
            looked = files.look_at(packed)
            if looked.sha256 != row.sha256.hex():
                one.found = [CHANGED]
            elif row.sort in ANOTHER_SORT:
                one.outcome, one.found = self._compressed(Fz(asked, room), packed, looked, plain)
            elif plain is None:
                one.outcome, one.found = ("alone", []) if self.wanted.without_plain else ("", [NO_PLAIN])
            else:
                one.compared = Pair(Fz(asked, room), packed, looked, plain, files.look_at(plain)).compare()
                one.outcome, one.found = one.compared.outcome, one.compared.found
        finally:
            for it in (plain, packed):
                if it is not None:
                    os.close(it)

    @staticmethod
    def _compressed(fz: Fz, packed: int, looked: files.Looked, plain: Optional[int]) -> "Tuple[str, List[Finding]]":
        """A file that is compressed as a whole, beside one of the same name: what comes out of both is compared, if that is known."""
        if plain is None:
            return "compressed", []
        other = files.look_at(plain)
        if looked.sha256 == other.sha256:
            return "same", []
        fz.begin(max(looked.size, other.size))
        mine, theirs = (compressed.content_of(it, of, lambda: fz.left("decompressing")) for it, of in ((packed, looked), (plain, other)))
        if mine is not None and mine == theirs:
            return "same", []
        said = "what comes out of it is not what comes out of the other file of its name" if mine and theirs else "the other file of its name has other bytes, and what comes out of both could not be compared"
        return "", [Finding(DIFFERS, said, WHAT)]

    def _opened(self, folder: bytes, row: Row) -> "Tuple[Optional[int], Optional[int]]":
        made: "List[Optional[int]]" = []
        for root, name in ((folder, row.name), (self.wanted.plain, plain_name(row.name))):
            try:
                with inside.file(root, row.folder + b"/" + name if row.folder else name) as number:
                    made.append(os.dup(number))
            except FileNotFoundError:
                made.append(None)
            except BaseException:
                for it in filter(None, made):
                    os.close(it)
                raise
        return made[1], made[0]

    def _count(self, one: One) -> None:
        if one.found:
            self.count.not_well(one.path, one.found)
        else:
            self.count.well(one.path, one.outcome)
