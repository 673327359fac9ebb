"""One file of an adopted folder: read once for its SHA-256, and looked at in every way that there is for it. Nothing is changed."""
from __future__ import annotations

import math
import os
import time
from itertools import chain, islice
from typing import Iterable, List, Optional

from ...advice import counted
from ...checks import UNDECODED, has_own_sums
from ...headers import Header, headers
from ...program import Outcome
from ...results import REFUSED, verdict_of
from .. import advice, expansion, files, inside, names
from ..rooms import Rooms
from . import alone, boxes, cards, compressed, rewrite, summing
from .calling import Fz, Undone
from .messages import Asked, Found, One
from .rows import Finding, Hdu, fitting, packed_text

# More HDUs than this are looked at by fz alone, as far as it takes the file.
MOST = 4096
# Kinds that speak of the file as a whole, and that of a card that occurs twice.
WHOLE = (1, 2, 3, 8)
DUPLICATE = 5
ANOTHER = "fetch the file from another copy"
TOO_MANY = "look at it with the program that wrote it; fzbatch keeps its SHA-256"


def examine(asked: Asked, one: One, room: Rooms) -> Found:
    """Reads a file, and says what was found. Nothing is raised for the file's sake."""
    began, found = time.monotonic(), Found(one.folder, one.name)
    try:
        with inside.file(asked.folder, one.path) as number:
            _read(asked, one, room, number, found)
    except Undone as error:
        found.cause, found.line, found.advice, found.error = error.cause, error.line, error.what, error.error
    except inside.NotInside as error:
        found.cause, found.line, found.advice = "a link is in the way", error.strerror or str(error), advice.NO_LINKS
    except OSError as error:
        found.cause = found.line = error.strerror or str(error)
        found.advice, found.error = advice.of_errno(error.errno or 0), error.errno
    except Exception as error:  # pylint: disable=broad-except
        # whatever a file of a stranger brings about: it is named, and the run goes on
        found.cause, found.line, found.advice = "fault of fzbatch", f"{type(error).__name__}: {error}", "report it with the file"
    if found.cause:
        found.outcome, found.sha256 = "unread", b""
    found.cause, found.line, found.advice = map(names.told, (found.cause, found.line, found.advice))
    found.seconds = time.monotonic() - began
    return found


def _read(asked: Asked, one: One, room: Rooms, number: int, found: Found) -> None:
    # before it is read: a large file takes long, and may change meanwhile
    found.looked = time.time_ns()
    looked = files.look_at(number)
    found.size, found.mtime, found.sha256 = looked.size, looked.mtime, bytes.fromhex(looked.sha256)
    if asked.sha256_only and found.sha256 == one.sha256:
        found.outcome = "same"
        return
    fz = Fz(asked, room)
    fz.begin(looked.size)
    it = File(fz, number, looked)
    it.look()
    if not looked.is_still(os.fstat(number)):
        raise Undone("file is being written", "the file changed while it was read", "run fzbatch again when nothing writes it")
    for one_of in it.found:
        one_of.line, one_of.name = names.told(one_of.line), names.told(one_of.name)
    for hdu in it.hdus:
        for name in ("sort", "name", "type", "codec", "undecoded"):
            setattr(hdu, name, names.told(getattr(hdu, name)))
    hdus = fitting(it.hdus)
    if len(hdus) < len(it.hdus):
        it.add("too many HDUs", f"the manifest has room for the first {len(hdus):,} of {len(it.hdus):,} HDUs", TOO_MANY)
    told = fitting(it.found)
    if len(told) < len(it.found):
        told.append(Finding("more faults", f"{len(it.found) - len(told):,} more faults were found, for which the manifest has no room", ANOTHER))
    found.outcome, found.sort, found.hdus, found.found = "read", it.sort, packed_text(hdus), packed_text(told)


def _has_two_sorts(heads: "List[Header]", hdu: int, card: int) -> bool:
    """Whether a card of an HDU is its second one that says the sort of the image, as astropy writes both."""
    it = next((it for it in heads if it.number == hdu), None)
    return it is not None and rewrite.with_one_sort(it) is not None and card < len(it.cards) and it.cards[card].keyword in rewrite.SORTS


def _shift(heads: "List[Header]") -> int:
    """How many HDUs before a packed primary image are not in the file that comes back."""
    return 1 if len(heads) > 1 and heads[1].is_packed and heads[1].card("ZSIMPLE") is not None else 0


class File:
    """An open file: `hdus` is what is in it, and `found` what is wrong with it."""

    def __init__(self, fz: Fz, number: int, looked: files.Looked):
        self.fz, self.number, self.looked, self.size = fz, number, looked, looked.size
        self.sort = "plain"
        self.hdus: List[Hdu] = []
        self.found: List[Finding] = []
        # the kind by which fz rejects the file as a whole, and whether that is no fault of the file
        self.rejected: Optional[int] = None
        self.is_excused = False

    def add(self, cause: str, line: str, what: str, hdu: Optional[int] = None) -> None:
        """Notes something that is wrong with the file as a whole."""
        self.found.append(Finding(cause, line, what, hdu))

    def look(self) -> None:
        """Looks at it."""
        head = os.pread(self.number, 10, 0)
        kind = compressed.begins_so(head)
        if kind is not None:
            self._compressed(kind)
        elif not self.size:
            self.add("file is empty", "it has no byte", ANOTHER)
        else:
            self._fits()

    def _compressed(self, kind: bytes) -> None:
        """Of a file that is compressed as a whole: that a FITS file comes out of it, by its first and last bytes. More of it is not looked at."""
        self.sort = "gzip" if kind == compressed.GZIP else "compressed"
        why = compressed.NOT_READ if compressed.FORMATS[kind] is None else ""
        try:
            said = "" if why else compressed.fault_of(self.number, self.size, kind, lambda: self.fz.left("decompressing"))
        except compressed.Grows:
            said, why = "", compressed.GROWS
        if said:
            self.add(f"{self.sort} file is damaged", said, ANOTHER)
        if why:
            self.hdus.append(Hdu(0, "compressed file", undecoded=why))

    def _fits(self) -> None:
        following = headers(f"/proc/self/fd/{self.number}")
        heads, more = list(islice(following, MOST)), list(islice(following, 1))
        self.sort = "packed" if any(it.is_packed or it.value("ZTABLE") is True for it in heads) else "plain"
        if not any(map(has_own_sums, heads)) or self._grows() or more or not self._unpacked(heads):
            self._verified(heads)
        self._headers(chain(heads, more, following))

    def _headers(self, heads: "Iterable[Header]") -> None:
        """What the headers show, and whether they lead to the last byte, if fz did not say so."""
        last, unseen = None, 0
        for it in heads:
            self.found += cards.faults_of(self.number, it, self.size)
            last = it
            unseen += it.number >= MOST and (self.rejected is not None or has_own_sums(it))
        if unseen:
            self.add("too many HDUs", f"{unseen:,} HDUs after HDU {MOST - 1:,} were not looked at one by one", TOO_MANY)
        end = last.end if last else 0
        if self.rejected is None and end != self.size:
            raise Undone("fz says nothing", f"fz does not reject the file, whose headers lead to byte {end:,} of {self.size:,}: is it the program fz?", "run fzbatch with the program fz (--fz, or FZ)")
        if self.is_excused and end > self.size:
            self.add("2 Truncated", f"HDU {last.number if last else 0}, the last one, is cut off: {counted(end - self.size)} missing", ANOTHER)
        elif self.is_excused and end < self.size:
            self.add("no HDU follows", f"from byte {end:,} on there is no HDU that can be read; {self.size - end:,} bytes follow", ANOTHER)

    def _believed(self) -> int:
        return expansion.believed(expansion.unpacked(self.number, self.size), self.size)

    def _verified(self, heads: "List[Header]") -> None:
        """By `fz verify`, which decodes each tile, and by what comes back, if an image had checksums of its own."""
        ended = self.fz.run("verify", self.number, self._believed())
        if ended.status == 3:
            self._each(heads, ended)
            return
        looks = [alone.Alone(self.fz, self.number, self.size, it) for it in heads]
        verdicts = {it.hdu: it for it in map(verdict_of, ended.lines) if it is not None}
        for one in looks:
            it = verdicts[one.header.number]
            one.hdu.datasum, one.hdu.checksum, one.hdu.tiles = it.datasum, it.checksum, it.tiles
        own = {it.header.number: it.hdu for it in looks if has_own_sums(it.header)}
        if own and not self._would_grow():
            alone.restored(self.fz, self.number, own, self._believed(), _shift(heads))
        self._take_all(looks)
        for it in list(verdicts.values())[len(looks):]:
            for name, verdict in (("DATASUM", it.datasum), ("CHECKSUM", it.checksum)):
                if verdict == "wrong":
                    self.add(alone.SUMS, f"{name} is not that of its bytes", alone.WRONG_TABLE, it.hdu)
        if ended.status == 1 and not any(it.cause == alone.SUMS for it in self.found):
            # it prints more lines than are kept
            self.add(alone.SUMS, "fz verify says that a checksum is wrong, and not which in the lines that were kept", alone.WRONG_TABLE)

    def _unpacked(self, heads: "List[Header]") -> bool:
        """By `fz unpack`, which decodes each tile too: so tiles are decoded once. False if fz rejects the file."""
        looks = [alone.Alone(self.fz, self.number, self.size, it) for it in heads]
        own = {it.header.number: it.hdu for it in looks if has_own_sums(it.header)}
        if alone.restored(self.fz, self.number, own, self._believed(), _shift(heads)) is not None:
            return False
        for one in looks:
            one.hdu.datasum, one.hdu.checksum = summing.verdicts(self.number, one.header)
            one.hdu.tiles = math.prod(boxes.grid_of(one.header.axes, one.header.tile)) if one.header.is_packed else None
        self._take_all(looks)
        return True

    def _take_all(self, looks: "List[alone.Alone]") -> None:
        for one in looks:
            alone.wrong_sums(one)
            self._take(one)

    def _grows(self) -> str:
        return expansion.warning(expansion.unpacked(self.number, self.size), self.size)

    def _would_grow(self) -> bool:
        said = self._grows()
        if said:
            self.add("file would grow", f"{said}: the checksums of its images were not compared", advice.OVER_TIME)
        return bool(said)

    def _take(self, one: alone.Alone) -> None:
        self.hdus.append(one.hdu)
        self.found += one.found

    def _each(self, heads: "List[Header]", ended: Outcome) -> None:
        """fz rejects the file for one HDU, or for what is between them: each HDU is looked at by itself."""
        kind, name = advice.kind_of(ended.line)
        place = REFUSED.fullmatch(ended.line)
        self.rejected, self.is_excused = kind, kind in UNDECODED or (kind == DUPLICATE and place is not None and _has_two_sorts(heads, int(place[3]), int(place[5])))
        at = f", HDU {place[3]}, {place[4]} {place[5]}" if place else ""
        if kind in WHOLE:
            self.add(f"{kind} {name}", self._of_whole(kind, name, heads) or f"fz does not take the file: {kind} {name}{at}", self._advice(ended))
        for it in heads:
            one = alone.Alone(self.fz, self.number, self.size, it)
            one.look()
            self._take(one)
        if not self.found and not self.is_excused:
            # what is wrong is not in an HDU by itself, but in their order
            self.add(f"{kind} {name}", f"fz does not take the file: {kind} {name}{at}", self._advice(ended), int(place[3]) if place else None)

    def _advice(self, ended: Outcome) -> str:
        """What to do about this very file, called FILE; or about the kind, if the file says no more."""
        path = f"/proc/self/fd/{self.number}"
        said = advice.of_file(ended, "verify", os.fsencode(path))[1].replace(path, "FILE")
        return said.rstrip(".") or advice.of_refusal(ended.line)

    def _of_whole(self, kind: int, name: str, heads: "List[Header]") -> str:
        end = heads[-1].end if heads else 0
        if kind == 2 and end > self.size:
            return f"{kind} {name}: HDU {heads[-1].number}, the last one, is cut off: {counted(end - self.size)} missing"
        if heads and end < self.size:
            return f"{kind} {name}: from byte {end:,} on there is no HDU that can be read; {self.size - end:,} bytes follow"
        return ""
