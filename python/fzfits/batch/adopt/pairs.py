"""A packed file beside a plain one: whether it stands for that file byte for byte, or at least for its pixels."""
from __future__ import annotations

import os
from dataclasses import dataclass, field
from typing import Dict, List, Optional, Tuple

from ...checks import EMPTY, UNDECODED
from ...headers import Header, headers
from .. import advice, files, names
from . import meaning, rewrite
from .alone import PIECE
from .calling import Fz
from .rows import Finding

DIFFERS = "differs from the plain file"
WHAT = "decide which one is right, by another copy or by the checksums that either has"


@dataclass
class Compared:
    """What was found: `outcome` is same (byte for byte), pixels (all data are the same, and some header is not) or part (some HDU is not decoded)."""

    outcome: str = "same"
    found: List[Finding] = field(default_factory=list)
    headers: int = 0
    skipped: List[int] = field(default_factory=list)


def plain_name(name: bytes) -> bytes:
    """The name of the plain file of a packed one."""
    return name[: -len(names.PACKED)] if name.lower().endswith(names.PACKED) else name


def same_bytes(one: int, two: int, spans: "Tuple[Tuple[int, int], Tuple[int, int]]") -> bool:
    """Whether two parts of two open files are the same; each is a place and a length."""
    (at, length), (other, length_of_other) = spans
    if length != length_of_other:
        return False
    for start in range(0, length, PIECE):
        count = min(PIECE, length - start)
        if os.pread(one, count, at + start) != os.pread(two, count, other + start):
            return False
    return True


class Pair:
    """An open file of an adopted folder, and the plain file that it should stand for."""

    def __init__(self, fz: Fz, packed: int, looked: files.Looked, plain: int, plain_looked: files.Looked):
        self.fz, self.packed, self.looked, self.plain, self.plain_looked = fz, packed, looked, plain, plain_looked
        self.made = Compared()

    def compare(self) -> Compared:
        """Compares them."""
        if self.looked.sha256 == self.plain_looked.sha256:
            return self.made
        self.fz.begin(max(self.looked.size, self.plain_looked.size))
        self.fz.check_growth(self.packed, self.plain_looked.size)
        out = self.fz.room.name(self.plain_looked.size, b"again")
        try:
            ended = self.fz.run("unpack", self.packed, max(self.looked.size, self.plain_looked.size), out=out)
            if ended.status == 3:
                self._each()
            elif files.look(out).sha256 == self.plain_looked.sha256:
                return self.made
            else:
                self._parts(out, list(headers(out)), {it.number: it for it in headers(self._path(self.plain))})
        finally:
            files.remove(out)
        self._after()
        if self.made.skipped:
            self.made.outcome = "part"
        elif self.made.headers:
            self.made.outcome = "pixels"
        return self.made

    @staticmethod
    def _path(number: int) -> str:
        return f"/proc/self/fd/{number}"

    def _parts(self, out: bytes, mine: "List[Header]", theirs: "Dict[int, Header]") -> None:
        """Each HDU of a file that was made beside that of the same number."""
        number = os.open(out, os.O_RDONLY | os.O_CLOEXEC)
        try:
            for it in mine:
                self._hdu(number, it, theirs.pop(it.number, None), it.number)
        finally:
            os.close(number)
        self._only_theirs(theirs)

    def _after(self) -> None:
        """The plain file is another one: if its HDUs do not show it, it is what is after the last one, or what fills a block."""
        more = self.plain_looked.size - max((it.end for it in headers(self._path(self.plain))), default=0)
        if more > 0:
            self.made.found.append(Finding(DIFFERS, f"the plain file has {more:,} bytes after its last HDU, which are not in it", WHAT))
        elif not (self.made.found or self.made.headers or self.made.skipped):
            self.made.found.append(Finding(DIFFERS, "each HDU is that of the plain file, and what fills the last block of one is not", WHAT))

    def _only_theirs(self, theirs: "Dict[int, Header]") -> None:
        for other in theirs.values():
            self.made.found.append(Finding(DIFFERS, f"HDU {other.number} of the plain file is not in it", WHAT, other.number, names.told(other.name)))

    def _hdu(self, number: int, mine: Header, other: Optional[Header], hdu: int) -> None:
        if other is None:
            self.made.found.append(Finding(DIFFERS, "the plain file has no such HDU", WHAT, hdu, names.told(mine.name)))
        elif not same_bytes(number, self.plain, ((mine.data, mine.size), (other.data, other.size))):
            self.made.found.append(Finding(DIFFERS, "the data of this HDU are not those of the plain file", WHAT, hdu, names.told(mine.name)))
        elif mine.raw != other.raw:
            said = meaning.other_than(mine, other)
            if said:
                self.made.found.append(Finding(DIFFERS, f"the data have the same bytes, and are others by the header: {said}", WHAT, hdu, names.told(mine.name)))
            self.made.headers += 1

    def _each(self) -> None:
        """fz does not unpack the file as a whole: its packed images one by one, and the other HDUs as they are."""
        heads = list(headers(self._path(self.packed)))
        theirs = {it.number: it for it in headers(self._path(self.plain))}
        shift = 1 if len(heads) > 1 and heads[1].is_packed and heads[1].card("ZSIMPLE") is not None and heads[1].card("ZTENSION") is None else 0
        for it in heads[shift:]:
            other = theirs.pop(it.number - shift, None)
            if it.is_packed or it.value("ZTABLE") is True:
                self._image(it, other)
            else:
                self._hdu(self.packed, it, other, it.number)
        self._only_theirs(theirs)

    def _image(self, header: Header, other: Optional[Header]) -> None:
        copy, out = self.fz.room.name(header.end - header.start, b"in"), self.fz.room.name(self.plain_looked.size, b"again")
        try:
            with open(copy, "xb") as to:
                to.write(EMPTY)
                to.write(rewrite.with_one_sort(header) or header.raw)
                at = header.data
                while at < header.end:
                    piece = os.pread(self.packed, min(PIECE, header.end - at), at)
                    if not piece:
                        break
                    to.write(piece)
                    at += len(piece)
            ended = self.fz.run("unpack", copy, self.plain_looked.size, out=out)
            if ended.status == 3:
                self._not_decoded(header, other, ended.line)
                return
            made = list(headers(out))[-1]
            number = os.open(out, os.O_RDONLY | os.O_CLOEXEC)
            try:
                self._hdu(number, made, other, header.number)
            finally:
                os.close(number)
        finally:
            files.remove(copy)
            files.remove(out)

    def _not_decoded(self, header: Header, other: Optional[Header], line: str) -> None:
        kind, name = advice.kind_of(line)
        if kind in UNDECODED:
            self.made.skipped.append(header.number)
            said = meaning.other_packed(header, other)
            if said:
                self.made.found.append(Finding(DIFFERS, f"it is not decoded, and cannot be that of the plain file: {said}", WHAT, header.number, names.told(header.name)))
        else:
            self.made.found.append(Finding(DIFFERS, f"fz does not unpack it: {kind} {name}", advice.of_refusal(line), header.number, names.told(header.name)))
