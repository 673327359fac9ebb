"""One HDU by itself: it is given to fz alone, in a file for temporary files, so that no other HDU of its file is in the way."""
from __future__ import annotations

import math
import os
from typing import Callable, List, Optional, Tuple

from ...advice import counted
from ...checks import EMPTY, UNDECODED, has_own_sums
from ...contents import content_of, undecoded_of
from ...headers import Header, headers
from ...program import Outcome
from ...results import REFUSED, verdict_of
from .. import advice, files, names
from . import boxes, heaps, rewrite, summing
from .calling import Fz, Undone
from .cards import DAMAGED
from .rows import Finding, Hdu, fitting, packed_text
from .tiles import CAUSE, LOST, Image

PIECE = 1 << 20
SUMS = "checksum is wrong"
WRONG_TABLE = "fetch the file from another copy: a bit of this HDU changed since its checksums were made"
WRONG_IMAGE = "the image is not the one that was packed: fetch the file from another copy"
ONLY_HEADER = "its pixels are those that were packed, by ZDATASUM: compare the header with another copy"
NAMED = 8
# FITS 4.0, section 10.4, and two names that packers write.
CODECS = ("RICE_1", "RICE_ONE", "GZIP_1", "GZIP_2", "PLIO_1", "HCOMPRESS_1", "NOCOMPRESS", "NONE")


def hdu_of(header: Header) -> Hdu:
    """What an HDU is, by its header."""
    it = content_of(header)
    packed = it.sort == "packed image"
    rows = header.integer("NAXIS2") if packed or "table" in it.sort else None
    return Hdu(it.number, it.sort, it.name, it.type, list(it.axes), it.codec if packed else "", list(it.tile), rows, undecoded=it.undecoded)


def hdus_text(number: int, ended: Outcome) -> str:
    """The HDUs of a packed file that fz verified."""
    found, verdicts = [], {it.hdu: it for it in map(verdict_of, ended.lines) if it is not None}
    for it in headers(f"/proc/self/fd/{number}"):
        hdu = hdu_of(it)
        verdict = verdicts.get(it.number)
        if verdict is not None:
            hdu.datasum, hdu.checksum, hdu.tiles = verdict.datasum, verdict.checksum, verdict.tiles
        for name in ("sort", "name", "type", "codec", "undecoded"):
            setattr(hdu, name, names.told(getattr(hdu, name)))
        found.append(hdu)
    return packed_text(fitting(found))


class Alone:
    """One HDU of an open file of `size` bytes; `hdu` is filled with the verdicts, and `found` with what is wrong."""

    def __init__(self, fz: Fz, number: int, size: int, header: Header):
        self.fz, self.number, self.size, self.header = fz, number, size, header
        self.hdu, self.found = hdu_of(header), []  # type: Tuple[Hdu, List[Finding]]
        # the header that a copy has, and whether its image is of the integers that stand for floats
        self.raw, self.are_integers = rewrite.with_one_sort(header) or header.raw, False

    def add(self, cause: str, line: str, what: str, row: Optional[int] = None, lost: int = 0) -> None:
        """Notes something that is wrong."""
        self.found.append(Finding(cause, line, what, self.header.number, self.header.name, row, "", lost))

    def look(self) -> None:
        """Looks at the HDU in every way that there is for its kind."""
        self.hdu.datasum, self.hdu.checksum = summing.verdicts(self.number, self.header)
        codec = self.header.value("ZCMPTYPE")
        if self.header.is_packed and codec not in CODECS:
            self.add("header is damaged", f"ZCMPTYPE names no codec of FITS: {str(codec)[:20]!r}", DAMAGED)
        if not self.header.is_packed:
            self._in_a_copy(self._header_only, lambda copy, hdu: self._accepted(self.fz.run("list", copy, self.size)))
            if self.hdu.undecoded:
                self._records(False)
        elif not self.hdu.undecoded:
            self._in_a_copy(self._whole, self._decode)
        elif (integers := rewrite.as_integers(self.header, self.raw)) is not None:
            self.raw, self.are_integers = integers, True
            self._in_a_copy(self._whole, self._decode_integers)
        else:
            self._records(True)
        wrong_sums(self)

    # copies

    def _in_a_copy(self, fill: Callable[[int], None], call: Callable[[bytes, int], object]) -> None:
        copy = self.fz.room.name(self.header.end - self.header.start, b"in")
        try:
            to = os.open(copy, os.O_WRONLY | os.O_CREAT | os.O_EXCL | os.O_NOFOLLOW | os.O_CLOEXEC, 0o600)
            try:
                if self.header.number:
                    os.write(to, EMPTY)
                fill(to)
                # what is cut off is zeros in the copy
                os.truncate(to, (len(EMPTY) if self.header.number else 0) + self.header.end - self.header.start)
            finally:
                os.close(to)
            call(copy, 1 if self.header.number else 0)
        finally:
            files.remove(copy)

    def _header_only(self, to: int) -> None:
        os.write(to, self.header.raw)

    def _whole(self, to: int) -> None:
        os.write(to, self.raw)
        at, end = self.header.data, min(self.header.end, self.size)
        while at < end:
            piece = os.pread(self.number, min(PIECE, end - at), at)
            if not piece:
                return
            at += len(piece)
            os.write(to, piece)

    # what fz says

    def _accepted(self, ended: Outcome) -> bool:
        """Whether fz takes the HDU; if not, the finding or the reason why it is not decoded is noted."""
        if ended.status != 3:
            return True
        kind, name = advice.kind_of(ended.line)
        if kind in UNDECODED:
            self.hdu.undecoded = undecoded_of(self.header) or UNDECODED[kind]
            return False
        place = REFUSED.fullmatch(ended.line)
        card = int(place[5]) if place and place[4] == "card" else -1
        text = self.header.cards[card].text[:40] if 0 <= card < len(self.header.cards) else ""
        where = f", card {card}" + (f" ({text})" if text else "") if card >= 0 else ""
        self.add(f"{kind} {name}", f"fz does not take it: {kind} {name}{where}", advice.of_refusal(ended.line))
        return False

    def _decode(self, copy: bytes, hdu: int) -> None:
        lost = self._cut_off()
        if lost is None:
            ended = self.fz.run("verify", copy, self.size)
            if ended.status != 3:
                self.hdu.tiles = next((it.tiles for it in map(verdict_of, ended.lines) if it is not None and it.hdu == hdu), None)
                self.image_sums(copy, hdu)
                return
            if " row " not in ended.line:
                self._accepted(ended)
                return
            lost = []
        image = Image(self.fz, copy, hdu, self.header, min(self.header.end, self.size) - self.header.start)
        made = image.decode(_others(lost, image.rows))
        self.hdu.tiles = made.decoded
        self.found += made.findings
        if made.gzip:
            self.hdu.undecoded = f"{made.gzip} tiles are of gzip, which fz does not read"
            self._records(True)

    def _decode_integers(self, copy: bytes, hdu: int) -> None:
        """The integers that stand for floats: their tiles decode, or are named."""
        why = self.hdu.undecoded
        self._decode(copy, hdu)
        self.hdu.undecoded = why if self.hdu.tiles is None else f"{why}; the integers that stand for these floats decode"

    def _cut_off(self) -> "Optional[List[Tuple[int, int]]]":
        """The spans of rows that are lost since the file ends before; None if it does not."""
        if self.header.end <= self.size:
            return None
        axes, tile = self.header.axes, self.header.tile
        grid = boxes.grid_of(axes, tile)
        # no tile has a row that is after those of the grid, whatever the header says
        lost = heaps.after_the_end(self.number, self.header, self.size, min(self.header.integer("NAXIS2"), math.prod(grid)))
        if lost:
            found = (boxes.pixels(axes, tile, it) for first, last in lost for it in boxes.runs(grid, first, last))
            one = next(found)
            pixels = boxes.number_of(one) + sum(map(boxes.number_of, found))
            is_band = len(lost) == 1 and len(axes) == 2 and grid[0] == 1
            named, many = boxes.text_of(one) if is_band else "", sum(last - first + 1 for first, last in lost)
            line = f"the file ends before {counted(many, 'tile')} (from row {lost[0][0]} on): {boxes.lost_of(pixels, named)}"
            self.found.append(Finding(CAUSE, line, LOST, self.header.number, self.header.name, lost[0][0], named, pixels))
        return lost

    def image_sums(self, copy: "bytes | int", hdu: int) -> None:
        """The checksums that the image had before it was packed are those of the image that comes back."""
        if not has_own_sums(self.header) or self.are_integers:
            return
        said = self.fz.growth(copy)
        if said:
            self.add("file would grow", f"{said}: the checksums of its image were not compared", advice.OVER_TIME)
        else:
            is_primary = self.raw is self.header.raw and self.header.card("ZSIMPLE") is not None
            restored(self.fz, copy, {hdu: self.hdu}, self.header.end - self.header.start, 1 if hdu and is_primary else 0)

    def _records(self, is_image: bool) -> None:
        """What shows of the records of a table that fz does not decode."""
        faults = 0
        for row, here in heaps.descriptors(self.number, self.header, heaps.columns(self.header), self.size):
            said = heaps.fault_of(self.number, self.header, here, is_image, lambda: self.fz.left("inflating"))
            if said:
                faults += 1
                if faults <= NAMED:
                    self.add("record is damaged", f"row {row}: {said}", LOST, row)
        if faults > NAMED:
            self.add("record is damaged", f"{faults - NAMED} more rows of this HDU", LOST)


def _others(lost: "List[Tuple[int, int]]", many: int) -> "List[Tuple[int, int]]":
    """The spans of rows that are not among those."""
    spans, at = [], 0
    for first, last in [*lost, (many, many)]:
        if at < first:
            spans.append((at, first - 1))
        at = last + 1
    return spans


def wrong_sums(it: Alone) -> None:
    """A finding for each checksum that is wrong."""
    for name, verdict in (("DATASUM", it.hdu.datasum), ("CHECKSUM", it.hdu.checksum)):
        if verdict == "wrong":
            what = "" if not it.header.is_packed else ", the table of the packed image"
            it.add(SUMS, f"{name} is not that of its bytes{what}", WRONG_TABLE)
    if it.hdu.image_datasum == "wrong":
        it.add("image checksum is wrong", "ZDATASUM is not that of the pixels that come back", WRONG_IMAGE)
    pixels = it.hdu.image_datasum == "ok"
    # the table is as its packer wrote it: astropy, for one, writes a ZHECKSUM that no header which comes back has
    of_packer = pixels and it.hdu.checksum == "ok"
    if it.hdu.image_checksum == "wrong" and not of_packer:
        it.add("image checksum is wrong", "ZHECKSUM is not that of the image that comes back" + (", though ZDATASUM is right: its header is another" if pixels else ""), ONLY_HEADER if pixels else WRONG_IMAGE)


def restored(fz: Fz, source: "bytes | int", hdus: "dict[int, Hdu]", size: int, shift: int) -> Optional[Outcome]:
    """Unpacks a file, and fills the verdicts of these HDUs on the checksums of the images that come back.

    A packed primary image is one HDU after where it was (`shift`). Gives what fz said if it does not unpack the file.
    """
    out = fz.room.name(size, b"again")
    try:
        ended = fz.run("unpack", source, size, out=out)
        if ended.status == 3:
            return ended
        verdicts = {it.hdu + shift: it for it in map(verdict_of, fz.run("verify", out, size).lines) if it is not None}
        for number, hdu in hdus.items():
            if number not in verdicts:
                raise Undone("fz verify: no verdict", f"fz verify has no verdict on the image of HDU {number} that came back", "report it with the file")
            hdu.image_datasum, hdu.image_checksum = verdicts[number].datasum, verdicts[number].checksum
    finally:
        files.remove(out)
    return None
