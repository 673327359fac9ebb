"""A packed image in which a tile is faulty, tile by tile: which pixels are lost, and that all others come back.

`fz cut` of a box reads the rows of its tiles only. The tiles after a faulty row are cut as boxes of whole tiles, until all were
decoded or named: that takes as many calls as there are faulty rows, and a few more if they are no rows of the image.
"""
from __future__ import annotations

import math
from dataclasses import dataclass, field
from typing import List, Optional, Tuple

from ...headers import Header
from ...results import REFUSED
from .. import advice, expansion, files
from . import boxes
from .calling import BESIDE, Fz
from .rows import Finding

# So many faulty rows of an image are named one by one.
NAMED = 64
GZIP_TILE = 20
CAUSE = "pixels are lost"
LOST = "fetch the file from another copy; the other tiles of the image are whole, and fz cut reads them"


@dataclass
class Tiles:
    """What became of the tiles of an image: how many decode, how many are of gzip, which fz does not read, and what is lost."""

    decoded: int = 0
    gzip: int = 0
    faults: int = 0
    findings: List[Finding] = field(default_factory=list)


class Image:
    """A packed image in a file that `fz` reads, as HDU `hdu` of it."""

    def __init__(self, fz: Fz, path: bytes, hdu: int, header: Header, packed: int):
        self.fz, self.path, self.hdu, self.header = fz, path, hdu, header
        # as many bytes as a box may have: no image that was packed has more for each byte of its file
        self.most = expansion.believed(expansion.LONGEST, packed) + BESIDE
        self.axes, self.tile = header.axes, header.tile
        self.grid = boxes.grid_of(self.axes, self.tile)
        self.rows = math.prod(self.grid)
        self.made = Tiles()

    def decode(self, spans: "List[Tuple[int, int]]") -> Tiles:
        """Decodes the tiles from one row to another, both included, of each of these spans."""
        for first, last in spans:
            while first <= last:
                if self._bytes(first, last) > self.most:
                    self._rest(first, last, "which would be far longer than an image of this size")
                    break
                row, said = self._first_fault(first, last)
                if row is None:
                    self.made.decoded += last - first + 1
                    break
                self.made.decoded += row - first
                self._note(row, said)
                first = row + 1
                if self.made.faults >= NAMED:
                    self._rest(first, last, f"after {NAMED} faulty rows")
                    break
        return self.made

    def _bytes(self, first: int, last: int) -> int:
        """The bytes of the pixels of these tiles."""
        pixels = sum(boxes.number_of(boxes.pixels(self.axes, self.tile, it)) for it in boxes.runs(self.grid, first, last))
        return pixels * max(1, abs(self.header.integer("ZBITPIX")) // 8)

    def _first_fault(self, first: int, last: int) -> "Tuple[Optional[int], str]":
        for spans in boxes.runs(self.grid, first, last):
            box = boxes.pixels(self.axes, self.tile, spans)
            size = boxes.number_of(box) * 8
            out = self.fz.room.name(size, b"out")
            try:
                ended = self.fz.run("cut", self.path, size, "--hdu", str(self.hdu), "--box", boxes.words_of(box), out=out)
            finally:
                files.remove(out)
            if ended.status == 3:
                place = REFUSED.fullmatch(ended.line)
                row = int(place[5]) if place and place[4] == "row" else -1
                # if fz rejects the box for another cause, its first tile has not come back
                return (row if first <= row <= last else first), ended.line
        return None, ""

    def _note(self, row: int, said: str) -> None:
        kind, name = advice.kind_of(said)
        if kind == GZIP_TILE:
            self.made.gzip += 1
            return
        self.made.faults += 1
        box = boxes.of_row(self.axes, self.tile, row)
        self.lose(f"{kind} {name}", row, boxes.text_of(box), boxes.number_of(box))

    def _rest(self, first: int, last: int, why: str) -> None:
        if first > last:
            return
        lost = sum(boxes.number_of(boxes.pixels(self.axes, self.tile, it)) for it in boxes.runs(self.grid, first, last))
        line = f"rows {first} to {last} were not tried, {why}: up to {lost:,} pixels more are lost"
        self.made.findings.append(Finding(CAUSE, line, LOST, self.header.number, self.header.name, first, "", lost))

    def lose(self, why: str, row: int, box: str, lost: int) -> None:
        """Notes a tile that does not come back."""
        line = f"row {row}, {why}: " + boxes.lost_of(lost, box, "the ")
        self.made.findings.append(Finding(CAUSE, line, LOST, self.header.number, self.header.name, row, box, lost))
