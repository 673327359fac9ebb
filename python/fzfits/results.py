"""What the program's lines say, as frozen dataclasses."""
from __future__ import annotations

import re
from dataclasses import dataclass
from typing import NamedTuple, Optional, Tuple

LISTED = re.compile(
    r"HDU (\d+) (?:PACKED (\S+) (-?\d+) (\S+) tile (\S+) rows (\d+)|(IMAGE|TABLE|OTHER) (-?\d+) (\S+)) header (\d+) data (\d+)"
)
VERIFIED = re.compile(r"HDU (\d+) datasum (ok|wrong|none) checksum (ok|wrong|none) tiles (\d+|-)")
REFUSED = re.compile(r"refused: (\d+) (\w+) hdu (\d+) (byte|card|row) (\d+)")
OVER = re.compile(r"over limit: live (\d+) asked (\d+) limit (\d+)")
DRILLED = re.compile(r"(\w+) packed (\d+) unpack (\w+) cut (\w+)")


class Place(NamedTuple):
    """Where in an HDU a fault is: a byte of the file, a card of the header or a row of the table, counted from 0."""

    unit: str
    number: int

    def __str__(self) -> str:
        return f"{self.unit} {self.number}"


def axes_of(text: str) -> Tuple[int, ...]:
    """The lengths that the program prints with an x between them, or none for `-`."""
    return () if text == "-" else tuple(int(it) for it in text.split("x"))


@dataclass(frozen=True)
class Hdu:
    """One HDU of a file, as `fz list` prints it; lengths of axes and tile are in the order of FITS, axis 1 first.

    `sort` is PACKED, IMAGE, TABLE or OTHER; `codec`, `tile` and `tiles` are those of a packed image, and empty otherwise.
    `header` and `data` are the bytes of the two parts. `name` and `version` are EXTNAME and EXTVER.
    """

    number: int
    sort: str
    bitpix: int
    axes: Tuple[int, ...]
    header: int
    data: int
    codec: Optional[str] = None
    tile: Tuple[int, ...] = ()
    tiles: Optional[int] = None
    name: str = ""
    version: int = 1

    @property
    def is_packed(self) -> bool:
        """Whether the HDU is a packed image, from which `cut` can cut."""
        return self.sort == "PACKED"

    @property
    def shape(self) -> Tuple[int, ...]:
        """The axes in the order of numpy: the last axis of FITS first."""
        return self.axes[::-1]


def hdu_of(line: str) -> Optional[Hdu]:
    """The HDU of a line of `fz list`, or None for another line."""
    found = LISTED.fullmatch(line)
    if found is None:
        return None
    number, codec, bits, axes, tile, tiles, sort, other_bits, other_axes, header, data = found.groups()
    if codec:
        return Hdu(int(number), "PACKED", int(bits), axes_of(axes), int(header), int(data), codec, axes_of(tile), int(tiles))
    return Hdu(int(number), sort, int(other_bits), axes_of(other_axes), int(header), int(data))


@dataclass(frozen=True)
class Verdict:
    """What `fz verify` says of one HDU: `datasum` and `checksum` are ok, wrong or none; `tiles` were decoded, or None."""

    hdu: int
    datasum: str
    checksum: str
    tiles: Optional[int] = None

    @property
    def is_wrong(self) -> bool:
        """Whether a checksum of the HDU is wrong."""
        return "wrong" in (self.datasum, self.checksum)


def verdict_of(line: str) -> Optional[Verdict]:
    """The verdict of a line of `fz verify`, or None for another line."""
    found = VERIFIED.fullmatch(line)
    if found is None:
        return None
    return Verdict(int(found[1]), found[2], found[3], None if found[4] == "-" else int(found[4]))


@dataclass(frozen=True)
class Report:
    """What `verify` found in a file that it did not reject.

    `strict` is None if it was not asked for; otherwise it says whether the file is what `pack` writes, byte for byte.
    """

    path: str
    verdicts: Tuple[Verdict, ...]
    strict: Optional[bool] = None

    @property
    def wrong(self) -> Tuple[Verdict, ...]:
        """The HDUs that have a wrong checksum."""
        return tuple(it for it in self.verdicts if it.is_wrong)

    @property
    def is_right(self) -> bool:
        """Whether no checksum is wrong, and the file is strict if that was asked for."""
        return not self.wrong and self.strict is not False

    @property
    def unsummed(self) -> Tuple[Verdict, ...]:
        """The packed images without DATASUM and CHECKSUM: damage that still decodes is not noticed there."""
        return tuple(it for it in self.verdicts if it.tiles is not None and it.datasum == it.checksum == "none")


@dataclass(frozen=True)
class Made:
    """A file that was made: its name, that of the file it was made from, and the bytes of both."""

    path: str
    source: str
    size: int
    source_size: int

    @property
    def ratio(self) -> float:
        """How many times as long as the new file the source is."""
        return self.source_size / self.size if self.size else 0.0


@dataclass(frozen=True)
class Drill:
    """What `fz drill` prints of one codec: the bytes of the packed file, and whether both ways gave the same pixels."""

    codec: str
    packed: int
    unpack: str
    cut: str


def drill_of(line: str) -> Optional[Drill]:
    """The result of a line of `fz drill`, or None for another line."""
    found = DRILLED.fullmatch(line)
    return None if found is None else Drill(found[1], int(found[2]), found[3], found[4])
