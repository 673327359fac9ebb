"""What the manifest of an adopted folder says of a file, of its HDUs, and of what is wrong with it."""
from __future__ import annotations

import json
from dataclasses import MISSING, asdict, dataclass, field, fields
from typing import Any, List, Optional

from .. import checks

# What a file is by its last look. RIGHT and PART are well: of PART some HDU is of a kind that fz does not decode.
RIGHT, PART = "right", "part"
FAULTY, ROTTEN, CHANGED, RENAMED, GONE, UNREAD = "faulty", "rotten", "changed", "renamed", "gone", "unread"
WELL = (RIGHT, PART)
NOT_WELL = (FAULTY, ROTTEN, CHANGED, RENAMED, GONE, UNREAD)
STATUSES = WELL + NOT_WELL
# A file whose time is so near to the moment in which it was read may have changed since with the same time.
GRAIN = 2_000_000_000
# How a line begins that is kept from then on: the packed file alone may not show what it is about.
ACCEPTED = "the plain file had a wrong checksum, which was accepted"
# The characters of the HDUs of a file, and of its findings: half of the longest text that a manifest has.
ROOM = checks.LONGEST // 2


def compact(it: Any) -> "dict[str, Any]":
    """The fields of a dataclass that are not at their defaults."""
    defaults = {one.name: one.default if one.default is not MISSING else None for one in fields(it)}
    return {name: value for name, value in asdict(it).items() if value != defaults[name] and value != []}


@dataclass
class Hdu:
    """One HDU: what it is, the verdicts on its checksums (ok, wrong or none), and how many of its tiles decode.

    `image_datasum` and `image_checksum` are the verdicts on ZDATASUM and ZHECKSUM, by the image that comes back. `tiles` is None if
    none were decoded, and `undecoded` then says why.
    """

    number: int
    sort: str
    name: str = ""
    type: str = ""
    axes: List[int] = field(default_factory=list)
    codec: str = ""
    tile: List[int] = field(default_factory=list)
    rows: Optional[int] = None
    datasum: str = "none"
    checksum: str = "none"
    image_datasum: str = "none"
    image_checksum: str = "none"
    tiles: Optional[int] = None
    undecoded: str = ""

    @property
    def label(self) -> str:
        """The HDU for people: HDU 1 (SCI)."""
        return f"HDU {self.number}" + (f" ({self.name})" if self.name else "")


@dataclass
class Finding:
    """Something that is wrong: the cause in few words, the line that says it, what to do, and where it is.

    `row` is that of the table, counted from 0; `box` has the pixels of its tile, axis 1 first, counted from 1; `lost` is how many
    pixels do not come back.
    """

    cause: str
    line: str
    advice: str
    hdu: Optional[int] = None
    name: str = ""
    row: Optional[int] = None
    box: str = ""
    lost: int = 0


def packed_text(found: "List[Any]") -> str:
    """HDUs or findings as one line of JSON."""
    return json.dumps([compact(it) for it in found], separators=(",", ":"))


def fitting(found: "List[Any]") -> "List[Any]":
    """As many of these HDUs or findings, from the first on, as a row of the manifest has room for."""
    room = ROOM
    for number, it in enumerate(found):
        room -= len(packed_text([it]))
        if room < 0:
            return found[:number]
    return found


def hdus_of(text: str) -> "List[Hdu]":
    """The HDUs of such a line."""
    return [Hdu(**it) for it in json.loads(text)]


def findings_of(text: str) -> "List[Finding]":
    """The findings of such a line."""
    return [Finding(**it) for it in json.loads(text)]


# What is said of a plain file that restore made, until adopt has read it.
RESTORED = Finding("not read", "it was restored, and what is in it was not looked at since", "fzbatch adopt reads it")


@dataclass
class Plain:
    """A plain file that was packed beside itself: SHA-256, length, time in nanoseconds, and rights."""

    sha256: str
    size: int
    mtime: int
    mode: int


@dataclass
class Row:
    """What the manifest says of one file; the fields are the columns of the table `files`, but for the hash.

    `sha256` is that of the file when it was adopted. `size` and `mtime` (in nanoseconds) are those of the last look, and `looked` is
    when the file was last read. `sort` is packed, plain, gzip or compressed. `was` is the path that a renamed file had. `hdus` and
    `found` are lines of JSON, and so is `made_of`, the plain file that `pack --beside` packed.
    `next` is the SHA-256 that the file has once `retile` gave its new one the name. `adopted` and `read_in` are the numbers of the runs that adopted the file and that last read it.
    """

    folder: bytes
    name: bytes
    size: int
    mtime: int
    looked: int
    sha256: bytes
    sort: str
    status: str
    was: bytes = b""
    hdus: str = "[]"
    found: str = "[]"
    made_of: str = ""
    next: bytes = b""
    adopted: int = 0
    read_in: int = 0

    @property
    def path(self) -> bytes:
        """The path in the folder."""
        return self.folder + b"/" + self.name if self.folder else self.name

    @property
    def unsure(self) -> bool:
        """Whether a later change may have left its time the same."""
        return self.mtime > self.looked - GRAIN

    @property
    def plain(self) -> Optional[Plain]:
        """The plain file that it was made of, if fzbatch made it."""
        return Plain(**json.loads(self.made_of)) if self.made_of else None

    @property
    def findings(self) -> "List[Finding]":
        """What is wrong with it."""
        return findings_of(self.found)

    @property
    def accepted(self) -> "List[Finding]":
        """What is said of a wrong checksum that was accepted when the file was packed: no later look at it takes that away."""
        return [it for it in self.findings if self.made_of and it.line.startswith(ACCEPTED)]


COLUMNS = tuple(it.name for it in fields(Row))


@dataclass
class Folder:
    """What the manifest says of one folder: how many files and bytes, how many of each status, and the sums that check them.

    `unsure` is how many of its files were read so soon after they were written that they are read again. `look` is the sum of the hashes of the names, lengths and times of the files that were there at the last look, `seal` the number
    and the sum of the hashes of its rows.
    """

    path: bytes
    files: int = 0
    bytes: int = 0
    counts: str = "{}"
    unsure: int = 0
    look: str = "0 0"
    seal: str = "0 0"

    @property
    def of_status(self) -> "dict[str, int]":
        """How many files have each status."""
        return dict(json.loads(self.counts))


FOLDER_COLUMNS = tuple(it.name for it in fields(Folder))
