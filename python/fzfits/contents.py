"""What is in a FITS file, for people: of any file whose headers can be followed, also of HDUs that the program does not decode."""
from __future__ import annotations

import math
import os
from dataclasses import dataclass
from typing import List, Optional, Tuple

from . import arrays
from .advice import counted
from .headers import Header, Name, headers
from .readers import unread_of
from .rows import Tiles

TYPES = {"i": "int", "u": "uint", "f": "float"}
UNSUPPORTED = "compressed table: fz does not read it, funpack does"


@dataclass(frozen=True)
class Content:
    """One HDU: what it is, the type and axes of its image, and how it is packed.

    `sort` is empty, image, packed image, table, compressed table, or the text of XTENSION. `type` is that of the physical values.
    `axes` has axis 1 first; of a table the columns and rows. `size` is the bytes of the data, and `plain` what they would be
    without packing. `undecoded` says why `fz` does not decode the HDU, or is empty.
    """

    number: int
    name: str
    sort: str
    type: str = ""
    axes: Tuple[int, ...] = ()
    codec: str = ""
    tile: Tuple[int, ...] = ()
    units: str = ""
    size: int = 0
    plain: int = 0
    undecoded: str = ""

    @property
    def ratio(self) -> Optional[float]:
        """How many times as long the plain data are as the packed ones, of a packed image."""
        return self.plain / self.size if self.sort == "packed image" and self.size else None


def type_of(header: Header) -> str:
    """The type of the physical values: uint16, float32 .., or empty if BITPIX is none."""
    if arrays.bits_of(header) not in arrays.STORED:
        return ""
    kind = arrays.kind_of(header)
    return f"{TYPES[kind[0]]}{8 * int(kind[1:])}"


def undecoded_of(header: Header) -> str:
    """Why `fz` does not decode this HDU, by its header; empty if it does, or if there is nothing to decode."""
    if header.is_packed:
        why = unread_of(header, Tiles()).get("fz", "")
        return why.replace("it does", "fz does").replace("it reads", "fz reads")
    return UNSUPPORTED if header.sort == "BINTABLE" and header.value("ZTABLE") is True else ""


def content_of(header: Header) -> Content:
    """What one HDU is."""
    more = {"number": header.number, "name": header.name, "size": header.size, "undecoded": undecoded_of(header)}
    units = header.value("BUNIT")
    of_image = {"axes": header.axes, "type": type_of(header), "units": units if isinstance(units, str) else ""}
    if header.is_packed:
        plain = math.prod(header.axes) * abs(arrays.bits_of(header)) // 8 if header.axes else 0
        return Content(sort="packed image", codec=str(header.value("ZCMPTYPE")), tile=header.tile, plain=plain, **more, **of_image)  # type: ignore[arg-type]
    if header.sort == "IMAGE":
        return Content(sort="image" if header.size else "empty", plain=header.size, **more, **of_image)  # type: ignore[arg-type]
    if header.sort in ("BINTABLE", "TABLE"):
        sort = "compressed table" if more["undecoded"] else "table"
        return Content(sort=sort, axes=(header.integer("TFIELDS"), header.integer("NAXIS2")), plain=header.size, **more)  # type: ignore[arg-type]
    return Content(sort=header.sort, axes=header.axes, plain=header.size, **more)  # type: ignore[arg-type]


def contents(path: Name) -> Tuple[Tuple[Content, ...], str]:
    """The HDUs of a file, and what is wrong with its end: empty if the headers lead to the last byte."""
    found: List[Header] = list(headers(path))
    length, end = os.path.getsize(path), found[-1].end if found else 0
    wrong = ""
    if end > length:
        wrong = f"{counted(end - length)} of HDU {found[-1].number}, the last one, are missing at the end of the file"
    elif end < length:
        wrong = f"what follows from byte {end} on, {counted(length - end)}, is no HDU"
    return tuple(map(content_of, found)), wrong
