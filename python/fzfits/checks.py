"""Checks every HDU of a file by itself: one that the program does not decode, or that is damaged, does not stop the others.

`verify` of the program rejects a file as a whole for its first fault. Here each HDU is then given to it alone, in a temporary file
after an empty primary HDU, and the checksums of those that it rejects are compared in Python. The checksums that an image had
before it was packed (ZDATASUM and ZHECKSUM) are those of the image that `unpack` restores, so it is restored into a temporary file
and verified there.
"""
from __future__ import annotations

import os
import tempfile
from dataclasses import dataclass, replace
from typing import Dict, Iterator, Optional, Tuple

from . import commands, sums
from .contents import undecoded_of
from .errors import Refused
from .headers import BLOCK, Header, Name, headers
from .rows import pixels_of_row

EMPTY = b"".join(f"{it:<80}".encode() for it in ("SIMPLE  =                    T", "BITPIX  =                    8", "NAXIS   =                    0", "END")).ljust(BLOCK)
# Kinds that are no damage, and what they mean.
UNDECODED = {13: "fz does not read this codec", 14: "fz reads integer images only", 15: "fz does not read compressed tables", 20: "fz does not read tiles of gzip"}
PIECE = 1 << 20


@dataclass(frozen=True)
class Checked:
    """What was found of one HDU: verdicts on its checksums (ok, wrong or none), the tiles that were decoded, and why if they were not.

    `image_datasum` and `image_checksum` are the verdicts on the checksums that the image had before it was packed. `undecoded` says
    why `fz` does not decode the HDU, which is no fault, and `fault` what is wrong with it.
    """

    hdu: int
    name: str = ""
    datasum: str = "none"
    checksum: str = "none"
    tiles: Optional[int] = None
    image_datasum: str = "none"
    image_checksum: str = "none"
    undecoded: str = ""
    fault: str = ""

    @property
    def sums(self) -> Dict[str, str]:
        """The verdicts by what they are on."""
        return {"DATASUM": self.datasum, "CHECKSUM": self.checksum, "DATASUM of the image": self.image_datasum, "CHECKSUM of the image": self.image_checksum}

    @property
    def is_right(self) -> bool:
        """Whether nothing is wrong, as far as it was checked."""
        return not self.fault and "wrong" not in self.sums.values()


def has_own_sums(header: Header) -> bool:
    """Whether the image of a packed HDU had checksums."""
    return header.is_packed and (header.card("ZDATASUM") is not None or header.card("ZHECKSUM") is not None)


def of_whole(path: Name, images: bool, program: Optional[Name]) -> Dict[int, Checked]:
    """The verdicts on a file that the program accepts, by the number of the HDU. Raises `Refused` otherwise."""
    report = commands.verify(path, program=program)
    found = {it.number: it for it in headers(path)}
    made = {it.hdu: Checked(it.hdu, found[it.hdu].name, it.datasum, it.checksum, it.tiles) for it in report.verdicts}
    own = [it for it in found.values() if has_own_sums(it)] if images else []
    if own:
        # A packed primary image is HDU 1, after an empty primary HDU.
        shift = 1 if 1 in found and found[1].is_packed and found[1].card("ZSIMPLE") is not None else 0
        with tempfile.TemporaryDirectory(prefix="fz-") as folder:
            plain = os.path.join(folder, "plain.fits")
            commands.unpack(path, plain, program=program)
            restored = {it.hdu + shift: it for it in commands.verify(plain, program=program).verdicts}
        for it in own:
            made[it.number] = replace(made[it.number], image_datasum=restored[it.number].datasum, image_checksum=restored[it.number].checksum)
    return made


def pieces_of(path: Name, start: int, end: int) -> Iterator[bytes]:
    """The bytes of a part of a file, in pieces of whole words."""
    with open(path, "rb") as file:
        file.seek(start)
        while start < end:
            found = file.read(min(PIECE, end - start))
            if not found:
                return
            start += len(found)
            yield found


def sums_of(path: Name, header: Header) -> Tuple[str, str]:
    """The verdicts on DATASUM and CHECKSUM of an HDU, computed here."""
    of_data = sums.sum_of(pieces_of(path, header.data, header.end))
    text, check = header.value("DATASUM"), header.value("CHECKSUM")
    datasum = checksum = "none"
    if isinstance(text, str) and text.strip():
        digits = text.strip()
        datasum = "ok" if digits.isdigit() and int(digits) == of_data else "wrong"
    if isinstance(check, str) and check.strip():
        checksum = "ok" if sums.added(of_data, header.raw) == 0xFFFFFFFF else "wrong"
    return datasum, checksum


def place_of(error: Refused, header: Header) -> str:
    """Where in an HDU a fault is. (The byte is one of the temporary file.)"""
    if error.place.unit != "row":
        return "" if error.place.unit == "byte" else f", {error.place}"
    pixels = pixels_of_row(header, error.place.number)
    return f", {error.place}" + (f", pixels {pixels}" if pixels else "")


def alone(path: Name, header: Header, images: bool, program: Optional[Name]) -> Checked:
    """The verdicts on one HDU by itself."""
    with tempfile.TemporaryDirectory(prefix="fz-") as folder:
        copy = os.path.join(folder, "alone.fits")
        with open(copy, "wb") as file:
            file.write(b"" if header.number == 0 else EMPTY)
            for it in pieces_of(path, header.start, header.end):
                file.write(it)
        try:
            found = of_whole(copy, images, program)
            return replace(found[max(found)], hdu=header.number)
        except Refused as error:
            datasum, checksum = sums_of(path, header)
            made = Checked(header.number, header.name, datasum, checksum)
            if error.number in UNDECODED:
                return replace(made, undecoded=undecoded_of(header) or UNDECODED[error.number])
            return replace(made, fault=f"{error.number} {error.kind}{place_of(error, header)}")


def check(path: Name, *, images: bool = True, program: Optional[Name] = None) -> Tuple[Checked, ...]:
    """The verdicts on every HDU of a file, plain or packed by any program. Nothing that is wrong raises an error.

    `images` also checks the checksums that packed images had before they were packed, if they have any. A file of which no header can
    be followed is `Refused`.
    """
    try:
        return tuple(of_whole(path, images, program).values())
    except Refused as error:
        found = tuple(alone(path, it, images, program) for it in headers(path))
        if not found:
            raise
        if all(it.is_right and not it.undecoded for it in found):
            # what is wrong is not in an HDU, but in their order or at the end of the file
            found += (Checked(error.hdu, fault=f"{error.number} {error.kind}, {error.place}"),)
        return found
