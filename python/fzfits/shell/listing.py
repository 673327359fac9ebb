"""`fzfits list`, `header` and `why`."""
from __future__ import annotations

import argparse
import os
import tempfile

from .. import boxes, commands
from ..contents import Content, contents
from ..errors import FzError, NoProgram, Usage, shown
from ..headers import CARD, headers
from ..section import extension_of
from . import told

HEADING = ("HDU", "NAME", "WHAT", "TYPE", "AXES", "CODEC", "TILE", "RATIO", "UNITS")


def row_of(it: Content) -> "tuple[str, ...]":
    """One HDU as a row of the table."""
    counted = [f"{many:,} {what}{'' if many == 1 else 's'}" for many, what in zip(it.axes, ("column", "row"))]
    axes = ", ".join(counted) if it.sort.endswith("table") else "x".join(map(str, it.axes))
    ratio = "" if it.ratio is None else f"{it.ratio:.2f}"
    cells = (str(it.number), it.name, it.sort, it.type if it.sort.endswith("image") else "", axes, it.codec, "x".join(map(str, it.tile)), ratio, it.units)
    return tuple(cell or "-" for cell in cells)


def list_file(path: str, _asked: argparse.Namespace) -> int:
    """Prints what is in a file. Of one that begins as no FITS file, why it is none."""
    found, wrong = contents(path)
    if not found:
        commands.list(path)  # which says why
    print(f"{shown(path)}: {len(found)} HDU{'' if len(found) == 1 else 's'}, {os.path.getsize(path):,} bytes")
    print(told.table([HEADING, *map(row_of, found)]))
    for it in found:
        if it.undecoded:
            print(f"HDU {it.number} is passed over: {it.undecoded}")
    if wrong:
        print(f"{wrong}: see fzfits why {told.name(path)}")
    return 1 if wrong else 0


def header_of_file(path: str, asked: argparse.Namespace) -> int:
    """Prints the cards of one HDU, or of all, as they are in the file."""
    words = ""
    if not os.path.exists(path):
        path, words, _ = boxes.split(path)
    extension = extension_of(asked.hdu or words)
    number = commands.number_of(path, extension)
    found = [it for it in headers(path) if number in (None, it.number)]
    if not found:
        if number is not None:
            raise Usage(f"there is no HDU {number}: it has {sum(1 for _ in headers(path))}, counted from 0", path=path)
        commands.list(path)
    for it in found:
        print(f"# {shown(path)}: HDU {it.number}{f' ({it.name})' if it.name else ''}, {len(it.cards)} cards")
        for at in range(0, CARD * len(it.cards), CARD):
            print(it.raw[at : at + CARD].decode("latin-1").rstrip())
    return 0


def told_right(path: str, does: str) -> int:
    """Says that nothing is wrong."""
    print(f"{shown(path)}: nothing is wrong: {does}")
    return 0


def why_sums(path: str, does: str) -> int:
    """Says which checksums of a file that fz accepts are wrong, what that means, and what to do. The status: 0 if none is."""
    wrong = told.wrong_sums(path)
    if not wrong:
        return 0
    print(f"{shown(path)}: {'a checksum is' if len(wrong) == 1 else 'checksums are'} wrong; {does}")
    for it in wrong:
        print(f"    {it}.")
    print("    Compare it with another copy, or fetch it again. If its data are known to be right:")
    print(f"    fzfits mend --sums {told.name(path)} OUT makes a copy with right checksums, in which damage from before is not noticed any more.")
    return 1


def why_file(path: str, asked: argparse.Namespace) -> int:
    """Says in words why a file is rejected, and what to do; that nothing is, if so."""
    try:
        packed = any(it.is_packed for it in commands.list(path))
        if packed and asked.pack:
            with tempfile.TemporaryDirectory(prefix="fz-") as folder:
                commands.pack(path, os.path.join(folder, "packed.fits"))
        if packed:
            return why_sums(path, "fz unpacks and cuts it all the same") or told_right(path, "fz unpacks, verifies and cuts it")
        with tempfile.TemporaryDirectory(prefix="fz-") as folder:
            commands.pack(path, os.path.join(folder, "packed.fits"))
        images = sum(it.sort == "image" and not it.type.startswith("float") for it in contents(path)[0])
        return why_sums(path, "fz packs it as it is, and fzbatch only with --accept-wrong-sums") or told_right(
            path, "fz packs it" + ("" if images else ", but it has no integer image, so it would only be copied")
        )
    except NoProgram:
        raise
    except FzError as error:
        print(told.message(error, path, whole=True))
    return 1
