"""What to do about this very file, where its bytes say more than the kind of the refusal.

docs/REFUSALS.md says what to do about each kind; this module has only what depends on the file: how many bytes are missing, which
command mends it, which card is repeated, which limit is exceeded, which HDUs are packed.
"""
from __future__ import annotations

import errno
import math
import os
import re
import shlex
import stat
from typing import Callable, Dict, Optional, Tuple

from .errors import Refused, shown
from .headers import Card, Header, Name, headers
from .rows import pixels_of_row

OF_READING = {
    errno.ENOENT: "Check that the name is right and the disk is mounted.",
    errno.EISDIR: "It is a folder: name a file in it.",
    errno.EACCES: "Ask for permission to read it.",
    errno.EIO: "The disk reports an error: try another copy.",
    errno.ELOOP: "Its symbolic links go round in a circle.",
}
# How the names of compressed files end, without which these tools do not decompress them in place.
ENDS = {"gunzip": (".gz", ".Z"), "bunzip2": (".bz2",), "unxz": (".xz",), "unzstd": (".zst",)}
# The first bytes of files that are no FITS files, and what to do.
SORTS: Tuple[Tuple[bytes, str, str], ...] = (
    (b"\x1f\x8b", "compressed as a whole by gzip", "gunzip"),
    (b"\x1f\x9d", "compressed as a whole by compress", "gunzip"),
    (b"BZh", "compressed as a whole by bzip2", "bunzip2"),
    (b"\xfd7zXZ\0", "compressed as a whole by xz", "unxz"),
    (b"\x28\xb5\x2f\xfd", "compressed as a whole by zstd", "unzstd"),
    (b"PK\x03\x04", "a ZIP archive", "unzip"),
    (b"\x89HDF\r\n", "an HDF5 file", ""),
    (b"\x89PNG", "a PNG picture", ""),
    (b"\xff\xd8\xff", "a JPEG picture", ""),
    (b"%PDF", "a PDF document", ""),
)
LIMITS = {"axis": "2,147,483,647 pixels along an axis", "axes": "9 axes", "header": "256 blocks in a header"}
STANDS_ONCE = {"ZTENSION": "ZSIMPLE", "ZSIMPLE": "ZTENSION"}
NUMBERED = re.compile(r"(NAXIS|ZNAXIS)([1-9][0-9]*)")


def first_bytes(path: Name, many: int = 512) -> bytes:
    """The first bytes of a file."""
    with open(path, "rb") as file:
        return file.read(many)


def decompress(tool: str, path: Name) -> str:
    """The command that decompresses a file; a name that the tool does not take goes by standard output."""
    name = shlex.quote(shown(path))
    return f"{tool} {name}" if tool not in ENDS or shown(path).endswith(ENDS[tool]) else f"{tool} -c {name} > NEW"


def sort_of(path: Name) -> str:
    """What a file is that is no FITS file, and what to do; empty if nothing is known."""
    if not stat.S_ISREG(os.stat(path).st_mode):
        return "It is a pipe or a device, which fz does not read: copy it to a file first."
    start = first_bytes(path)
    if not start:
        return "It is empty: fetch it again."
    for magic, sort, tool in SORTS:
        if start.startswith(magic):
            return f"It is {sort}." + (f" Decompress it first: {decompress(tool, path)}" if tool else "")
    lowered = start.lstrip().lower()
    if lowered.startswith((b"<!doctype", b"<html", b"<?xml")):
        return "It is a web page: often a server answered with an error or asked for a login. Fetch it again."
    if not start.startswith((b"SIMPLE  ", b"XTENSION")) and all(it in b"\t\n\r\f" or 32 <= it for it in start):
        return "It is a text file, not a FITS file."
    return ""


def counted(many: int, what: str = "byte") -> str:
    """A number with its noun.

    >>> counted(1), counted(2880)
    ('1 byte', '2,880 bytes')
    """
    return f"{many:,} {what}{'' if many == 1 else 's'}"


def truncate(path: Name, length: int) -> str:
    """The command of the system that gives a copy of the file this length."""
    return f"cp {shlex.quote(shown(path))} COPY && truncate -s {length} COPY"


def of_usage(asked: str) -> str:
    """What to do about words that are not taken."""
    if re.search(r"--tile=\d+x", asked):
        return "Lengths of tiles are written with commas, 64,64, and not as list prints them, 64x64."
    return "man fz has the options of each command."


def of_not_fits(error: Refused, path: Name, _header: Optional[Header]) -> None:
    """A file that does not begin as a FITS file."""
    error.advice = sort_of(path)


def of_truncated(error: Refused, path: Name, header: Optional[Header]) -> None:
    """A file that ends early: whether it is one at all, whether only padding is missing, or how much of what."""
    error.advice = sort_of(path)
    if error.advice:
        return
    length = error.place.number
    if header is None:
        start = max((it.end for it in headers(path)), default=0)
        error.advice = f"The header of HDU {error.hdu}, which begins at byte {start}, is not whole: {counted(length - start)} of it are there."
        if start:
            error.advice += f" A file of the HDUs before it: {truncate(path, start)}"
            error.mends = "part_hdu"
        return
    there, wanted = max(0, length - header.data), header.size
    if there < wanted:
        error.advice = f"{wanted - there:,} of the {wanted:,} bytes of the data of HDU {error.hdu} are missing: fetch the file again."
        return
    error.mends = "pad"
    error.advice = f"Only padding is missing, {counted(header.end - length)}. Add it: {truncate(path, header.end)}"


def of_trailing(error: Refused, path: Name, _header: Optional[Header]) -> None:
    """Bytes after the last HDU: how many, and what they are."""
    at = error.place.number
    more = os.path.getsize(path) - at
    with open(path, "rb") as file:
        file.seek(at)
        zeros = not file.read(1 << 20).strip(b"\0")
    error.mends = "trailing"
    error.advice = f"There {'is' if more == 1 else 'are'} {counted(more)} after the last HDU{', all of them zeros' if zeros and more <= 1 << 20 else ''}. Without them: {truncate(path, at)}"


def of_padding(error: Refused, path: Name, header: Optional[Header]) -> None:
    """What stands in the padding of the header or of the data."""
    if header is None:
        return
    in_header = error.kind == "HeaderFill"
    start, end = error.place.number, header.data if in_header else header.end
    with open(path, "rb") as file:
        file.seek(start)
        found = file.read(end - start)
    many = sum(1 for it in found if it != (32 if in_header else 0))
    error.mends = "header_fill" if in_header else "data_fill"
    blanks = not in_header and not found.strip(b" ")
    part, right = ("header", "blank") if in_header else ("data", "zero")
    error.advice = f"{counted(many)} of the padding of the {part} of HDU {error.hdu} {'is' if many == 1 else 'are'} not {right}{', but blank' if blanks else ''}."


def same_name(one: Card, other: Card) -> bool:
    """Whether two cards count as one keyword."""
    return other.keyword in (one.keyword, STANDS_ONCE.get(one.keyword))


def of_duplicate(error: Refused, _path: Name, header: Optional[Header]) -> None:
    """Which earlier card the card repeats."""
    if header is None or error.card is None:
        return
    card = error.card
    error.earlier = next((it for it in header.cards[: card.number] if same_name(card, it)), None)
    if error.earlier is not None and {card.keyword, error.earlier.keyword} == {"ZSIMPLE", "ZTENSION"}:
        error.mends = "zsimple"
        error.advice = "astropy 6 and later write both if they pack an extension with the header of a primary image."


def of_bad_card(error: Refused, _path: Name, header: Optional[Header]) -> None:
    """Which keyword has to be at the place, or is missing from a packed header."""
    number = error.place.number
    wanted = {1: "BITPIX", 2: "NAXIS"}.get(number)
    if header is None:
        return
    axes = header.integer("NAXIS")
    if 3 <= number < 3 + axes:
        wanted = f"NAXIS{number - 2}"
    if header.number > 0 and number in (3 + axes, 4 + axes):
        wanted = ("PCOUNT", "GCOUNT")[number - 3 - axes]
    if wanted and (error.card is None or error.card.keyword != wanted):
        error.advice = f"Card {number} has to be {wanted}."
    elif number == len(header.cards) and header.is_packed:
        needed = ["TFIELDS", "ZCMPTYPE", "ZBITPIX", "ZNAXIS"] + [f"ZNAXIS{it + 1}" for it in range(min(header.integer("ZNAXIS"), 999))]
        error.missing = tuple(it for it in needed if header.card(it) is None)


def of_limit(error: Refused, _path: Name, header: Optional[Header]) -> None:
    """Which limit is exceeded."""
    if error.place.unit == "byte":
        error.limit = "65,536 HDUs, 65,535 to be packed"
        return
    if header is None:
        return
    card = error.card
    if card is None:
        error.limit = LIMITS["header"]
    elif NUMBERED.fullmatch(card.keyword):
        error.limit = LIMITS["axis"]
    elif isinstance(card.value, int) and card.value > 9:
        error.limit = LIMITS["axes"]
    else:
        error.limit = limit_of_sizes(header)
        error.advice = "Give smaller tiles, tile=(64, 64)." if error.limit.endswith("in a tile") else ""


def limit_of_sizes(header: Header) -> str:
    """Which limit of pixels, tiles or bytes the sizes of an HDU exceed."""
    axes = header.axes
    if math.prod(axes) > 1 << 40:
        return "2^40 pixels in an image"
    if header.is_packed and math.prod(header.tile) > 1 << 26:
        return "2^26 pixels in a tile"
    if header.is_packed and math.prod(-(-axis // it) for axis, it in zip(axes, header.tile) if it) > (1 << 31) - 1:
        return "2^31 - 1 tiles in an image"
    if header.end > 1 << 62:
        return "2^62 bytes in a file"
    return "2^26 pixels in a tile" if not header.is_packed else "2^31 - 1 tiles in an image"


def of_codec(error: Refused, _path: Name, _header: Optional[Header]) -> None:
    """Which codec the image has."""
    if error.card is not None and error.card.keyword != "ZCMPTYPE":
        error.advice = f"The Rice code is of numbers of {error.card.value} bytes."


def of_not_packed(error: Refused, path: Name, _header: Optional[Header]) -> None:
    """Which HDUs of the file are packed, if any are."""
    found = list(headers(path))
    packed = [str(it.number) for it in found if it.is_packed]
    if packed:
        error.advice = f"Packed images of this file: HDU {', '.join(packed)}."
    elif any(it.is_packable for it in found):
        error.advice = "No image of this file is packed: pack it first, and cut from the packed file."
    else:
        error.advice = f"This file has no packed image, and none of its {len(found)} HDUs is an integer image that pack would pack."


def of_box(error: Refused, _path: Name, header: Optional[Header]) -> None:
    """The axes of the image."""
    if header is None:
        return
    passed = NUMBERED.fullmatch(error.card.keyword) if error.card is not None else None
    if passed is not None and int(passed[2]) <= len(header.axes):
        error.advice = f"The box passes the end of axis {passed[2]} ({header.axes[int(passed[2]) - 1]} pixels): the image has {'x'.join(map(str, header.axes))} pixels, axis 1 first."
    else:
        error.advice = f"The image has {len(header.axes)} axes, {'x'.join(map(str, header.axes))} pixels, axis 1 first."


OF_KIND: Dict[str, Callable[[Refused, Name, Optional[Header]], None]] = {
    "NotFits": of_not_fits,
    "Truncated": of_truncated,
    "TrailingBytes": of_trailing,
    "HeaderFill": of_padding,
    "DataFill": of_padding,
    "Duplicate": of_duplicate,
    "BadCard": of_bad_card,
    "Limit": of_limit,
    "UnknownCodec": of_codec,
    "NotPacked": of_not_packed,
    "OutOfBox": of_box,
}


def of_refused(error: Refused, path: Name, header: Optional[Header]) -> None:
    """Adds what is known about this file to a refusal."""
    if error.place.unit == "row" and header is not None and header.is_packed:
        pixels = pixels_of_row(header, error.place.number)
        error.advice = f"Row {error.place.number} is the tile of the pixels {pixels}; the others may be whole, and cut reads them." if pixels else ""
    if error.kind in OF_KIND:
        OF_KIND[error.kind](error, path, header)
