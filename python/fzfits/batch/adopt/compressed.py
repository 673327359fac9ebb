"""Files that another program compressed as a whole: whether they can be decompressed to their last byte, and whether that begins and ends as a FITS file."""
from __future__ import annotations

import hashlib
import os
import zlib
from importlib import import_module
from typing import Any, Callable, Dict, Iterator, Optional

from ...headers import BLOCK
from .. import files

PIECE = 1 << 20
GZIP = b"\x1f\x8b"
# How a FITS file begins.
FIRST = b"SIMPLE  ="
# A file is decompressed to so many times its length, and this much more; of what would become longer nothing is said.
RATIO, MORE = 2000, 1 << 30
# xz -9 needs 65 MB.
MEMORY = 1 << 28
NOT_READ = "fzbatch does not read this compression: only its SHA-256 is kept"
GROWS = "it would become far longer than an image of its size: it was not decompressed"


def _gzip() -> Any:
    return zlib.decompressobj(wbits=31)


def _begin_of(module: str, name: str, *words: Any) -> "Optional[Callable[[], Any]]":
    """What begins to decompress, or None if this Python was built without the module."""
    try:
        made = getattr(import_module(module), name)
    except ImportError:
        return None
    return lambda: made(*words)


# By the bytes with which a file begins; those without a function are not read.
FORMATS: "Dict[bytes, Optional[Callable[[], Any]]]" = {
    GZIP: _gzip, b"BZh": _begin_of("bz2", "BZ2Decompressor"), b"\xfd7zXZ\0": _begin_of("lzma", "LZMADecompressor", 0, MEMORY), b"\x28\xb5\x2f\xfd": None, b"\x1f\x9d": None, b"PK\x03\x04": None,
}


class Grows(Exception):
    """A file that would become too long."""


class Damaged(Exception):
    """A file that cannot be decompressed."""


def begins_so(head: bytes) -> "Optional[bytes]":
    """The format of a file that begins with these bytes, or None."""
    return next((it for it in FORMATS if head.startswith(it)), None)


def fault_of(number: int, size: int, kind: bytes, check_time: "Callable[[], object]") -> str:
    """What is wrong with an open file: it cannot be decompressed, or what comes out is empty, no FITS file, or cut off. The empty text if nothing.

    Raises `Grows` if it would become too long, and what `check_time` raises if it takes too long.
    """
    head, many = b"", 0
    try:
        for piece in pieces(number, size, kind, check_time):
            head, many = (head + piece[: len(FIRST)])[: len(FIRST)], many + len(piece)
    except Damaged as error:
        return f"it cannot be decompressed: {error}"
    if not many:
        return "it is empty once it is decompressed"
    if head != FIRST:
        return "it is no FITS file once it is decompressed: it does not begin with SIMPLE"
    return f"it is cut off: {many:,} bytes come out, which are no whole blocks of {BLOCK:,}" if many % BLOCK else ""


def pieces(number: int, size: int, kind: bytes, check_time: "Callable[[], object]") -> "Iterator[bytes]":
    """What comes out of an open file: each of its members, and what is after the last one. Raises `Damaged` too."""
    begin = FORMATS[kind]
    assert begin is not None
    left, room, at = begin(), RATIO * size + MORE, 0
    while at < size:
        piece = os.pread(number, min(PIECE, size - at), at)
        if not piece:
            raise Damaged("the file ends before")
        at += len(piece)
        while piece:
            check_time()
            if left.eof:
                # the next member, after the zeros that fill the block of a tape
                piece = piece.lstrip(b"\0")
                if not piece:
                    break
                left = begin()
            for made in _step(left, piece):
                room -= len(made)
                if room < 0:
                    raise Grows
                yield made
            piece = left.unused_data if left.eof else getattr(left, "unconsumed_tail", b"")
    if not left.eof:
        raise Damaged("it has no end")


def _step(left: Any, piece: bytes) -> "Iterator[bytes]":
    """What comes out of some of a piece, in pieces."""
    try:
        yield left.decompress(piece, PIECE)
        while hasattr(left, "needs_input") and not left.eof and not left.needs_input:
            yield left.decompress(b"", PIECE)
    except Exception as error:  # pylint: disable=broad-except
        # each module has errors of its own
        raise Damaged(str(error) or type(error).__name__) from error


def content_of(number: int, looked: files.Looked, check_time: "Callable[[], object]") -> "Optional[str]":
    """The SHA-256 of what comes out of an open file, or of its bytes if it is not compressed. None if that cannot be known."""
    kind = begins_so(os.pread(number, 10, 0))
    if kind is None:
        return looked.sha256
    total = hashlib.sha256()
    try:
        for it in pieces(number, looked.size, kind, check_time) if FORMATS[kind] is not None else ():
            total.update(it)
    except (Damaged, Grows):
        return None
    return total.hexdigest() if FORMATS[kind] is not None else None
