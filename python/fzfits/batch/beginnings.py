"""What a file of `DIR` is by its first bytes, if its name alone does not say it: a FITS file, or one that another program compressed."""
from __future__ import annotations

import os
import zlib
from importlib import import_module
from typing import Any, Callable, Dict, Optional

from . import inside

FITS = b"SIMPLE  = "
# bzip2 gives nothing before the end of its first block, which has at most 900 kB before it is compressed.
HEAD = 1 << 20
PLAIN, PACKED = "plain", "packed"


def _gzip(data: bytes) -> bytes:
    return zlib.decompressobj(wbits=31).decompress(data, len(FITS))


def _by(module: str, name: str) -> "Callable[[bytes], bytes]":
    def begin(data: bytes) -> bytes:
        # it is imported for such a file only
        made: Any = getattr(import_module(module), name)()
        found: bytes = made.decompress(data, len(FITS))
        return found

    return begin


# The first bytes of what programs write that compress whole files: gzip, bzip2, xz, and those that Python does not read (compress, zstd,
# lz4, lzip, zip, 7z), of which the name alone tells.
FORMATS: "Dict[bytes, Optional[Callable[[bytes], bytes]]]" = {
    b"\x1f\x8b": _gzip, b"BZh": _by("bz2", "BZ2Decompressor"), b"\xfd7zXZ\0": _by("lzma", "LZMADecompressor"),
    b"\x1f\x9d": None, b"\x28\xb5\x2f\xfd": None, b"\x04\x22\x4d\x18": None, b"LZIP": None, b"PK\x03\x04": None, b"7z\xbc\xaf\x27\x1c": None,
}


def of(root: bytes, path: bytes) -> str:
    """PLAIN if a file below a folder begins as a FITS file does, PACKED if it is one that another program compressed, or the empty text."""
    try:
        with inside.file(root, path) as number:
            head = os.pread(number, HEAD, 0)
    except OSError:
        return ""
    if head.startswith(FITS):
        return PLAIN
    return PACKED if any(head.startswith(it) and _begins(begin, head) for it, begin in FORMATS.items()) else ""


def _begins(begin: "Optional[Callable[[bytes], bytes]]", head: bytes) -> bool:
    """Whether what was compressed begins as a FITS file, as far as that can be said."""
    if begin is None:
        return True
    try:
        found = begin(head)
    except Exception:  # pylint: disable=broad-except
        # it is damaged, or this Python was built without the module
        return True
    return FITS.startswith(found[: len(FITS)])
