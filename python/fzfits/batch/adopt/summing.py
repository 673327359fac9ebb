"""The verdicts on DATASUM and CHECKSUM of an HDU that fz is not asked about: by libfz or numpy, if one of them is installed."""
from __future__ import annotations

import os
import sys
from functools import lru_cache
from typing import Callable, Optional, Tuple

from ... import sums
from ...headers import Header

PIECE = 1 << 20
WRAP = 0xFFFFFFFF
# numpy takes as long to import as Python itself takes to add so many bytes: so it is imported for those that follow.
BEFORE_NUMPY = 16 << 20
Added = Callable[[int, bytes], int]
_left = [BEFORE_NUMPY]


def _added(size: int) -> Added:
    """What adds bytes to a sum, all but the last of them in whole words: the fastest that there is, if so many bytes come."""
    found = _of_library()
    if found is None and (_left[0] < size or "numpy" in sys.modules):
        found = _of_numpy()
    _left[0] -= size
    return found or sums.added


@lru_cache(maxsize=None)
def _of_numpy() -> Optional[Added]:
    try:
        import numpy  # pylint: disable=import-outside-toplevel
    except ImportError:
        return None

    def added(total: int, data: bytes) -> int:
        if len(data) % 4:
            return sums.added(total, data)
        total += int(numpy.frombuffer(data, ">u4").sum(dtype="u8"))
        while total >> 32:
            total = (total & WRAP) + (total >> 32)
        return total

    return added


@lru_cache(maxsize=None)
def _of_library() -> Optional[Added]:
    from ... import library  # pylint: disable=import-outside-toplevel

    try:
        found = library.load()
    except library.NoLibrary:
        return None

    def added(total: int, data: bytes) -> int:
        made = library.U32()
        library.check(found.fz_sum(total, data, len(data), made))
        return int(made.value)

    return added


def sum_of(number: int, start: int, end: int) -> int:
    """The sum of the bytes of a part of an open file."""
    total, added = 0, _added(end - start)
    while start < end:
        piece = os.pread(number, min(PIECE, end - start), start)
        if not piece:
            break
        start += len(piece)
        total = added(total, piece)
    return total


def verdicts(number: int, header: Header) -> "Tuple[str, str]":
    """The verdicts on DATASUM and CHECKSUM."""
    text, check = header.value("DATASUM"), header.value("CHECKSUM")
    has_text, has_check = (isinstance(it, str) and bool(it.strip()) for it in (text, check))
    if not (has_text or has_check):
        return "none", "none"
    of_data = sum_of(number, header.data, header.end)
    datasum = checksum = "none"
    if has_text:
        digits = str(text).strip()
        datasum = "ok" if digits.isdigit() and int(digits[:20]) == of_data else "wrong"
    if has_check:
        checksum = "ok" if sums.added(of_data, header.raw) == WRAP else "wrong"
    return datasum, checksum
