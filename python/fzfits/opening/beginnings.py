"""The first pixels of a Rice code, without the others. They are read so only of tiles that were decoded whole before, and so were not refused."""
from __future__ import annotations

import ctypes
from functools import lru_cache
from typing import Any, Callable, Optional, Tuple

from ..library import load
from .images import RICE
from .plans import Plan, Record

U32, U64, I32, SIZE, POINTER = ctypes.c_uint32, ctypes.c_uint64, ctypes.c_int32, ctypes.c_size_t, ctypes.c_void_p
# Reads so many pixels of a record, a multiple of the block, to an address. Answers whether it did.
Beginner = Callable[[Record, int, int], bool]


class FzMark(ctypes.Structure):
    """`struct fz_mark` of fz.h."""

    _fields_ = [("bit", U64), ("last", U32)]


CALLS = {
    "fz_first_mark": [U32, U32, U32, I32, POINTER, SIZE, ctypes.POINTER(FzMark)],
    "fz_decode_part": [U32, U32, U32, I32, POINTER, SIZE, ctypes.POINTER(FzMark), POINTER, SIZE],
}


@lru_cache(maxsize=None)
def calls() -> Tuple[Any, Any]:
    """The two calls of libfz."""
    library = load()
    for name, arguments in CALLS.items():
        call = getattr(library, name)
        call.argtypes, call.restype = arguments, I32
    return library.fz_first_mark, library.fz_decode_part


def beginner(plan: Plan, base: int) -> Optional[Beginner]:
    """What reads the first pixels of tiles, of which byte 0 of the file would be at the address `base`; None if the codec has no parts."""
    if plan.codec != RICE:
        return None
    (first, part), mark = calls(), FzMark()
    codec, block, bytepix, bitpix = plan.codec, plan.block, plan.bytepix, plan.bitpix

    def read(record: Record, numbers: int, count: int) -> bool:
        start, _, length, column, _ = record
        if column or first(codec, block, bytepix, bitpix, base + start, length, mark):
            return False
        return not part(codec, block, bytepix, bitpix, base + start, length, mark, numbers, count)

    return read
