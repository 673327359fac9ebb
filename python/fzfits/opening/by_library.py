"""Headers, rows and tiles by the calls of libfz for packed images: `fz_front_len`, `fz_hdu`, `fz_plan`, `fz_row` and `fz_tile`.

include/fz.h says what each call does; the structs here are its structs.
"""
from __future__ import annotations

import ctypes
from typing import Any, List, Optional, Sequence, Tuple

from ..library import ARGUMENTS
from .faults import Fault
from .layer import Decoder
from .plans import SORTS, Arrays, At, Plan, Record, Said

U32, U64, I32, SIZE, POINTER = ctypes.c_uint32, ctypes.c_uint64, ctypes.c_int32, ctypes.c_size_t, ctypes.c_void_p
UNITS = ("byte", "card", "row")


class FzAt(ctypes.Structure):
    """`struct fz_at`."""

    _fields_ = [("start", U64), ("length", U64), ("hdu", U32), ("after_empty", U32)]


class FzHdu(ctypes.Structure):
    """`struct fz_hdu`."""

    _fields_ = [("data_at", U64), ("data_len", U64), ("next_at", U64), ("header_len", U32), ("sort", U32), ("packed", U32), ("bitpix", I32), ("axes", U32), ("lengths", U32 * 9)]


class FzFault(ctypes.Structure):
    """`struct fz_fault`."""

    _fields_ = [("at", U64), ("at_sort", U32), ("hdu", U32), ("kind", U32)]


class FzArrays(ctypes.Structure):
    """`struct fz_arrays`."""

    _fields_ = [("at", U32), ("wide", U32), ("unit", U32)]


class FzPlan(ctypes.Structure):
    """`struct fz_plan`."""

    _fields_ = [
        ("rows_at", U64), ("heap_at", U64), ("heap_len", U64), ("row_bytes", U32), ("rows", U32),
        ("coded", FzArrays), ("stored", FzArrays), ("gzip", FzArrays),
        ("codec", U32), ("block", U32), ("bytepix", U32), ("bitpix", I32), ("axes", U32), ("lengths", U32 * 9), ("tile", U32 * 9), ("primary", U32),
    ]


class FzRecord(ctypes.Structure):
    """`struct fz_record`."""

    _fields_ = [("start", U64), ("total", U64), ("read", U64), ("column", U32)]


CALLS = {
    "fz_front_len": [POINTER, SIZE, ctypes.POINTER(FzAt), ctypes.POINTER(U64)],
    "fz_hdu": [POINTER, SIZE, ctypes.POINTER(FzAt), ctypes.POINTER(FzHdu), ctypes.POINTER(FzFault)],
    "fz_plan": [POINTER, SIZE, ctypes.POINTER(FzAt), ctypes.POINTER(FzPlan), ctypes.POINTER(FzFault)],
    "fz_row": [ctypes.POINTER(FzPlan), U32, POINTER, SIZE, ctypes.POINTER(FzRecord)],
    "fz_tile": [ctypes.POINTER(FzPlan), U32, ctypes.POINTER(FzRecord), POINTER, SIZE, POINTER, SIZE],
}
# What is refused before a header is whole has one place: card 0, the length of the file, or the byte at which the HDU begins.
AT_CARD, AT_LENGTH = (1,), (2,)


class ByLibrary:
    """The layer over a libfz that has these calls. AttributeError says that it has not."""

    def __init__(self, library: ctypes.CDLL) -> None:
        for name, arguments in CALLS.items():
            call = getattr(library, name)
            call.argtypes, call.restype = arguments, I32
        self.front_len, self.hdu, self.of_plan, self.row, self.tile = (getattr(library, it) for it in CALLS)

    def more(self, front: bytes, at: At) -> int:
        """How many bytes of the header are wanted after those of `front`."""
        more = U64()
        answer = self.front_len(front, len(front), at_of(at), more)
        if answer and -answer < 100:
            unit, place = ("card", 0) if -answer in AT_CARD else ("byte", at.length if -answer in AT_LENGTH else at.start)
            raise Fault(-answer, unit, place)
        check(answer)
        return more.value

    def said(self, front: bytes, at: At) -> Said:
        """What a whole header says."""
        found = FzHdu()
        self.told(self.hdu, front, at, found)
        return Said(found.header_len, found.data_at, found.data_len, found.next_at, SORTS[found.sort], bool(found.packed), found.bitpix, tuple(found.lengths[: found.axes]))

    def plan(self, front: bytes, at: At, said: Said) -> Plan:
        """The plan of the packed image of an HDU."""
        found = FzPlan()
        self.told(self.of_plan, front, at, found)
        coded, stored, gzip = (arrays_of(it) for it in (found.coded, found.stored, found.gzip))
        lengths, tile = tuple(found.lengths[: found.axes]), tuple(found.tile[: found.axes])
        where = found.rows_at, found.heap_at, found.heap_len, found.row_bytes, found.rows
        return Plan(*where, coded, stored, gzip, found.codec, found.block, found.bytepix, found.bitpix, lengths, tile, bool(found.primary), found)

    def told(self, call: Any, front: bytes, at: At, found: Any) -> None:
        """Calls, and raises the fault that the call tells."""
        fault = FzFault()
        answer = call(front, len(front), at_of(at), found, fault)
        if answer and -answer < 100:
            raise Fault(fault.kind, UNITS[fault.at_sort], fault.at)
        check(answer)

    def records(self, plan: Plan, tiles: Sequence[int], pixels: Sequence[int], rows: bytes, first: int) -> Tuple[List[Record], Optional[Fault]]:
        """Where the bytes of these tiles are."""
        call, own, width = self.row, plan.own, plan.row_bytes
        found: List[Record] = []
        for tile in tiles:
            at, record = (tile - first) * width, FzRecord()
            answer = call(own, tile, rows[at : at + width], width, record)
            if answer and -answer < 100:
                return found, Fault(-answer, "row", tile)
            check(answer)
            found.append((record.start, record.total, record.read, record.column, record))
        return found, None

    def decoder(self, plan: Plan, base: int) -> Decoder:
        """What decodes tiles."""
        call, own = self.tile, plan.own

        def decode(tile: int, record: Record, numbers: int, places: int) -> int:
            answer = call(own, tile, record[4], base + record[0], record[2], numbers, places)
            if answer < -100:
                check(answer)
            return answer  # type: ignore[no-any-return]

        return decode


def check(answer: int) -> None:
    """An answer that says that this package has passed what there is not: a fault of the package."""
    if answer:
        raise AssertionError(f"libfz answers {answer}: {ARGUMENTS.get(answer, 'no such HDU, plan or tile, or too few bytes')}")


def at_of(at: At) -> FzAt:
    """The struct for a place."""
    return FzAt(at.start, at.length, at.hdu, at.after_empty)


def arrays_of(column: FzArrays) -> Optional[Arrays]:
    """The column, or None if there is none."""
    return Arrays(column.at, bool(column.wide), column.unit) if column.unit else None
