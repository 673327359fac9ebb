"""Bytes and numbers as libfz takes them: places in memory, with numpy if it is installed and else with `array` and `ctypes`.

libfz reads and writes 32-bit numbers, one for a pixel; a pixel of 64 bits is two, the upper half and then the lower one.
"""
from __future__ import annotations

import ctypes
import sys
import threading
from array import array
from typing import Any, Optional, Tuple

from .errors import BadArgument

try:
    import numpy as np
except ImportError:
    np = None  # type: ignore[assignment]

# The type of a pixel by its bits: that of numpy, and that of `array`.
TYPES = {8: ("u1", "B"), 16: ("i2", "h"), 32: ("i4", "i"), 64: ("i8", "q")}
BITS = {"B": 8, "h": 16, "i": 32, "l": 8 * array("l").itemsize, "q": 64}
LITTLE = sys.byteorder == "little"
DTYPES = {} if np is None else {bits: np.dtype(name) for bits, (name, _) in TYPES.items()}
OCTET = DTYPES.get(8)
# What begins at an address.
ANYWHERE = ctypes.c_char * 0


# Where elements are, how many, and what keeps them there. (A tuple, and no class: a tile of 4,096 pixels takes 20 microseconds.)
Place = Tuple[Any, int, Any]


def place_of(flat: Any) -> Place:
    """The place of a flat numpy array. (An address by `from_buffer` takes a third of the time of one by `flat.ctypes`.)"""
    try:
        return ANYWHERE.from_buffer(flat), flat.size, flat
    except (TypeError, ValueError, BufferError):
        return flat.ctypes.data, flat.size, flat  # it is read-only


def writable_place(thing: Any, size: int, count: int) -> Place:
    """The place of `count` elements in an object of `array` or a bytearray that has `size` bytes."""
    return ((ctypes.c_char * size).from_buffer(thing) if size else ctypes.create_string_buffer(8)), count, thing


def bytes_in(data: Any) -> Place:
    """The bytes of any object that has some."""
    if np is None:
        data = bytes(data)
        return data, len(data), data
    if isinstance(data, np.ndarray):
        is_flat = data.dtype is OCTET and data.ndim == 1 and data.flags.c_contiguous
        return place_of(data if is_flat else np.ascontiguousarray(data).reshape(-1).view(np.uint8))
    return place_of(np.frombuffer(data, np.uint8) if len(data) else np.zeros(0, np.uint8))


class Spare(threading.local):
    """Room for 32-bit numbers that are converted at once: each thread keeps one, with its address, while no call has it."""

    kept: Optional[Place] = None

    def take(self, count: int) -> Place:
        """Room for so many numbers or more, which nobody else has until it is given back."""
        kept, self.kept = self.kept, None
        if kept is None or kept[1] < count or count == 0:
            flat = np.empty(count, np.intc)
            kept = flat.ctypes.data, count, flat
        return kept

    def give(self, place: Place) -> None:
        """Gives it back. What is over 16 MB is not kept."""
        if place[1] <= 1 << 22:
            self.kept = place


def bits_of(numbers: Any) -> int:
    """The bits of a pixel: those of the type of the numbers."""
    if np is not None and not isinstance(numbers, (array, list, tuple)):
        kind = np.asarray(numbers).dtype
        bits = 8 * kind.itemsize
        if bits in TYPES and kind.kind == TYPES[bits][0][0]:
            return bits
        raise BadArgument(f"no pixels have the type {kind}: they are uint8, int16, int32 or int64; bitpix says another size", None)
    if isinstance(numbers, array) and numbers.typecode in BITS:
        return BITS[numbers.typecode]
    raise BadArgument("the numbers do not say how many bits a pixel has: bitpix does", None)


def numbers_in(numbers: Any, bits: int) -> Place:
    """Numbers of pixels as libfz reads them. Raises `BadArgument` if they are not integers, or some need more than 32 or 64 bits."""
    if np is None:
        return listed(list(numbers), bits)
    found = np.asarray(numbers).reshape(-1)
    if found.dtype.kind not in "iub" and found.size:
        raise BadArgument(f"the numbers are {found.dtype}, and not integers", None)
    wanted = np.dtype(np.int64 if bits == 64 else np.intc)
    if not np.can_cast(found.dtype, wanted) and found.size:
        limits = np.iinfo(wanted)
        if int(found.min()) < limits.min or int(found.max()) > limits.max:
            raise BadArgument(f"a number is outside the range of {wanted}", None)
    flat = np.ascontiguousarray(found, wanted)
    if bits == 64:
        halves = flat.view(np.intc).reshape(-1, 2)
        flat = np.ascontiguousarray(halves[:, ::-1] if LITTLE else halves).reshape(-1)
    return place_of(flat)


def listed(numbers: Any, bits: int) -> Place:
    """The same without numpy."""
    try:
        if bits == 64:
            flat = array("i", (half for it in numbers for half in (it >> 32, ((it & 0xFFFFFFFF) ^ 0x80000000) - 0x80000000)))
        else:
            flat = array("i", numbers)
    except (OverflowError, TypeError) as error:
        raise BadArgument(f"the numbers are no integers of {max(bits, 32)} bits: {error}", None) from error
    return writable_place(flat, 4 * len(flat), len(flat))


class Numbers:
    """Room for the pixels that a call writes, and what the caller gets of them: `out` filled, or a new array of the pixels' type.

    `address` and `cells` are what libfz gets: where it writes, and how many 32-bit numbers.
    """

    def __init__(self, count: Optional[int], bits: int, out: Any, code: Any) -> None:
        self.bits, self.out = bits, out
        if out is not None:
            count = self.check_out(count)
        if count is None or count < 0:
            raise BadArgument("count, the number of pixels, is wanted, or out", None)
        self.cells = 2 * count if bits == 64 else count
        self.place = self.room(code)
        self.address, _, self.flat = self.place

    def check_out(self, count: Optional[int]) -> int:
        """How many pixels `out` holds. Raises `BadArgument` if it cannot hold those that are wanted."""
        if np is not None:
            self.view: Any = np.asarray(self.out if isinstance(self.out, np.ndarray) else memoryview(self.out))
            size, fits, writable = self.view.size, np.can_cast(DTYPES[self.bits], self.view.dtype), self.view.flags.writeable
        else:
            self.view = memoryview(self.out)
            size, fits, writable = self.view.nbytes // self.view.itemsize, BITS.get(self.view.format, 0) >= self.bits, not self.view.readonly
        if count is not None and size != count:
            raise BadArgument(f"out has {size} numbers, and {count} are wanted", None)
        if not fits or not writable:
            raise BadArgument(f"out is read-only, or its type does not hold {self.bits}-bit pixels", None)
        return int(size)

    def room(self, code: Any) -> Place:
        """The place that libfz writes to: `out` itself if it has the form for it and shares no byte with the code."""
        if np is None:
            return writable_place(array("i", bytes(4 * self.cells)), 4 * self.cells, self.cells)
        if self.out is not None and self.bits < 64 and self.view.dtype == np.intc and self.view.flags.carray and not np.may_share_memory(self.view, code):
            return self.view.ctypes.data, self.cells, self.view
        return place_of(np.empty(self.cells, np.intc)) if self.bits == 32 else SPARE.take(self.cells)

    def result(self) -> Any:
        """The pixels."""
        flat = self.flat
        if np is None:
            return self.result_of_array()
        if self.out is not None and flat is self.view:
            return self.out
        if self.bits < 32:
            flat = flat[: self.cells]
        elif self.bits == 64:
            halves = flat[: self.cells].reshape(-1, 2)
            flat = np.ascontiguousarray(halves[:, ::-1] if LITTLE else halves).view(np.int64).reshape(-1)
        if self.out is not None:
            self.view[...] = flat.reshape(self.view.shape)
        elif self.bits < 32:
            flat = flat.astype(DTYPES[self.bits])
        if self.bits != 32:
            SPARE.give(self.place)
        return flat if self.out is None else self.out

    def result_of_array(self) -> Any:
        """The same without numpy."""
        pixels = joined(self.flat) if self.bits == 64 else self.flat
        if self.out is None:
            return array(TYPES[self.bits][1], pixels)
        self.view[:] = memoryview(array(self.view.format, pixels))
        return self.out


def narrow(place: Place, count: int, bits: int) -> Any:
    """A new array of pixels of 8 or 16 bits from the place that `SPARE.take` gave, which is given back."""
    found = place[2][:count].astype(DTYPES[bits])
    SPARE.give(place)
    return found


def joined(halves: Any) -> Any:
    """Pixels of 64 bits from their halves."""
    return ((upper << 32) | (lower & 0xFFFFFFFF) for upper, lower in zip(halves[::2], halves[1::2]))


class Room:
    """Room for the bytes that a call writes: `out`, or a new one of so many bytes."""

    def __init__(self, size: int, out: Any) -> None:
        self.out = memoryview(out).cast("B") if out is not None else None
        if self.out is not None and self.out.readonly:
            raise BadArgument("out is read-only", None)
        self.bytes = bytearray(size) if self.out is None else self.out
        length = len(self.bytes)
        self.address, self.length, _ = writable_place(self.bytes, length, length)

    def first(self, count: int) -> Any:
        """The bytes that were written: new ones, or the front of `out`."""
        return bytes(memoryview(self.bytes)[:count]) if self.out is None else self.out[:count]


SPARE = Spare()
