"""The codecs of tiles, in this process: libfz by ctypes, with numpy arrays or with bytes and `array`.

    >>> from fzfits import codec                                                      # doctest: +SKIP
    >>> code = codec.rice_encode(np.array([1000, 1000, 1003], "i2"), bytepix=2)        # doctest: +SKIP
    >>> codec.rice_decode(code, 3, bytepix=2)                                          # doctest: +SKIP
    array([1000, 1000, 1003], dtype=int16)

Codes are any objects that have bytes, in the order in which the heap of a packed table has them. Numbers are arrays of integers of
any shape, flattened with the last axis fastest. The pixels that come back have the type of their size (uint8, int16, int32 or
int64), without BZERO and BSCALE; without numpy they are an `array`. `out` takes the result: any writable array of as many numbers,
of this type or a wider one (int32 in C order is filled in place, with no copy); for bytes any writable buffer, whose front is
answered. After an error it holds some values. Any number of threads may call at once, and Python goes on in other threads during
a call; so change nothing that another thread has passed.

`BadCode` says that the bytes are damaged, with the number and the name of the kind (docs/REFUSALS.md). A damaged code can be a
lawful one of other numbers, and no call notices that: only a checksum of the file does. `BadArgument` says that the caller asked
for something that there is not, and `NoLibrary` that libfz is not there. docs/LIBRARY.md says what is proved.
"""
from __future__ import annotations

import ctypes
from typing import Any, Dict, NamedTuple, Optional

from .buffers import BITS, SPARE, Numbers, Room, bits_of, bytes_in, narrow, np, numbers_in
from .errors import BadArgument
from .library import Coded, check, load, version_of

__all__ = ["CODECS", "COLUMNS", "Record", "checksum", "decode_tile", "encode_tile", "plio_decode", "plio_encode", "rice_decode", "rice_encode", "version"]

# ZCMPTYPE by its number in fz.h.
CODECS = {"NOCOMPRESS": 0, "RICE_1": 1, "RICE_ONE": 1, "PLIO_1": 2}
COLUMNS = {"COMPRESSED_DATA": 0, "UNCOMPRESSED_DATA": 1}
# The bits of the numbers of a Rice code, by BYTEPIX.
WIDTHS = {1: 8, 2: 16, 4: 32}


class Record(NamedTuple):
    """The record of a tile: the column that it belongs to, and its bytes."""

    column: str
    data: Any


def version() -> str:
    """The version of libfz, such as 1.0.0."""
    return version_of(load())


def room_for(pixels: int) -> int:
    """The bytes that are room enough for any code of so many pixels: FZ_TILE_ROOM of fz.h."""
    return 8 * pixels + 64


def width_of(bytepix: int) -> int:
    """The bits of a Rice code's numbers."""
    width = WIDTHS.get(bytepix)
    if width is None:
        raise BadArgument(f"bytepix is {bytepix}, and a Rice code has numbers of 1, 2 or 4 bytes", None)
    return width


def checked(number: int, name: str) -> int:
    """A number that C gets as 32 bits without a sign."""
    if not 0 <= number < 1 << 32:
        raise BadArgument(f"{name} is {number}, and not from 0 to 4,294,967,295", None)
    return number


def rice_decode(code: Any, count: Optional[int], bytepix: int, block: int = 32, *, out: Any = None) -> Any:
    """Reads `count` numbers of `bytepix` bytes from the front of a Rice code in blocks of `block`. `count` may be None if `out` is given.

    FITS 4.0, section 10.4.1. Numbers of one byte are unsigned. `BadCode`: CodeShort, CodeValue.
    """
    width, (given, length, keeper), used = width_of(bytepix), bytes_in(code), ctypes.c_uint64()
    if out is None and count and count > 0 and width < 32 and np is not None:
        # the usual call, in as few steps as there are: for a short tile they take as long as the code
        place = SPARE.take(count)
        check(load().fz_rice_decode(width, checked(block, "block"), given, length, place[0], count, used))
        return narrow(place, count, width)
    numbers = Numbers(count, width, out, keeper)
    check(load().fz_rice_decode(width, checked(block, "block"), given, length, numbers.address, numbers.cells, used))
    return numbers.result()


def rice_encode(numbers: Any, bytepix: int, block: int = 32, *, out: Any = None) -> Any:
    """The Rice code of one number or more, of `bytepix` bytes each, in blocks of `block` (FITS 4.0, section 10.4.1)."""
    width, (given, count, _keeper), used = width_of(bytepix), numbers_in(numbers, 32), ctypes.c_uint64()
    room = Room(room_for(count), out)
    check(load().fz_rice_encode(width, checked(block, "block"), given, count, room.address, room.length, used))
    return room.first(used.value)


def plio_decode(code: Any, count: Optional[int], *, out: Any = None) -> Any:
    """Reads the `count` numbers of a line from its PLIO line list (FITS 4.0, section 10.4.4), as int32. `BadCode`: LineList."""
    given, length, keeper = bytes_in(code)
    numbers = Numbers(count, 32, out, keeper)
    check(load().fz_plio_decode(given, length, numbers.address, numbers.cells))
    return numbers.result()


def plio_encode(numbers: Any, *, out: Any = None) -> Any:
    """The PLIO line list of a line of numbers from 0 to 16,777,215, with its words as in the heap, the upper byte first (FITS 4.0, section 10.4.4)."""
    (given, count, _keeper), used = numbers_in(numbers, 32), ctypes.c_uint64()
    room = Room(room_for(count), out)
    check(load().fz_plio_encode(given, count, room.address, room.length, used))
    return room.first(used.value)


def decode_tile(
    code: Any, count: Optional[int], *, codec: str, bitpix: int, bytepix: Optional[int] = None, block: int = 32, column: str = "COMPRESSED_DATA", out: Any = None
) -> Any:
    """The `count` pixels of a tile from its record, the bytes that its descriptor leads to.

    `codec` is ZCMPTYPE and `bitpix` ZBITPIX; `bytepix` and `block` are the parameters BYTEPIX and BLOCKSIZE of RICE_1 (which are 4 and 32
    if the header has none; here `bytepix` is by default that of `bitpix`). `column` is the one that has the record.
    `BadCode`: CodeShort, CodeValue, LineList, PixelRange, TileSize.
    """
    if bitpix not in BITS.values():
        raise BadArgument(f"bitpix is {bitpix}, and libfz has pixels of 8, 16, 32 and 64 bits", None)
    given, length, keeper = bytes_in(code)
    numbers = Numbers(count, bitpix, out, keeper)
    bytepix = bitpix // 8 if bytepix is None else checked(bytepix, "bytepix")
    words = named(CODECS, codec, "codec"), checked(block, "block"), bytepix, bitpix, named(COLUMNS, column, "column")
    check(load().fz_decode_tile(*words, given, length, length, numbers.address, numbers.cells))
    return numbers.result()


def encode_tile(numbers: Any, *, codec: str = "RICE_1", bitpix: Optional[int] = None, block: int = 32, out: Any = None) -> Record:
    """The record of a tile: its code, or its plain bytes if the code is not shorter, as `fz pack` writes it.

    `bitpix` is by default that of the type of the numbers: uint8, int16, int32 or int64, which is only stored.
    """
    bits = bits_of(numbers) if bitpix is None else bitpix
    if bits not in BITS.values():
        raise BadArgument(f"bitpix is {bits}, and libfz has pixels of 8, 16, 32 and 64 bits", None)
    (given, count, _keeper), coded = numbers_in(numbers, bits), Coded()
    room = Room(room_for(count // 2 if bits == 64 else count), out)
    words = named(CODECS, codec, "codec"), checked(block, "block"), bits // 8, bits
    check(load().fz_encode_tile(*words, given, count, room.address, room.length, coded))
    return Record("UNCOMPRESSED_DATA" if coded.column else "COMPRESSED_DATA", room.first(coded.len))


def named(numbers: Dict[str, int], name: str, what: str) -> int:
    """The number of a name."""
    if name not in numbers:
        raise BadArgument(f"{what} is {name!r}, and not one of {', '.join(numbers)}", None)
    return numbers[name]


def checksum(data: Any, before: int = 0) -> int:
    """The ones' complement sum of the bytes as 32-bit words, after a sum of the words before them: DATASUM (FITS 4.0, appendix J).

    The last word is filled up with zeros; so pieces are whole words but for the last one.
    """
    (given, length, _keeper), total = bytes_in(data), ctypes.c_uint32()
    check(load().fz_sum(checked(before, "before"), given, length, total))
    return total.value
