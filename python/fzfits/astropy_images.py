"""Images of integers in astropy's CompImageHDU, all of their tiles in one loop by libfz.

`over` makes what `fzfits.astropy` puts in the place of astropy's `decompress_image_data_section`, which decodes the tiles of a whole image
or of a section. astropy's own takes as long for what it does around a short tile as a codec for the tile. Here the table is looked at
once, libfz decodes some tiles one after the other, and one assignment puts them where they belong. That is for images of 8, 16 or 32 bits
in RICE_1 or PLIO_1 that are not quantised, if each tile that is asked for has its code within the heap. Any other image, a few tiles, and
any header of which it is not plain what astropy makes, go to astropy's own function: so what comes back is the same, and so is each error.
But `record_over` adds numbers of a descriptor without the limit of 32 bits that they have in astropy.
"""
from __future__ import annotations

import contextlib
import ctypes
import functools
import inspect
from math import prod
from typing import Any, Callable, Iterator, List, NamedTuple, Optional, Sequence, Tuple

import numpy as np

from .buffers import DTYPES
from .codec import WIDTHS
from .library import load

# The function, what it is passed, and what it calls itself and this module too.
NAME = "decompress_image_data_section"
ARGUMENTS = ["compressed_data", "compression_type", "compressed_header", "bintable", "image_header", "first_tile_index", "last_tile_index"]
HELPERS = "_check_compressed_header", "_header_to_settings", "_tile_shape", "_data_shape", "_get_data_from_heap"
# The one of these that reads a record: it is replaced, too.
RECORD = HELPERS[-1]
# What is at fault if a number of a descriptor is below 0.
DESCRIPTOR_RANGE = -18
COLUMN = "COMPRESSED_DATA"
# The tiles of a quantised image, or of one whose undefined pixels differ from tile to tile, are more than their codes.
MORE = {"ZSCALE", "ZBLANK"}
# The letter of an element of the column, and its bytes.
UNITS = {"RICE_1": ("B", 1), "RICE_ONE": ("B", 1), "PLIO_1": ("I", 2)}
GREATEST_BLOCK = 32_767
# Of fewer tiles astropy's own function takes no longer.
FEWEST_TILES = 16
# So many numbers, or those of one tile, are decoded before they are put into the image: they stay in the cache of a processor.
MOST_NUMBERS = 1 << 16

# Where a code is in memory, and how many bytes it has.
Code = Tuple[int, int]


class Coded(NamedTuple):
    """How the tiles are coded: the call of libfz, its arguments before those of a tile and after them, and the type of the numbers."""

    call: Any
    before: Tuple[Any, ...]
    after: Tuple[Any, ...]
    kind: Any


class Asked(NamedTuple):
    """What is asked for: the shape of the result, the lengths of a tile, the type of a pixel, how it is coded, and the codes in the order of the tiles."""

    shape: Tuple[int, ...]
    tile: Tuple[int, ...]
    kind: Any
    coded: Coded
    codes: Iterator[Code]


def is_known(home: Any) -> bool:
    """Whether this module of astropy has the function that is replaced, with these arguments, and what it is made of."""
    own = getattr(home, NAME, None)
    return inspect.isfunction(own) and list(inspect.signature(own).parameters) == ARGUMENTS and all(hasattr(home, it) for it in HELPERS)


def over(home: Any, damaged: Callable[[int], None]) -> Any:
    """What takes the place of the function of this module of astropy. `damaged` raises what an answer of libfz means."""
    own = getattr(home, NAME)

    @functools.wraps(own)
    def decompress_image_data_section(*given: Any, **named: Any) -> Any:
        asked = None
        if not named and len(given) == len(ARGUMENTS):
            # what cannot be looked at is astropy's too, which then says why
            with contextlib.suppress(Exception):
                asked = asked_of(home, *given)
        return own(*given, **named) if asked is None else decoded(asked, damaged)

    return decompress_image_data_section


def record_over(home: Any, damaged: Callable[[int], None]) -> Any:
    """What takes the place of the function that reads one record.

    astropy adds numbers of a descriptor with their own 32 bits. A sum beyond them raises, so that a section after byte 2^31 of a file is
    not read; or it becomes negative, and numpy then reads before the file, from memory that may not be there. A sum of Python has no end.
    """
    own = getattr(home, RECORD)

    @functools.wraps(own)
    def _get_data_from_heap(hdu: Any, size: Any, offset: Any, *given: Any, **named: Any) -> Any:
        if min(size, offset) < 0:
            damaged(DESCRIPTOR_RANGE)
        return own(hdu, int(size), int(offset), *given, **named)

    return _get_data_from_heap


def asked_of(home: Any, rows: Any, codec: str, header: Any, bintable: Any, image_header: Any, first: Any, last: Any) -> Optional[Asked]:
    """What is asked for, or None if it is for astropy's own function."""
    names = rows.dtype.names
    if codec not in UNITS or COLUMN not in names or MORE & set(names) or prod((last - first + 1).tolist()) < FEWEST_TILES:
        return None
    home._check_compressed_header(header)
    kind, coded = DTYPES.get(header["ZBITPIX"]), coded_of(codec, home._header_to_settings(header))
    form, (letter, unit) = rows._coldefs[COLUMN].format, UNITS[codec]
    if kind is None or kind.itemsize > 4 or coded is None or form[form.startswith("1") :][1:2] != letter:
        return None
    if not is_plain_blank(header.get("ZBLANK", image_header.get("BLANK")), coded.kind):
        return None
    lengths, tile = home._data_shape(header), home._tile_shape(header)
    box, which = tuple(np.minimum(lengths, (last + 1) * tile) - first * tile), tiles_of(lengths, tile, first, last, len(rows))
    if which is None or min(box) < 1:
        return None
    codes = codes_of(np.array(rows[COLUMN])[which], header["PCOUNT"], bintable, unit, box == tuple(lengths))
    if codes is None:
        return None
    return Asked(tuple(map(int, box)), tuple(map(int, np.minimum(box, tile))), kind, coded, codes)


def tiles_of(lengths: Any, tile: Any, first: Any, last: Any, rows: int) -> Any:
    """The numbers of the tiles that are asked for, in their order, or None if the table has not a row for each tile of the image."""
    if not lengths.size or min(lengths.min(), tile.min()) < 1:
        return None
    grid = [-(-length // side) for length, side in zip(lengths.tolist(), tile.tolist())]
    if prod(grid) > rows:
        return None
    return np.arange(prod(grid)).reshape(grid)[tuple(slice(one, two + 1) for one, two in zip(first, last))].reshape(-1)


def coded_of(codec: str, settings: Any) -> Optional[Coded]:
    """How the tiles of a codec with the settings of the header are read, or None if libfz has no such codec, or the header has another one."""
    if codec == "PLIO_1":
        return None if settings else Coded(load().fz_plio_decode, (), (), DTYPES[32])
    bytepix, block = settings["bytepix"], settings["blocksize"]
    if type(bytepix) is not int or bytepix not in WIDTHS or type(block) is not int or not 1 <= block <= GREATEST_BLOCK:
        return None
    width = WIDTHS[bytepix]
    return Coded(load().fz_rice_decode, (ctypes.c_uint32(width), ctypes.c_uint32(block)), (ctypes.byref(ctypes.c_uint64()),), DTYPES[width])


def is_plain_blank(blank: Any, kind: Any) -> bool:
    """Whether the value of undefined pixels is none, or one that a code has: then they are as the code has them."""
    limits = np.iinfo(kind)
    return blank is None or (type(blank) is int and limits.min <= blank <= limits.max)


def codes_of(descriptors: Any, heap_len: int, bintable: Any, unit: int, is_whole: bool) -> Optional[Iterator[Code]]:
    """The codes of tiles, or None if one of them has none, or not within the heap. Of a whole image the heap is read at once, as astropy does it."""
    (counts, starts), heap_at = descriptors.astype(np.int64).T, bintable._data_offset + bintable._theap
    if counts.min() < 1 or counts.max() > heap_len // unit or starts.min() < 0 or (starts > heap_len - unit * counts).any() or type(heap_at) is not int:
        return None
    if not is_whole:
        return read(bintable, np.dtype(f">u{unit}"), (heap_at + starts).tolist(), counts.tolist())
    heap = bintable._get_raw_data(heap_len, np.uint8, heap_at)
    if heap.nbytes != heap_len or not heap.flags.c_contiguous:
        return None
    return kept(heap, (heap.ctypes.data + starts).tolist(), (unit * counts).tolist())


def kept(_heap: Any, places: List[int], lengths: List[int]) -> Iterator[Code]:
    """Codes in a heap that is in memory, and stays there as long as they are wanted."""
    yield from zip(places, lengths)


def read(bintable: Any, kind: Any, starts: List[int], counts: List[int]) -> Iterator[Code]:
    """Codes that are read one by one."""
    for start, count in zip(starts, counts):
        code = np.ascontiguousarray(bintable._get_raw_data(count, kind, start))
        yield code.ctypes.data, code.nbytes


def fused(shape: Sequence[int], tile: Sequence[int]) -> Tuple[List[int], List[int]]:
    """An array and its tiles with as few axes as they can have: the same numbers in the same order, and the same tiles in theirs.

    Two axes become one if a tile has all of the second, or of the first only one element while tiles fill the second.
    """
    lengths, sides = [shape[-1]], [tile[-1]]
    for length, side in zip(shape[-2::-1], tile[-2::-1]):
        if sides[0] == lengths[0]:
            lengths[0], sides[0] = length * lengths[0], side * sides[0]
        elif length == 1 or (side == 1 and lengths[0] % sides[0] == 0):
            lengths[0] *= length
        else:
            lengths.insert(0, length)
            sides.insert(0, side)
    return lengths, sides


def decoded(asked: Asked, damaged: Callable[[int], None]) -> Any:
    """The pixels."""
    image = np.empty(asked.shape, asked.kind)
    lengths, sides = fused(asked.shape, asked.tile)
    whole, side = image.reshape(lengths), sides[-1]
    step = side * max(1, MOST_NUMBERS // prod(sides))
    room = None if is_room(whole) else np.empty(min(step, lengths[-1]) * prod(sides[:-1]), np.intc)
    for at in np.ndindex(*[-(-length // it) for length, it in zip(lengths[:-1], sides)]):
        band = whole[tuple(slice(it * one, it * one + one) for it, one in zip(at, sides))]
        for first in range(0, lengths[-1], step):
            fill(band[..., first : first + step], room, side, asked, damaged)
    return image


def is_room(whole: Any) -> bool:
    """Whether libfz can write to the image itself: each tile is one stretch of it, and its pixels are of the type that libfz has."""
    return whole.ndim == 1 and bool(whole.dtype == np.intc)


def fill(part: Any, room: Any, side: int, asked: Asked, damaged: Callable[[int], None]) -> None:
    """Decodes the next tiles, which lie beside each other on the last axis, into a part of the image. The last may have less than `side` of that axis."""
    lead, height, (many, less) = part.shape[:-1], prod(part.shape[:-1]), divmod(part.shape[-1], side)
    end = many * side
    decode((part if room is None else room).ctypes.data, [height * side] * many + [height * less] * (less > 0), asked, damaged)
    if room is not None:
        tiles = room[: height * end].reshape(many, *lead, side)
        part[..., :end].reshape(*lead, many, side)[...] = np.moveaxis(tiles, 0, -2)
        part[..., end:] = room[height * end : part.size].reshape(*lead, less)


def decode(room: int, sizes: List[int], asked: Asked, damaged: Callable[[int], None]) -> None:
    """Decodes the next tiles, which have so many numbers, one after the other."""
    (call, before, after, _), codes = asked.coded, asked.codes
    for size, (place, length) in zip(sizes, codes):
        answer = call(*before, place, length, room, size, *after)
        if answer:
            damaged(answer)
        room += 4 * size
