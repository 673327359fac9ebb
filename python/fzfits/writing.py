"""Arrays into packed files: a new file, or new pixels in one. The plain image is written into a temporary folder and given to the program."""
from __future__ import annotations

import os
import tempfile
from typing import Any, Iterator, List, Mapping, Optional, Sequence, Tuple, Union

from . import arrays, commands
from .headers import BLOCK, CARD, Header, Name, card_of, headers
from .results import Made

# Types of arrays, the BITPIX that stores them, and the BZERO of those of the other sign.
TYPES = {
    "u1": (8, None), "i1": (8, -128), "i2": (16, None), "u2": (16, 1 << 15),
    "i4": (32, None), "u4": (32, 1 << 31), "i8": (64, None), "u8": (64, 1 << 63),
}
# Cards that say what the array is, or what was packed: they are made anew.
OF_THE_ARRAY = ("SIMPLE", "XTENSION", "BITPIX", "NAXIS", "PCOUNT", "GCOUNT", "EXTEND", "CHECKSUM", "DATASUM", "END", "ZHECKSUM", "ZDATASUM")
SCALING = ("BSCALE", "BZERO", "BLANK")

Value = Union[None, bool, int, float, str]


def text_of(value: Value) -> str:
    """A value as it is written from column 11 on."""
    if isinstance(value, bool):
        return f"{'T' if value else 'F':>20}"
    if isinstance(value, int):
        return f"{value:>20}"
    if isinstance(value, float):
        if value != value or value in (float("inf"), float("-inf")):
            raise ValueError(f"a card can't have the value {value}")
        text = repr(value).upper()
        return f"{text if '.' in text or 'E' not in text else text.replace('E', '.0E'):>20}"
    return "" if value is None else "'" + value.replace("'", "''").ljust(8) + "'"


def card(keyword: str, value: Value, comment: str = "") -> bytes:
    """A card. Raises ValueError if it has not 80 characters of ASCII, or the keyword is none."""
    name = keyword.upper()
    if len(name) > 8 or not all(it.isascii() and (it.isalnum() or it in "-_") for it in name):
        raise ValueError(f"{keyword!r} is no keyword of FITS: at most 8 letters, digits, - and _; give other cards as a Header of astropy")
    if name in ("COMMENT", "HISTORY", ""):
        text = name.ljust(8) + str(value)
    else:
        text = f"{name:<8}= {text_of(value)}" + (f" / {comment}" if comment else "")
    if len(text) > CARD and comment and len(text) - len(comment) - 3 <= CARD:
        text = text[:CARD]
    if len(text) > CARD or not all(32 <= ord(it) <= 126 for it in text):
        raise ValueError(f"the card of {name} is longer than 80 characters, or not of ASCII: {text!r}")
    return text.ljust(CARD).encode()


def given_cards(header: Any) -> Iterator[bytes]:
    """The cards of a header: one of astropy, a mapping of keywords, or keywords with values and perhaps comments."""
    if header is None:
        return
    if hasattr(header, "tostring"):
        raw = header.tostring(sep="", endcard=False, padding=False).encode("ascii")
        yield from (raw[at : at + CARD] for at in range(0, len(raw), CARD))
        return
    for it in header.items() if isinstance(header, Mapping) else header:
        keyword, value, *more = it
        if isinstance(value, tuple) and not more:
            value, more = value[0], list(value[1:])
        yield card(keyword, value.item() if hasattr(value, "item") else value, *more)


def is_kept(keyword: str, raw: bool) -> bool:
    """Whether a card of the caller's header goes into the new one."""
    numbered = keyword.rstrip("0123456789")
    return keyword not in OF_THE_ARRAY and numbered != "NAXIS" and (raw or keyword not in SCALING[:2])


def plain_of(array: Any, header: Any, raw: bool) -> bytes:
    """A FITS file with the array as its primary image."""
    np = arrays.numpy()
    found = np.asarray(array)
    kind = found.dtype.str[1:]
    if kind not in TYPES:
        raise TypeError(f"fz packs integers of 8, 16, 32 and 64 bits, and the array has {found.dtype.name}: convert it first, such as by astype('int16')")
    if not 1 <= found.ndim <= 9 or 0 in found.shape:
        raise ValueError(f"an image has 1 to 9 axes and a pixel, and the array has the shape {found.shape}")
    bits, zero = TYPES[kind]
    if raw and zero is not None:
        raise TypeError(f"with raw the array has the numbers that the file stores, for which FITS has no {found.dtype.name}")
    cards = [card("SIMPLE", True), card("BITPIX", bits), card("NAXIS", found.ndim)]
    cards += [card(f"NAXIS{it + 1}", length) for it, length in enumerate(found.shape[::-1])]
    if zero is not None:
        cards += [card("BSCALE", 1), card("BZERO", zero)]
        sign = 1 << (bits - 1)
        found = (found.astype(found.dtype.newbyteorder("=")).view(f"u{bits // 8}") ^ np.array(sign, f"u{bits // 8}")).view(arrays.STORED[bits][1:])
    cards += [it for it in given_cards(header) if is_kept(card_of(0, it).keyword, raw)]
    return framed(cards) + padded(found.astype(arrays.STORED[bits]).tobytes())


def framed(cards: Sequence[bytes]) -> bytes:
    """The bytes of a header."""
    whole = b"".join(cards) + b"END".ljust(CARD)
    return whole + b" " * (-len(whole) % BLOCK)


def padded(data: bytes) -> bytes:
    """Data with zeros to whole blocks."""
    return data + bytes(-len(data) % BLOCK)


def write(
    path: Name,
    array: Any,
    header: Any = None,
    *,
    raw: bool = False,
    codec: Optional[str] = None,
    tile: Optional[commands.Lengths] = None,
    block: Optional[int] = None,
    sums: bool = True,
    workers: Optional[int] = None,
    memory: Optional[int] = None,
    program: Optional[Name] = None,
) -> Made:
    """Writes an array of integers as the new packed file `path`.

        write("a.fits.fz", array, header={"OBJECT": "M 31", "EXPTIME": (300.0, "seconds")}, tile=(64, 64))

    `header` is a Header of astropy, a mapping, or a sequence of (keyword, value) or (keyword, value, comment); what says what the
    array is (BITPIX, NAXISi, checksums ..) is made anew. The array has physical values: int8, uint16, uint32 and uint64 are stored
    with a BZERO, and BSCALE and BZERO of the header are left out. With `raw` it has the numbers to be stored, and these two cards
    of the header say what they stand for. `tile` is in the order of FITS, axis 1 first, as for `pack`; checksums are added unless
    `sums` is False.
    """
    with tempfile.TemporaryDirectory(prefix="fz-") as folder:
        plain = os.path.join(folder, "plain.fits")
        with open(plain, "wb") as file:
            file.write(plain_of(array, header, raw))
        made = commands.pack(plain, path, codec=codec, tile=tile, block=block, sums=sums, workers=workers, memory=memory, program=program)
    return Made(made.path, "array", made.size, made.source_size)


def target(path: Name, extension: commands.Extension) -> Optional[Header]:
    """The header of the packed image that is to be changed, or None if the program will have to say that there is none."""
    number = commands.number_of(path, extension)
    try:
        return next((it for it in headers(path) if (it.is_packed if number is None else it.number == number)), None)
    except OSError:
        return None


def place_of(at: Union[int, Sequence[int]], shape: Sequence[int], axes: Sequence[int]) -> Tuple[int, ...]:
    """Where the array goes as the program takes it, axis 1 first, counted from 1."""
    wanted: List[int] = [int(it) for it in ([at] if isinstance(at, int) else at)]
    if len(wanted) != len(axes) or len(shape) != len(axes):
        raise ValueError(f"the image has {len(axes)} axes, the array {len(shape)}, and the place {len(wanted)}")
    for it, many, length in zip(wanted, shape, axes[::-1]):
        if not 0 <= it <= length - many:
            raise IndexError(f"{many} pixels from {it} on are not in an axis of {length}: the image has the shape {tuple(axes[::-1])}")
    return tuple(it + 1 for it in wanted[::-1])


def patch_array(path: Name, extension: commands.Extension, at: Union[int, Sequence[int]], array: Any, *, raw: bool = False, memory: Optional[int] = None, program: Optional[Name] = None) -> None:
    """Puts an array into a packed image, in place."""
    np, header = arrays.numpy(), target(path, extension)
    found = np.asarray(array)
    if header is None or not header.is_packed:
        number = header.number if header is not None else extension if isinstance(extension, int) else None
        put(path, np.zeros((1,) * max(1, found.ndim), "i2"), (1,) * max(1, found.ndim), number, memory, program)  # which says why
        return
    bits = arrays.bits_of(header)
    place = place_of(at, found.shape, header.axes)
    if raw and found.dtype.kind not in "iu":
        raise TypeError(f"with raw the array has the integers that the file stores, not {found.dtype.name}")
    numbers = arrays.in_range(found, np.dtype(arrays.STORED[bits]).newbyteorder("=")) if raw else arrays.unscaled(found, header)
    put(path, numbers, place, header.number, memory, program)


def put(path: Name, numbers: Any, place: Sequence[int], number: Optional[int], memory: Optional[int], program: Optional[Name]) -> None:
    """Lets the program put stored numbers into the image."""
    with tempfile.TemporaryDirectory(prefix="fz-") as folder:
        plain = os.path.join(folder, "patch.fits")
        with open(plain, "wb") as file:
            file.write(plain_of(numbers, None, True))
        commands.patch(path, plain, place, hdu=number, memory=memory, program=program)


def patch(path: Name, patch: Any, at: commands.Lengths, array: Any = None, *, hdu: commands.Extension = None, raw: bool = False, memory: Optional[int] = None, program: Optional[Name] = None, timeout: Optional[float] = None) -> None:  # pylint: disable=redefined-outer-name
    """Puts pixels into a packed image of `path`, in place. It has two forms:

        patch("a.fits.fz", "SCI", (100, 40), array)        # an array; its first pixel becomes pixel [100, 40] of the image
        patch("a.fits.fz", "new.fits", (41, 101), hdu=1)   # the primary image of a file; the place is that of the command line

    In the first form the HDU comes second (its number, EXTNAME, (EXTNAME, EXTVER), or None for the first packed image), `at` is in
    the order of numpy, counted from 0, and the array has physical values, or with `raw` the numbers that the file stores. A value
    that the image cannot store is a ValueError. In the second form `at` has axis 1 first, counted from 1.

    This is the one function that changes a file. Verify `path` before: checksums are made anew, so damage from before would no longer
    show. Raises `Usage` if the program has no command patch.
    """
    if array is None:
        commands.patch(path, patch, at, hdu=hdu, memory=memory, program=program, timeout=timeout)
    else:
        patch_array(path, patch, at, array, raw=raw, memory=memory, program=program)  # type: ignore[arg-type]
