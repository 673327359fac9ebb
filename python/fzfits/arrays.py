"""Numbers of an image as arrays of numpy, or as an HDU of astropy; both are imported only when they are used.

An image stores numbers, and BSCALE, BZERO and BLANK say what they stand for: its physical values. The types are those that
astropy gives, so that a program that reads with astropy can read with this package instead.
"""
from __future__ import annotations

import os
from typing import Any, NamedTuple, Optional, Tuple, Union

from .headers import Header, Name, header_of

STORED = {8: ">u1", 16: ">i2", 32: ">i4", 64: ">i8", -32: ">f4", -64: ">f8"}
# BZERO with which FITS stores integers of the other sign (FITS 4.0, section 5.2.5), by BITPIX, and what they then are.
OFFSETS = {8: (-128, "i1"), 16: (1 << 15, "u2"), 32: (1 << 31, "u4"), 64: (1 << 63, "u8")}

Number = Union[int, float]


class Scaling(NamedTuple):
    """What the numbers of an image stand for: the type of the physical values (`kind_of`), BSCALE, BZERO and BLANK."""

    kind: str
    scale: Number
    zero: Number
    blank: Optional[int]


def numpy() -> Any:
    """The module numpy."""
    try:
        import numpy as np  # pylint: disable=import-outside-toplevel

        return np
    except ImportError:
        raise ImportError("an array needs numpy, which is not installed; fzfits.cut makes a FITS file without it") from None


def astropy_fits() -> Any:
    """The module astropy.io.fits."""
    try:
        from astropy.io import fits  # type: ignore[import]  # pylint: disable=import-outside-toplevel

        return fits
    except ImportError:
        raise ImportError("an HDU needs astropy, which is not installed; fzfits.cut makes a FITS file without it") from None


def bits_of(header: Header) -> int:
    """BITPIX of the image, also if it is packed."""
    return header.integer("ZBITPIX" if header.is_packed else "BITPIX")


def scaling_of(header: Header) -> Tuple[Number, Number, Optional[int]]:
    """BSCALE, BZERO and BLANK of the image: 1, 0 and None if it has no such card of the right type."""

    def number(keyword: str, other: int) -> Number:
        found = header.value(keyword)
        return found if isinstance(found, (int, float)) and not isinstance(found, bool) else other

    blank = header.value("BLANK")
    is_blank = isinstance(blank, int) and not isinstance(blank, bool) and bits_of(header) > 0
    return number("BSCALE", 1), number("BZERO", 0), blank if is_blank else None  # type: ignore[return-value]


def kind_of(header: Header) -> str:
    """The type of the physical values, in the words of numpy: u2 for BITPIX 16 with BZERO 32768.

    Integers stay integers if BSCALE is 1 and BZERO is 0 or the offset by which FITS stores integers of the other sign; with a
    BLANK only in the second case, as there is no integer for an undefined pixel. All others are f4 if the stored ones have 8 or 16
    bits, and f8 otherwise. Floating-point numbers keep their type.
    """
    bits, (scale, zero, blank) = bits_of(header), scaling_of(header)
    if bits < 0 or scale == 1 and zero == 0 and blank is None:
        return STORED[bits][1:]
    if scale == 1 and zero == OFFSETS[bits][0]:
        return OFFSETS[bits][1]
    return "f4" if bits <= 16 else "f8"


def of_bytes(data: bytes, bits: int) -> Any:
    """The numbers that these bytes store, in the byte order of the machine."""
    np = numpy()
    kind = np.dtype(STORED[bits])
    return np.frombuffer(data, kind).astype(kind.newbyteorder("="))


def stored(path: Name) -> Any:
    """The numbers that the primary image stores, in the byte order of the machine, with BSCALE and BZERO not applied."""
    header = header_of(path, 0)
    assert header is not None
    with open(path, "rb") as file:
        file.seek(header.data)
        return of_bytes(file.read(header.size), bits_of(header)).reshape(header.axes[::-1])


def scaled(array: Any, header: Header) -> Any:
    """The physical values of stored numbers: BZERO + BSCALE * stored, of the type `kind_of`, and NaN for an undefined pixel (BLANK).

    Integers of the other sign are exact, and a BLANK is then left as any other number. Others are computed as astropy does it.
    """
    return physical(array, Scaling(kind_of(header), *scaling_of(header)))


def physical(array: Any, scaling: Scaling) -> Any:
    """The same for a scaling that is known."""
    np, (kind, scale, zero, blank) = numpy(), scaling
    if kind == array.dtype.str[1:] and scale == 1 and zero == 0:
        return array
    if kind[0] in "iu":
        # The offset is half of the range, so adding it turns the highest bit over.
        size = array.dtype.itemsize
        return (array.view(f"u{size}") ^ np.array(1 << (8 * size - 1), f"u{size}")).view(kind)
    numbers = array.astype(kind)
    if scale != 1:
        np.multiply(numbers, scale, numbers)
    if zero != 0:
        numbers += zero
    if blank is not None:
        numbers[array == blank] = np.nan
    return numbers


def unscaled(array: Any, header: Header) -> Any:
    """The numbers that an image of this header stores for these physical values. Raises ValueError if it has none for one of them.

    Of a scaled image a value has a number if that stands for it again, to the digits of the type `kind_of`.
    """
    np, given = numpy(), numpy().asarray(array)
    scale, zero, blank = scaling_of(header)
    bits = bits_of(header)
    kind, wanted = np.dtype(kind_of(header)), np.dtype(STORED[bits]).newbyteorder("=")
    if given.dtype.kind not in "iuf" or kind.kind in "iu" and given.dtype.kind == "f":
        raise TypeError(f"the image has numbers of the type {kind.name}, and the array {given.dtype.name}: convert it first, such as by astype({kind.name!r})")
    if kind.kind in "iu" or bits < 0 and (scale, zero) == (1, 0):
        found = in_range(given, kind)
        return found if kind == wanted else (found.view(f"u{kind.itemsize}") ^ np.array(1 << (8 * kind.itemsize - 1), f"u{kind.itemsize}")).view(wanted)
    numbers = (given.astype("f8") - zero) / scale
    undefined = np.isnan(numbers)
    if undefined.any() and blank is None and bits > 0:
        raise ValueError("the array has NaN, and the image no BLANK that could stand for it")
    if bits < 0:
        return numbers.astype(wanted)
    found = in_range(np.where(undefined, 0 if blank is None else blank, np.rint(numbers)), wanted)
    again = scaled(found, header)
    if not np.allclose(again, given.astype(kind), rtol=1e-6 if kind.itemsize == 4 else 1e-14, atol=abs(scale) * 1e-3, equal_nan=True):
        raise ValueError(f"the image stores whole numbers, with BSCALE {scale} and BZERO {zero}, and the array has values between them")
    return found


def in_range(array: Any, kind: Any) -> Any:
    """The array in another type, if that has all of its numbers."""
    np = numpy()
    if kind.kind in "iu" and array.size:
        low, high = array.min(), array.max()
        if int(low) < np.iinfo(kind).min or int(high) > np.iinfo(kind).max:
            raise ValueError(f"the image has numbers of the type {kind.name}, and the array has {low} to {high}")
    return array.astype(kind)


def hdu(path: Name, raw: bool = False) -> Any:
    """The primary image as an HDU of astropy that does not need the file any more."""
    with astropy_fits().open(os.fsdecode(path), memmap=False, do_not_scale_image_data=raw) as file:
        found = file[0].copy()
        found.data = found.data.copy() if found.data is not None else None
    return found
