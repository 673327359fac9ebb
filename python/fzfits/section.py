"""Parts of images as arrays, HDUs or files, with the words of numpy or of cfitsio; of packed images by `cut`."""
from __future__ import annotations

import os
import tempfile
from typing import Any, Callable, Optional, Sequence, Tuple

from . import arrays, boxes, commands, plain
from .headers import Header, Name, headers
from .results import Made

Pieces = Tuple[boxes.Piece, ...]
PiecesOf = Callable[[Sequence[int]], Pieces]


def find(path: Name, extension: commands.Extension) -> Optional[Header]:
    """The header of the image that is asked for; without one the first packed image, or else the first plain one with a pixel.

    None if `cut` will have to say that there is none.
    """
    number, first = commands.number_of(path, extension), None
    try:
        for it in headers(path):
            if it.is_packed if number is None else it.number == number:
                return it
            if number is None and first is None and plain.is_image(it):
                first = it
    except OSError:
        return None
    return first


def box_of(pieces: Pieces) -> commands.Box:
    """The box that the program takes for these pieces."""
    return [(it.first, it.last, it.step) if it.step > 1 else (it.first, it.last) for it in pieces] or [(1, 1)]


def cut_to(path: Name, out: Name, header: Optional[Header], pieces: Pieces, extension: commands.Extension, **options: Any) -> Made:
    """Cuts a part, forwards, out of a packed or a plain image into a new file."""
    if header is not None and plain.is_image(header):
        return plain.cut(path, header, inside(pieces, header), out)
    # Without a header the program says why: it is asked for the same HDU.
    wanted = header.number if header is not None else extension if isinstance(extension, int) else None
    return commands.cut(path, out, box_of(pieces), hdu=wanted, **options)


def inside(pieces: Pieces, header: Header) -> Pieces:
    """The pieces of a plain image, if they are in it."""
    for number, (it, length) in enumerate(zip(pieces, header.axes), 1):
        if it.last > length:
            raise IndexError(f"the part ends at pixel {it.last} of axis {number}, which has {length}: the image has {'x'.join(map(str, header.axes))} pixels, axis 1 first")
    return pieces


def parts(path: Name, extension: commands.Extension, pieces_of: PiecesOf, *, as_hdu: bool, raw: bool, **options: Any) -> Any:
    """Cuts the pieces and gives them as an array or an HDU."""
    (arrays.astropy_fits if as_hdu else arrays.numpy)()
    header = find(path, extension)
    pieces = pieces_of(header.axes) if header is not None and header.axes else ()
    if as_hdu and any(it.back or it.count == 0 for it in pieces):
        raise ValueError("an HDU is cut forwards and has a pixel: take an array, or another part")
    if header is not None and any(it.count == 0 for it in pieces):
        return empty(pieces, header, raw)
    with tempfile.TemporaryDirectory(prefix="fz-") as folder:
        out = os.path.join(folder, "cutout.fits")
        if header is not None and plain.is_image(header) and not as_hdu:
            with open(path, "rb") as file:
                data = b"".join(plain.pixels(file, header, inside(pieces, header)))
            found = arrays.of_bytes(data, arrays.bits_of(header)).reshape([it.count for it in pieces[::-1]])
        else:
            cut_to(path, out, header, pieces, extension, **options)
            if as_hdu:
                return arrays.hdu(out, raw)
            found, header = arrays.stored(out), next(headers(out))
    return turned(found if raw else arrays.scaled(found, header), pieces)


def turned(array: Any, pieces: Pieces) -> Any:
    """The array with axes reversed, and without those that a whole number was asked of."""
    np = arrays.numpy()
    key = tuple(0 if it.drop else slice(None, None, -1 if it.back else 1) for it in pieces[::-1])
    return np.ascontiguousarray(array[key]) if array[key].ndim else array[key]


def empty(pieces: Pieces, header: Header, raw: bool) -> Any:
    """The array of a part without a pixel, which the program does not cut."""
    np, bits = arrays.numpy(), arrays.bits_of(header)
    kind = arrays.STORED.get(bits, ">f8")[1:] if raw or bits not in arrays.STORED else arrays.kind_of(header)
    return np.empty([it.count for it in pieces[::-1] if not it.drop], kind)


def section(
    path: Name,
    extension: commands.Extension,
    key: Any = ...,
    *,
    as_hdu: bool = False,
    raw: bool = False,
    workers: Optional[int] = None,
    memory: Optional[int] = None,
    program: Optional[Name] = None,
) -> Any:
    """A part of an image, packed or plain, as an array of numpy, or as an HDU of astropy.

        section("f.fits.fz", "SCI", np.s_[100:200, ::4])

    `extension` is the number of the HDU, its EXTNAME, (EXTNAME, EXTVER), or None for the first packed image, or else the first
    plain one. `key` is what would follow the array of the whole image in brackets: slices, whole numbers and `...`, in the order of
    numpy, counted from 0. Only headers and the tiles that overlap the part are read.

    An array has the physical values, as astropy gives them (see `fzfits.arrays.scaled`), in the byte order of the machine: unsigned
    integers as such, other scaled images as floating-point numbers, and NaN for undefined pixels. With `raw` it has the numbers that
    the file stores. An HDU (`as_hdu`) has what astropy reads from the cutout, with its header; a whole number keeps its axis there,
    with the length 1. Along an axis with a step its world coordinates are wrong.
    """
    return parts(path, extension, lambda axes: boxes.of_numpy(key, axes), as_hdu=as_hdu, raw=raw, workers=workers, memory=memory, program=program)


def section_cfitsio(
    name: str,
    *,
    as_hdu: bool = False,
    raw: bool = False,
    workers: Optional[int] = None,
    memory: Optional[int] = None,
    program: Optional[Name] = None,
) -> Any:
    """A part of an image that is named as cfitsio does it: `section_cfitsio("f.fits.fz[SCI][1:100,*]")`.

    The first brackets have the number of the HDU, EXTNAME, or EXTNAME,EXTVER; the second ones `lo:hi`, `lo:hi:step`, `*`, `-*`,
    `*:step` or `-*:step` for each axis, axis 1 first, counted from 1. A piece that runs down (`10:1`, `-*`) comes in reverse order.
    """
    path, extension, wanted = boxes.split(name)
    return parts(path, extension_of(extension), lambda axes: boxes.of_cfitsio(wanted or "*", axes), as_hdu=as_hdu, raw=raw, workers=workers, memory=memory, program=program)


def cutout(
    name: str,
    out: Name,
    *,
    workers: Optional[int] = None,
    memory: Optional[int] = None,
    program: Optional[Name] = None,
) -> Made:
    """Writes a part of an image, packed or plain, as the new file `out`: `cutout("f.fits[SCI][1:100,*:2]", "part.fits")`.

    The words in brackets are those of `section_cfitsio`. A file is cut forwards: a piece that runs down is a ValueError. The cutout
    of a plain image is the one that `cut` gives of the packed image; images of floating-point numbers can be cut too.
    """
    # a file whose name has brackets is that file
    path, words, wanted = (name, "", "") if os.path.exists(name) else boxes.split(name)
    extension = extension_of(words)
    header = find(path, extension)
    pieces = boxes.of_cfitsio(wanted or "*", header.axes) if header is not None and header.axes else ()
    if any(it.back for it in pieces):
        raise ValueError(f"[{wanted}] runs down along an axis, and a file is cut upwards: write lo:hi with lo below hi")
    return cut_to(path, out, header, pieces, extension, workers=workers, memory=memory, program=program)


def extension_of(text: str) -> commands.Extension:
    """The HDU that cfitsio's brackets name."""
    if not text:
        return None
    if text.isascii() and text.isdigit():
        return int(text)
    name, comma, version = text.rpartition(",")
    if comma and version.strip().isdigit():
        return name.strip(), int(version)
    return text
