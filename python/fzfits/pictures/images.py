"""The images of a file, packed or plain, and their pixels: averages over bins, so that nothing bright falls between two pixels."""
from __future__ import annotations

import math
import os
from dataclasses import dataclass
from typing import Any, List, Optional, Sequence, Tuple

from .. import commands, plain
from ..contents import type_of
from ..errors import FzError, Refused, Usage
from ..headers import Header, Name, headers
from ..section import section
from . import NoPicture, library

# So many pixels are decoded at once.
STRIP = 1 << 22
# What fz rejects in a packed image that others may decode; files with other faults are given to nobody.
OF_OTHERS = ("UnknownCodec", "Quantised", "BadTable", "GzipTile")
# So many pixels astropy may decode.
WHOLE = 1 << 28
# Along each axis so many pixels of a bin are taken, if not all are.
TAKEN = 2


@dataclass(frozen=True)
class Part:
    """Which pixels of an image are shown: the first and the last of axis 1 and 2, counted from 1, and the plane along further axes."""

    spans: Tuple[Tuple[int, int], Tuple[int, int]]
    plane: Tuple[int, ...]
    # a bin is so many pixels wide and high, of which each `step`-th is taken
    bin: int
    step: int

    @property
    def count(self) -> Tuple[int, int]:
        """The bins along axis 1 and 2; the last ones may have fewer pixels."""
        wide, high = (-(-(last - first + 1) // self.bin) for first, last in self.spans)
        return wide, high

    @property
    def says(self) -> str:
        """What a pixel of the picture is."""
        if self.bin == 1:
            return "each pixel"
        taken = "" if self.step == 1 else f", {TAKEN * TAKEN} of each taken"
        return f"averages of {self.bin}{f' × {self.bin}' if self.count[1] > 1 else ''} pixels{taken}"


def is_shown(header: Header) -> bool:
    """Whether the HDU is an image with pixels, packed or plain."""
    return bool(header.axes) and min(header.axes) > 0 and (header.is_packed or plain.is_image(header))


def of_file(path: Name, extension: commands.Extension = None) -> List[Header]:
    """The images of a file, or the one that is asked for by its number or its EXTNAME."""
    found = list(headers(path))
    if not found:
        raise NoPicture("it is no FITS file")
    length = os.path.getsize(path)
    # what a header claims takes no memory before the file is known to have it
    if any(is_shown(it) and it.data + it.size > length for it in found):
        raise NoPicture("it ends before its data do")
    if extension is None:
        images = [it for it in found if is_shown(it)]
        if not images:
            raise NoPicture("it has no image")
        return images
    number = commands.number_of(path, extension)
    header = next((it for it in found if it.number == number), None)
    if header is None or not is_shown(header):
        there = ", ".join(f"{it.number} {it.name}".strip() for it in found if is_shown(it)) or "none"
        raise NoPicture(f"HDU {extension} is no image; images are: {there}")
    return [header]


def part_of(header: Header, box: str, size: int, exact: bool) -> Part:
    """Which pixels are shown so that the longer side has at least `size` bins, if the box has so many pixels, and less than twice as many."""
    axes = (*header.axes, 1)[: max(2, len(header.axes))]
    asked = [_piece(it) for it in box.split(",")] if box else []
    if len(asked) > len(header.axes):
        raise NoPicture(f"the box has {len(asked)} pieces, and the image {len(header.axes)} axes")
    spans = [asked[it] if it < len(asked) else (1, axes[it] if it < 2 else 1) for it in range(len(axes))]
    if any(not 1 <= low <= high <= axis for (low, high), axis in zip(spans, axes)):
        raise NoPicture(f"the box {box} is not inside the image of {'x'.join(map(str, header.axes))} pixels")
    longest = max(high - low + 1 for low, high in spans[:2])
    wide = max(1, longest // max(1, size))
    step = 1 if exact or wide < 2 * TAKEN else wide // TAKEN
    return Part((spans[0], spans[1]), tuple(low for low, _ in spans[2:]), wide if step == 1 else TAKEN * step, step)


def _piece(text: str) -> Tuple[int, int]:
    low, colon, high = text.partition(":")
    if not (low.isdigit() and (high.isdigit() or not colon)):
        raise NoPicture(f"{text!r} is no piece of a box: it is lo:hi, counted from 1, or the number of a plane")
    return int(low), int(high or low)


def bins(path: Name, header: Header, part: Part, program: Optional[str] = None) -> Any:
    """The averages of the physical values in each bin, in rows from the bottom; NaN where a bin has no defined pixel."""
    np = library("numpy")
    (left, right), (bottom, top) = part.spans
    wide, _ = part.count
    rows = max(1, STRIP * part.step**2 // max(1, (right - left + 1) * part.bin)) * part.bin
    made = []
    for first in range(bottom, top + 1, rows):
        last = min(top, first + rows - 1)
        values = np.asarray(_values(path, header, (left, right), (first, last), part, program), dtype="f8")
        made.append(_averages(np, values, part.bin // part.step, wide, -(-(last - first + 1) // part.bin)))
    return np.concatenate(made)


def _averages(np: Any, values: Any, many: int, wide: int, high: int) -> Any:
    """The averages over squares of so many pixels, without undefined ones."""
    padded = np.full((high * many, wide * many), np.nan)
    shown = values[: high * many, : wide * many]
    padded[: shown.shape[0], : shown.shape[1]] = shown
    squares = padded.reshape(high, many, wide, many)
    defined = np.isfinite(squares)
    counts = defined.sum(axis=(1, 3))
    sums = np.where(defined, squares, 0.0).sum(axis=(1, 3))
    return np.where(counts > 0, sums / np.maximum(counts, 1), np.nan)


def _values(path: Name, header: Header, across: Tuple[int, int], up: Tuple[int, int], part: Part, program: Optional[str]) -> Any:
    """The physical values of each `step`-th pixel of some lines, in rows from the bottom."""
    lines = slice(up[0] - 1, up[1], part.step), slice(across[0] - 1, across[1], part.step)
    key = (*(it - 1 for it in reversed(part.plane)), *(lines if len(header.axes) > 1 else lines[1:]))
    try:
        found = section(path, header.number, key, program=program)
    except Refused as error:
        if error.kind not in OF_OTHERS or error.hdu != header.number:
            raise
        found = _by_astropy(path, header, key)
    except (EOFError, IndexError, MemoryError, Usage, ValueError) as error:
        raise NoPicture(str(error) or type(error).__name__) from None
    return found if found.ndim > 1 else found.reshape(1, -1)


def _by_astropy(path: Name, header: Header, key: Sequence[Any]) -> Any:
    """The same pixels by astropy, of an image that fz does not decode. It may decode all of the image."""
    fits, number = library("astropy.io.fits"), header.number
    if math.prod(header.axes) > WHOLE:
        raise NoPicture("fz does not decode it, and it is too large for astropy")
    try:
        with fits.open(path, memmap=False) as opened:
            hdu = opened[number]
            return (hdu.section if hasattr(hdu, "section") else hdu.data)[tuple(key)]
    except Exception as error:
        raise NoPicture(f"neither fz nor astropy decodes it: {error}") from None


def title_of(header: Header) -> str:
    """What an image is: its HDU, its name, its axes and the type of its values."""
    axes = " × ".join(map(str, header.axes))
    return f"HDU {header.number}{' ' + header.name if header.name else ''}: {axes}, {type_of(header) or 'no type of FITS'}"


def wanted(error: Exception) -> str:
    """Why an image is not shown, on one line."""
    return str(error).split("\n", 1)[0] if isinstance(error, (FzError, NoPicture)) else f"{type(error).__name__}: {error}"
