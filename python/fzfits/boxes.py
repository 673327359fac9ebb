"""Parts of an image in the words of numpy and of cfitsio, as the box that the program takes.

numpy counts from 0, leaves the end out, and names the last axis of FITS first; cfitsio and the program count from 1, with both ends
inside, axis 1 first. A part that runs backwards is cut forwards, and the array is reversed afterwards.
"""
from __future__ import annotations

import operator
import re
from typing import NamedTuple, Sequence, Tuple

PIECE = re.compile(r"\s*(?:(?P<low>\d+)\s*:\s*(?P<high>\d+)|(?P<back>-?)\s*\*)\s*(?::\s*(?P<step>\d+))?\s*")
SECTION = re.compile(r"(?P<path>.*?)(?:\[(?P<first>[^\[\]]*)\])?(?:\[(?P<second>[^\[\]]*)\])?", re.DOTALL)


class Piece(NamedTuple):
    """What is wanted of one axis: pixels from `first` to `last`, counted from 1, in steps.

    `back` asks for them in reverse order, and `drop` for an array without this axis. `count` pixels are wanted, which may be none.
    """

    first: int
    last: int
    step: int
    count: int  # type: ignore[assignment]
    back: bool = False
    drop: bool = False


def piece_of(wanted: range, drop: bool = False) -> Piece:
    """The piece for pixels that are counted from 0."""
    back = wanted.step < 0
    forwards = wanted[::-1] if back else wanted
    if not forwards:
        return Piece(1, 0, 1, 0)
    # A step is meaningless for one pixel, and without one the world coordinates of the cutout stay right.
    return Piece(forwards[0] + 1, forwards[-1] + 1, forwards.step if len(forwards) > 1 else 1, len(forwards), back, drop)


def of_index(index: object, length: int) -> Piece:
    """The piece of one index of numpy: a slice or a whole number."""
    if isinstance(index, slice):
        return piece_of(range(*index.indices(length)))
    try:
        at = operator.index(index)  # type: ignore[arg-type]
    except TypeError:
        raise TypeError(f"a part of an image is made of slices, whole numbers and ..., not of {type(index).__name__}") from None
    if isinstance(index, bool):
        raise TypeError("a part of an image is made of slices, whole numbers and ..., not of bool")
    if not -length <= at < length:
        raise IndexError(f"index {at} is out of bounds for an axis of length {length}")
    return piece_of(range(at % length, at % length + 1), drop=True)


def of_numpy(key: object, axes: Sequence[int]) -> Tuple[Piece, ...]:
    """The pieces, axis 1 of FITS first, of a key of numpy (`np.s_[100:200, ::4]`) for an image with these axes.

    >>> [(it.first, it.last, it.step) for it in of_numpy((slice(100, 200), slice(None, None, 4)), (4096, 2048))]
    [(1, 4093, 4), (101, 200, 1)]
    """
    parts = list(key) if isinstance(key, tuple) else [key]
    dots = [at for at, it in enumerate(parts) if it is Ellipsis]
    if len(dots) > 1:
        raise IndexError("a part of an image has at most one ...")
    missing = len(axes) - (len(parts) - len(dots))
    if missing < 0:
        raise IndexError(f"{len(parts) - len(dots)} indices for an image of {len(axes)} axes")
    at = dots[0] if dots else len(parts)
    parts[at : at + len(dots)] = [slice(None)] * missing
    return tuple(of_index(it, length) for it, length in zip(parts[::-1], axes))


def of_cfitsio(text: str, axes: Sequence[int]) -> Tuple[Piece, ...]:
    """The pieces of a section as cfitsio writes it (`1:100,*` or `-*:2,10:1`); axes that it does not name are whole.

    >>> [(it.first, it.last, it.step, it.back) for it in of_cfitsio("10:1:3,*", (64, 8))]
    [(1, 10, 3, True), (1, 8, 1, False)]
    """
    parts = text.split(",")
    if len(parts) > len(axes):
        raise IndexError(f"the section [{text}] has {len(parts)} pieces, the image {len(axes)} axes")
    pieces = []
    for at, length in enumerate(axes):
        found = PIECE.fullmatch(parts[at] if at < len(parts) else "*")
        step = int(found["step"] or 1) if found else 0
        if found is None or step == 0 or found["low"] and 0 in (int(found["low"]), int(found["high"])):
            raise ValueError(f"{parts[at]!r} is no piece of a section: it is lo:hi, lo:hi:step, *, -*, *:step or -*:step, counted from 1")
        low, high = sorted((int(found["low"]), int(found["high"]))) if found["low"] else (1, length)
        back = bool(found["back"]) or bool(found["low"]) and int(found["low"]) > int(found["high"])
        # In reverse order cfitsio (4.2.0 and 4.6.2) counts the steps of axis 1 from its lower end, and the others from their upper end.
        forwards = piece_of(range(low - 1, high, step))
        pieces.append(forwards if not back else forwards._replace(back=True) if at == 0 else piece_of(range(high - 1, low - 2, -step)))
    return tuple(pieces)


def is_section(text: str) -> bool:
    """Whether a text in brackets is a section, and not the name or number of an HDU."""
    return all(PIECE.fullmatch(it) for it in text.split(","))


def split(text: str) -> Tuple[str, str, str]:
    """The name of the file, the HDU and the section of a name as cfitsio writes it.

    >>> split("f.fz[SCI,2][1:100,*]"), split("f.fz[1:100,*]"), split("f.fz[3]")
    (('f.fz', 'SCI,2', '1:100,*'), ('f.fz', '', '1:100,*'), ('f.fz', '3', ''))
    """
    found = SECTION.fullmatch(text)
    assert found is not None
    first, second = found["first"] or "", found["second"] or ""
    if first and not second and is_section(first):
        first, second = "", first
    return found["path"], first.strip(), second.strip()
