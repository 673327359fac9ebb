"""Parts of images that are not packed: their bytes, and the same cutout that `fz cut` makes once the image is packed.

Nothing is decoded, so images of floating-point numbers can be cut too.
"""
from __future__ import annotations

import os
import re
from decimal import Decimal
from typing import IO, Iterator, List, Sequence, Tuple

from .boxes import Piece
from .errors import ReadFault, shown
from .headers import BLOCK, CARD, Header, Name
from .names import output, write_fault
from .results import Made

BITS = (8, 16, 32, 64, -32, -64)
# Cards that hold only for the whole image.
OF_THE_WHOLE = ("EXTEND", "BLOCKED", "PCOUNT", "GCOUNT", "CHECKSUM", "DATASUM", "INHERIT")
DECIMAL = re.compile(r" *([+-]?(?:[0-9]+\.?[0-9]*|\.[0-9]+)(?:[ED][+-]?[0-9])?) *(?:/.*)?")
PIECE = 1 << 20
# Types of one number by its bytes, whatever it is.
ITEMS = {1: "B", 2: "H", 4: "I", 8: "Q"}


def is_image(header: Header) -> bool:
    """Whether the HDU is a plain image with a pixel, and nothing beside its array."""
    beside = header.number > 0 and (header.integer("PCOUNT") != 0 or header.integer("GCOUNT", 1) != 1)
    return header.sort == "IMAGE" and header.integer("BITPIX") in BITS and bool(header.axes) and 0 not in header.axes and not beside


def lines(header: Header, pieces: Sequence[Piece], at: int) -> Iterator[int]:
    """Where each line of the part begins in the data, in pixels: axis 2 fastest."""
    stride = [1]
    for length in header.axes:
        stride.append(stride[-1] * length)

    def walk(axis: int, at: int) -> Iterator[int]:
        if axis == 0:
            yield at
            return
        piece = pieces[axis]
        for it in range(piece.first - 1, piece.last, piece.step):
            yield from walk(axis - 1, at + it * stride[axis])

    return walk(len(header.axes) - 1, at)


def runs(header: Header, pieces: Sequence[Piece]) -> Iterator[Tuple[int, int]]:
    """Where the pixels are that have to be read, and how many at once: lines that follow each other are one run."""
    first = pieces[0]
    many = first.last - first.first + 1
    start = length = 0
    for it in lines(header, pieces, first.first - 1):
        if length and it == start + length and first.step == 1 and length < PIECE:
            length += many
            continue
        if length:
            yield start, length
        start, length = it, many
    if length:
        yield start, length


def pixels(file: IO[bytes], header: Header, pieces: Sequence[Piece]) -> Iterator[bytes]:
    """The bytes of the pixels of a part, as they are stored, axis 1 fastest; a part that runs backwards is read forwards."""
    size, step = abs(header.integer("BITPIX")) // 8, pieces[0].step
    for start, many in runs(header, pieces):
        file.seek(header.data + start * size)
        found = file.read(many * size)
        if len(found) < many * size:
            raise EOFError("the file ends before the pixels")
        yield found if step == 1 else memoryview(found).cast(ITEMS[size])[::step].tobytes()


def moved(card: bytes, by: int) -> bytes:
    """A card CRPIXi for a part that begins so many pixels later, if its value is a decimal; exact, as docs/FORMAT.md says it."""
    found = DECIMAL.fullmatch(card[10:].decode("latin-1")) if card[8:10] == b"= " else None
    digits = re.sub(r"[ED].*|\D", "", found[1]) if found else ""
    if by == 0 or found is None or not 1 <= len(digits) <= 18:
        return card
    value = Decimal(found[1].replace("D", "E"))
    places = max(0, -int(value.as_tuple().exponent))
    text = f"{value - by:.{places}f}"
    return (card[:10] + text.rjust(20).encode()).ljust(CARD)


def cards_of(header: Header, pieces: Sequence[Piece]) -> List[bytes]:
    """The cards of the header of the part."""
    raw = [header.raw[at : at + CARD] for at in range(0, CARD * len(header.cards), CARD)]
    many = len(header.axes)
    found = [raw[0] if header.number == 0 else b"SIMPLE  =                    T".ljust(CARD), *raw[1:3]]
    found += [f"{f'NAXIS{it + 1}':<8}= {pieces[it].count:>20}".encode() + raw[3 + it][30:] for it in range(many)]
    shifts = {f"CRPIX{it + 1}": piece.first - 1 for it, piece in enumerate(pieces) if piece.step == 1}
    for card, it in zip(raw[3 + many :], header.cards[3 + many :]):
        if it.keyword not in OF_THE_WHOLE:
            found.append(moved(card, shifts.get(it.keyword, 0)))
    return found


def cut(path: Name, header: Header, pieces: Sequence[Piece], out: Name) -> Made:
    """Writes a part of a plain image as the new file `out`, with the header that `fz cut` gives it."""
    raw = b"".join(cards_of(header, pieces)) + b"END".ljust(CARD)
    with output(out) as made, open(path, "rb") as file:
        try:
            with open(made.unfinished, "xb") as target:
                target.write(raw + b" " * (-len(raw) % BLOCK))
                length = sum(target.write(it) for it in pixels(file, header, pieces))
                target.write(bytes(-length % BLOCK))
                target.flush()
                os.fsync(target.fileno())
                size = target.tell()
        except OSError as error:
            raise write_fault(out, error.errno or 0) from error
        except EOFError:
            raise ReadFault("it ends before the pixels of the part", path=path, command="cut", advice="Fetch the file again.") from None
        made.finish()
    return Made(shown(out), shown(path), size, os.path.getsize(path))
