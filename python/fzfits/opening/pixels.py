"""The pixels of an image, packed or plain: parts of them, forwards, as the numbers that the file stores."""
from __future__ import annotations

from typing import Any, List, Sequence, Tuple

from .. import arrays, plain
from ..boxes import Piece
from ..headers import Header
from .layer import Layer
from .plans import Plan
from .reading import Tiles
from .sources import Source

# Plain images have no tiles: pieces of whole lines of about so many bytes stand for them.
PIECE = 1 << 20


class Packed(Tiles):
    """Those of a packed image."""

    def __init__(self, source: Source, layer: Layer, plan: Plan) -> None:
        super().__init__(source, layer, plan)
        self.lengths, self.tile, self.bitpix = plan.lengths, plan.tile, plan.bitpix


class Plain:
    """Those of a plain image, of integers or of floating-point numbers."""

    def __init__(self, source: Source, header: Header) -> None:
        self.source, self.header = source, header
        self.lengths, self.bitpix = header.axes, header.integer("BITPIX")
        self.tile = tile_of(self.lengths, abs(self.bitpix) // 8)

    def read(self, pieces: Sequence[Piece], out: Any, workers: int = 1) -> None:
        """Puts the pixels of a part into an array of its shape. Nothing is decoded, so one thread does it."""
        found = b"".join(plain.pixels(Cursor(self.source), self.header, pieces))  # type: ignore[arg-type]
        out[...] = arrays.of_bytes(found, self.bitpix).reshape(out.shape)


class Cursor:
    """A place in a source, of one reading."""

    def __init__(self, source: Source) -> None:
        self.source, self.at = source, 0

    def seek(self, at: int) -> None:
        """Goes to a byte."""
        self.at = at

    def read(self, count: int) -> bytes:
        """The next bytes."""
        self.at += count
        return self.source.read(self.at - count, count)


def tile_of(lengths: Sequence[int], size: int) -> Tuple[int, ...]:
    """Whole lines of about `PIECE` bytes, axis 1 first."""
    found: List[int] = []
    left = PIECE // size
    for it in lengths:
        found.append(it if len(found) == 0 else max(1, min(it, left)))
        left //= it
    return tuple(found)
