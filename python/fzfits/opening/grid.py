"""The tiles that a part of an image needs, and where their pixels go."""
from __future__ import annotations

from typing import Any, List, NamedTuple, Sequence, Tuple

from ..boxes import Piece

# Tiles that are lines are put into the array together: about so many numbers.
MOST_TOGETHER = 1 << 15
Slices = Tuple[slice, ...]


class Along(NamedTuple):
    """One tile along an axis: its number there, its pixels, where they go in the part, and which of them are wanted."""

    number: int
    length: int
    into: slice
    wanted: slice


class Need(NamedTuple):
    """A tile with a wanted pixel: its number in the table, how many pixels it has, and, in the order of numpy, its shape and slices."""

    tile: int
    pixels: int
    shape: Tuple[int, ...]
    into: Slices
    wanted: Slices


class Blocks:
    """The tiles of a part, by their numbers, axis 1 fastest, with so many pixels each.

    `wanted` says how many of the first pixels have all that are wanted. `together` of the tiles are decoded, and then `put`.
    """

    together = 1

    def __init__(self, pieces: Sequence[Piece], lengths: Sequence[int], tile: Sequence[int]) -> None:
        self.needs = needs(pieces, lengths, tile)
        self.tiles = [it.tile for it in self.needs]
        self.pixels = [it.pixels for it in self.needs]
        self.wanted = [wanted_of(it) for it in self.needs]

    def put(self, begin: int, count: int, numbers: Any, out: Any) -> None:
        """Puts the pixels of a tile into the array; `numbers` has them at its front."""
        need = self.needs[begin]
        out[need.into] = numbers[: need.pixels].reshape(need.shape)[need.wanted]


class Lines:
    """The same if each tile is a whole line of the image, as it is by default."""

    def __init__(self, pieces: Sequence[Piece], lengths: Sequence[int]) -> None:
        tiles, stride = [0], 1
        for piece, length in zip(pieces[1:], lengths[1:]):
            tiles = [at * stride + it for at in range(piece.first - 1, piece.last, piece.step) for it in tiles]
            stride *= length
        self.tiles, self.width = tiles, lengths[0]
        self.pixels = [self.width] * len(tiles)
        self.together = max(1, MOST_TOGETHER // self.width)
        self.wanted = [pieces[0].last] * len(tiles)
        self.columns = slice(pieces[0].first - 1, pieces[0].last, pieces[0].step)

    def put(self, begin: int, count: int, numbers: Any, out: Any) -> None:
        """Puts the pixels of so many lines into the array; `numbers` has them one after another at its front."""
        lines = numbers[: count * self.width].reshape(count, self.width)[:, self.columns]
        out.reshape(-1, out.shape[-1])[begin : begin + count] = lines


def part_of(pieces: Sequence[Piece], lengths: Sequence[int], tile: Sequence[int]) -> "Lines | Blocks":
    """The tiles of a part."""
    is_lines = tile[0] == lengths[0] and all(it == 1 for it in tile[1:])
    return Lines(pieces, lengths) if is_lines else Blocks(pieces, lengths, tile)


def wanted_of(need: Need) -> int:
    """How many of the first pixels of a tile have all that are wanted."""
    last = 0
    for length, it in zip(need.shape, need.wanted):
        last = last * length + it.stop - 1
    return last + 1


def along(piece: Piece, axis: int, tile: int) -> List[Along]:
    """The tiles along an axis that have a wanted pixel."""
    first, step = piece.first - 1, piece.step
    found = []
    for number in range(first // tile, (piece.last - 1) // tile + 1):
        start, end = number * tile, min(axis, (number + 1) * tile)
        low = max(0, -((first - start) // step))
        high = min(piece.count - 1, (end - 1 - first) // step)
        if low <= high:
            at = first + low * step - start
            found.append(Along(number, end - start, slice(low, high + 1), slice(at, at + (high - low) * step + 1, step)))
    return found


def needs(pieces: Sequence[Piece], lengths: Sequence[int], tile: Sequence[int]) -> List[Need]:
    """The tiles of a part by their number, axis 1 fastest."""
    found, stride = [Need(0, 1, (), (), ())], 1
    for piece, length, it in zip(pieces, lengths, tile):
        found = [
            Need(number * stride + need.tile, need.pixels * pixels, (pixels, *need.shape), (into, *need.into), (wanted, *need.wanted))
            for number, pixels, into, wanted in along(piece, length, it)
            for need in found
        ]
        stride *= -(-length // it)
    return found
