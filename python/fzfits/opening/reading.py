"""From a part of a packed image to its pixels: which rows and records are read, and how they are decoded, in one thread or in several."""
from __future__ import annotations

import threading
from concurrent.futures import ThreadPoolExecutor
from typing import Any, Iterator, List, NamedTuple, Optional, Sequence, Tuple, Union

from ..arrays import numpy
from ..boxes import Piece
from .beginnings import beginner
from .faults import Fault
from .grid import Blocks, Lines, part_of
from .layer import Layer
from .plans import Plan, Record
from .sources import Source

# Records that follow each other are read at once, up to so many bytes; what is read from far away, up to so many.
MOST_READ = 1 << 22
MOST_FAR = 1 << 26
# A table up to so many bytes is read once and kept.
MOST_KEPT = 1 << 20
# So many bytes of room are kept for the next call of a thread.
MOST_SPARE = 1 << 24


class Group(NamedTuple):
    """Records that are read at once: the byte at which they begin, how many bytes there are, and which tiles of the part they are of."""

    start: int
    count: int  # type: ignore[assignment]
    begin: int
    end: int


class Rooms(threading.local):
    """Room for records and for numbers, which each thread keeps while no call has it."""

    code: Any = None
    numbers: Any = None

    def take(self, name: str, count: int, kind: str) -> Tuple[Any, int]:
        """An array with so many elements or more, and its address."""
        kept = getattr(self, name)
        setattr(self, name, None)
        if kept is None or kept[0].size < count:
            room = numpy().empty(count, kind)
            kept = room, room.ctypes.data
        return kept  # type: ignore[no-any-return]

    def give(self, name: str, room: Tuple[Any, int]) -> None:
        """Gives it back."""
        if room[0].nbytes <= MOST_SPARE:
            setattr(self, name, room)


ROOMS = Rooms()


class Tiles:
    """The tiles of one packed image of a source."""

    def __init__(self, source: Source, layer: Layer, plan: Plan) -> None:
        self.source, self.layer, self.plan = source, layer, plan
        self.places = 2 if plan.bitpix == 64 else 1
        self.table: Optional[bytes] = None
        self.seen = bytearray(plan.rows if plan.rows <= MOST_KEPT else 0)

    def rows(self, first: int, last: int) -> Tuple[bytes, int]:
        """The rows of these tiles, and the number of the first one that is there. A short table is kept."""
        plan, table = self.plan, self.table
        if table is None and plan.rows * plan.row_bytes <= MOST_KEPT:
            self.table = table = self.source.read(plan.rows_at, plan.rows * plan.row_bytes)
        if table is not None:
            return table, 0
        return self.source.read(plan.rows_at + first * plan.row_bytes, (last - first + 1) * plan.row_bytes), first

    def records(self, part: Union[Blocks, Lines]) -> Tuple[List[Record], Optional[Fault]]:
        """Where the bytes of these tiles are, up to the first whose row is refused, and why it is."""
        found: List[Record] = []
        for begin, end in runs_of(part.tiles, max(1, MOST_KEPT // self.plan.row_bytes)):
            rows, first = self.rows(part.tiles[begin], part.tiles[end - 1])
            records, fault = self.layer.records(self.plan, part.tiles[begin:end], part.pixels[begin:end], rows, first)
            found += records
            if fault is not None:
                return found, fault
        return found, None

    def read(self, pieces: Sequence[Piece], out: Any, workers: int = 1) -> None:
        """Puts the pixels of a part, forwards, into an array of its shape. Raises the `Fault` of the lowest row that is refused."""
        part = part_of(pieces, self.plan.lengths, self.plan.tile)
        records, fault = self.records(part)
        groups = list(groups_of(records, self.source.gap, -(-len(records) // (2 * workers)) if workers > 1 else len(records)))
        if workers > 1 and len(groups) > 1:
            with ThreadPoolExecutor(min(workers, len(groups)), "fzfits") as pool:
                for it in [pool.submit(self.decode, part, records, group, data, out) for group, data in self.fetched(groups)]:
                    it.result()
        else:
            for group, data in self.fetched(groups):
                self.decode(part, records, group, data, out)
        if fault is not None:
            raise fault

    def fetched(self, groups: Sequence[Group]) -> Iterator[Tuple[Group, Optional[bytes]]]:
        """The groups, with their bytes if these are better fetched together, as from far away."""
        for some in batches_of(groups) if self.source.far else [groups]:
            data: Sequence[Optional[bytes]] = self.source.read_all([it[:2] for it in some]) if self.source.far else len(some) * (None,)
            yield from zip(some, data)

    def decode(self, part: Union[Blocks, Lines], records: Sequence[Record], group: Group, data: Optional[bytes], out: Any) -> None:
        """Decodes the tiles of a group, whose bytes are these or are read first, and puts their pixels into the array."""
        code = ROOMS.take("code", 1 if data else group.count, "u1")
        numbers = ROOMS.take("numbers", self.plan.most * self.places * part.together, "i4")
        try:
            if data is None:
                self.source.read_into(memoryview(code[0])[: group.count], group.start)
                self.placed(part, records, group, code[1], numbers, out)
            else:
                self.placed(part, records, group, numpy().frombuffer(data, "u1").ctypes.data, numbers, out)
        finally:
            ROOMS.give("code", code)
            ROOMS.give("numbers", numbers)

    def placed(self, part: Union[Blocks, Lines], records: Sequence[Record], group: Group, address: int, room: Tuple[Any, int], out: Any) -> None:
        """Decodes the tiles of a group, whose bytes are at this address, some together, and puts their pixels into the array.

        A tile is decoded whole the first time, since whether it is refused depends on all of it, and then as far as it is wanted.
        """
        numbers, width = room[0], self.plan.most * self.places
        decode, begins = self.layer.decoder(self.plan, address - group.start), beginner(self.plan, address - group.start)
        seen, block = self.seen, self.plan.block
        for begin in range(group.begin, group.end, part.together):
            end, at = min(begin + part.together, group.end), room[1]
            for tile, pixels, wanted, record in zip(part.tiles[begin:end], part.pixels[begin:end], part.wanted[begin:end], records[begin:end]):
                first = -(-wanted // block) * block if begins and seen and seen[tile] else pixels
                if first >= pixels or not begins(record, at, first):  # type: ignore[misc]
                    answer = decode(tile, record, at, pixels * self.places)
                    if answer:
                        raise Fault(-answer, "row", tile)
                    if seen:
                        seen[tile] = 1
                at += 4 * width
            part.put(begin, end - begin, numbers if self.places == 1 else joined(numbers), out)


def joined(halves: Any) -> Any:
    """Pixels of 64 bits from their halves, the upper one first."""
    pairs = halves.reshape(-1, 2)
    return (pairs[:, 0].astype("i8") << 32) | pairs[:, 1].view("u4")


def runs_of(tiles: Sequence[int], most: int) -> Iterator[Tuple[int, int]]:
    """The tiles in runs whose rows are so many at most, from the first to the last."""
    begin = 0
    if tiles[-1] - tiles[0] >= most:
        for at, it in enumerate(tiles):
            if it - tiles[begin] >= most:
                yield begin, at
                begin = at
    yield begin, len(tiles)


def groups_of(records: Sequence[Record], gap: int, most: int) -> Iterator[Group]:
    """The tiles whose records follow each other, with at most `gap` bytes between them; so many tiles at most."""
    start = end = begin = 0
    for at, (first, _, read, _, _) in enumerate(records):
        if at == begin:
            start = first
        elif first < end or first > end + gap or end - start > MOST_READ or at - begin >= most:
            yield Group(start, end - start, begin, at)
            begin, start = at, first
        end = first + read
    if records:
        yield Group(start, end - start, begin, len(records))


def batches_of(groups: Sequence[Group]) -> Iterator[Sequence[Group]]:
    """The groups in batches of so many bytes that they can be kept at once."""
    begin, size = 0, 0
    for at, it in enumerate(groups):
        if size + it.count > MOST_FAR and at > begin:
            yield groups[begin:at]
            begin, size = at, 0
        size += it.count
    if groups:
        yield groups[begin:]
