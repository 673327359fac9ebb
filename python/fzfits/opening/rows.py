"""The row of a tile: where its bytes are (checks 62 to 64 of docs/FORMAT.md, section 10)."""
from __future__ import annotations

from struct import Struct
from typing import List, Optional, Sequence, Tuple

from ..arrays import numpy
from .faults import Fault, Kind
from .images import PLAIN
from .plans import Arrays, Plan, Record

# So many tiles are worth the calls of numpy.
MANY = 12
NARROW, WIDE = Struct(">II"), Struct(">QQ")


def descriptor(column: Optional[Arrays], rows: bytes, at: int) -> Tuple[int, int]:
    """The count and the offset of a column in the row that begins here; 0 and 0 if there is no such column."""
    if column is None:
        return 0, 0
    count, offset = (WIDE if column.wide else NARROW).unpack_from(rows, at + column.at)
    return count, offset


def record_of(plan: Plan, tile: int, pixels: int, rows: bytes, at: int) -> Record:
    """Where the bytes of a tile with so many pixels are, by its row, which begins at this byte of `rows`."""
    column, chosen = 0, plan.coded
    count, offset = descriptor(chosen, rows, at)
    if not count:
        column, chosen = 1, plan.stored
        count, offset = descriptor(chosen, rows, at)
        if not count:
            has_gzip = descriptor(plan.gzip, rows, at)[0] > 0
            raise Fault(Kind.GzipTile if has_gzip else Kind.TileMissing, "row", tile)
    assert chosen is not None
    total = count * chosen.unit
    if offset + total > plan.heap_len:
        raise Fault(Kind.DescriptorRange, "row", tile)
    if (column or plan.codec == PLAIN) and total != pixels * plan.bitpix // 8:
        raise Fault(Kind.TileSize, "row", tile)
    return plan.heap_at + offset, total, min(total, 8 * pixels + 64), column, None


def records_of(plan: Plan, tiles: Sequence[int], pixels: Sequence[int], rows: bytes, first: int) -> Tuple[List[Record], Optional[Fault]]:
    """Those of several tiles, up to the first whose row is refused, and why it is. `rows` begin with row `first`."""
    found: List[Record] = []
    if len(tiles) >= MANY and plan.coded is not None and plan.codec != PLAIN:
        found = coded_of(plan, plan.coded, tiles, pixels, rows, first)
    try:
        for tile, many in zip(tiles[len(found) :], pixels[len(found) :]):
            found.append(record_of(plan, tile, many, rows, (tile - first) * plan.row_bytes))
    except Fault as fault:
        return found, fault
    return found, None


def coded_of(plan: Plan, coded: Arrays, tiles: Sequence[int], pixels: Sequence[int], rows: bytes, first: int) -> List[Record]:
    """The same for many tiles at once, if all have a code and none is refused; otherwise none."""
    np = numpy()
    kind, size = (">u8", 8) if coded.wide else (">u4", 4)
    table = np.ndarray((len(rows) // plan.row_bytes, 2), kind, rows, coded.at, (plan.row_bytes, size))
    step = tiles[1] - tiles[0]
    is_run = tiles[-1] - tiles[0] == step * (len(tiles) - 1) and list(tiles) == list(range(tiles[0], tiles[-1] + 1, step))
    wanted = table[tiles[0] - first : tiles[-1] - first + 1 : step] if is_run else table[np.array(tiles) - first]
    counts, offsets = wanted.astype("u8").T
    if not counts.all() or counts.max() > plan.heap_len or offsets.max() > plan.heap_len:
        return []
    totals = counts * np.uint64(coded.unit)
    if (offsets + totals).max() > plan.heap_len:
        return []
    reads = np.minimum(totals, np.array(pixels, "u8") * 8 + 64).tolist()
    return list(zip((offsets + np.uint64(plan.heap_at)).tolist(), totals.tolist(), reads, [0] * len(reads), [None] * len(reads)))
