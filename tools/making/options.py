"""Which options of pack a packed file may have been written with: whether a file is strict is decided by packing with each of them.

pack writes into each table the tile, and for Rice the length of a block. So other lengths than those that the headers say need not be
tried: a file that was written with them has headers that say them.
"""
import itertools

from .fits import hdus_of

MOST_LENGTH = 2147483647
MOST_BLOCK = 32767


def lengths_said(tables, axis):
    """The lengths of a tile along an axis, of all tables that say one which `--tile` takes."""
    said = {it.integer(f"ZTILE{axis}", 0) for it in tables}
    return sorted(it for it in said if 1 <= it <= MOST_LENGTH)


def tiles_said(tables):
    """Each list of lengths that can be made of what the tables say, along the axes that some table has."""
    lengths = [lengths_said(tables, axis) for axis in range(1, 10)]
    many = next((it for it, found in enumerate(lengths) if not found), 9)
    return [",".join(map(str, it)) for it in itertools.product(*lengths[:many]) if it]


def blocks_said(tables):
    """The lengths of a block that the tables say, and that which pack has by itself."""
    said = {it.integer(f"ZVAL{n}", 0) for it in tables for n in (1, 2) if it.text(f"ZNAME{n}") == "BLOCKSIZE"}
    return sorted({32, *(it for it in said if 1 <= it <= MOST_BLOCK)})


def options_for(file):
    """The options, each as pairs of name and value."""
    tables = [it for it in hdus_of(file) if it.is_packed()]
    codecs = [*({"--block": str(it)} for it in blocks_said(tables)), {"--codec": "none"}, {"--codec": "plio"}]
    tiles = [{"--tile": it} for it in tiles_said(tables)] or [{}]
    return [{**codec, **tile, **sums} for codec in codecs for tile in tiles for sums in ({}, {"--sums": None})]
