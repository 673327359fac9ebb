"""What each codec and length of tiles would make of a file: its size, and which readers will find the pixels. By trying them."""
from __future__ import annotations

import os
import tempfile
from dataclasses import dataclass
from typing import Iterable, Iterator, Optional, Tuple

from . import commands
from .errors import Refused
from .headers import Name, headers
from .memory import tile_for
from .readers import READERS, plain_of, readable

CODECS = ("rice", "plio", "none")
TILES: Tuple[Optional[Tuple[int, ...]], ...] = (None, (1 << 31, 16), (32, 32), (64, 64), (128, 128), (256, 256))


@dataclass(frozen=True)
class Try:
    """One way to pack a file. `tile` is empty for rows. `by` are the readers that find all pixels; `refused` says why it cannot be.

    `stored` is how many tiles are stored uncompressed, of `tiles`.
    """

    codec: str
    tile: Tuple[int, ...]
    size: int = 0
    source_size: int = 0
    stored: int = 0
    tiles: int = 0
    by: Tuple[str, ...] = ()
    refused: str = ""

    @property
    def ratio(self) -> float:
        """How many times as long as the packed file the plain one is."""
        return self.source_size / self.size if self.size else 0.0


def tiles_for(path: Name, wanted: Iterable[Optional[Tuple[int, ...]]]) -> Iterator[Tuple[int, ...]]:
    """Those lengths that differ for an image of the file; a length is at most that of the longest axis."""
    axes = [it.axes for it in headers(path) if it.is_packable]
    seen = set()
    for tile in wanted:
        key = tuple(tile_for(it, tile) for it in axes)
        if key not in seen:
            seen.add(key)
            longest = [max((it[at] for it in axes if at < len(it)), default=1) for at in range(len(tile or ()))]
            yield tuple(min(one, most) for one, most in zip(tile or (), longest))


def tried(plain: Name, out: str, codec: str, tile: Tuple[int, ...], program: Optional[Name]) -> Try:
    """Packs the file in one way, and looks at it."""
    try:
        made = commands.pack(plain, out, codec=codec, tile=tile or None, sums=True, program=program)
    except Refused as error:
        return Try(codec, tile, refused=f"{error.number} {error.kind}, HDU {error.hdu}")
    images = readable(out)
    stored, coded = (sum(getattr(it.tiles, name) for it in images) for name in ("stored", "coded"))
    by = tuple(it for it in READERS if all(it in one.by for one in images))
    os.unlink(out)
    return Try(codec, tile, made.size, made.source_size, stored, stored + coded, by)


def plan(path: Name, tiles: Iterable[Optional[Tuple[int, ...]]] = TILES, codecs: Iterable[str] = CODECS, *, program: Optional[Name] = None) -> Tuple[Try, ...]:
    """Packs a file, plain or packed, with each codec and each of these lengths of tiles into a temporary folder.

    `None` is a row. A codec that the file does not allow has one entry, with the reason.
    """
    found = []
    with tempfile.TemporaryDirectory(prefix="fz-") as folder:
        plain = plain_of(path, os.path.join(folder, "plain.fits"), program)
        lengths = tuple(tiles_for(plain, tiles))
        for codec in codecs:
            for it in lengths:
                made = tried(plain, os.path.join(folder, "packed.fits"), codec, it, program)
                found.append(made)
                if made.refused:
                    break
    return tuple(found)
