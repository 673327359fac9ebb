"""Which programs find the pixels of a packed file, and which lengths of tiles leave no tile stored.

A tile whose code is not shorter than its pixels is stored as plain bytes, as the standard allows (FITS 4.0, section 10.1.3). Not
all readers take that, so what is said here depends on the rows of the table and not only on its header. What is said of other
programs was seen with cfitsio 4.2.0 and 4.6.2 (funpack, imcopy), fitsio 1.1.8 and 1.2.5, and astropy 5.2.1 and 7.0.1; the
repository's tools/interop tries it again.
"""
from __future__ import annotations

import os
import tempfile
from dataclasses import dataclass
from typing import Dict, Iterable, List, Optional, Sequence, Tuple

from . import commands
from .headers import Header, Name, headers
from .rows import Tiles, tiles_of

READERS = ("fz", "funpack", "imcopy", "fitsio", "astropy 5", "astropy 7")
OURS = ("RICE_1", "RICE_ONE", "PLIO_1", "NOCOMPRESS")


@dataclass(frozen=True)
class Readable:
    """Who finds the pixels of one packed image.

    `tiles` says how its tiles are kept. `unread` has the reason for each reader of `READERS` that does not find them.
    """

    hdu: int
    name: str
    codec: str
    bitpix: int
    axes: Tuple[int, ...]
    tiles: Tiles
    unread: Dict[str, str]

    @property
    def by(self) -> Tuple[str, ...]:
        """The readers that find the pixels."""
        return tuple(it for it in READERS if it not in self.unread)

    def __bool__(self) -> bool:
        """Whether all of them do."""
        return not self.unread


def unread_of(header: Header, tiles: Tiles) -> Dict[str, str]:
    """Which readers do not find the pixels of a packed image, and why."""
    codec, bits, stored = str(header.value("ZCMPTYPE")), header.integer("ZBITPIX"), tiles.stored > 0
    scaled = header.value("BZERO") not in (None, 0) or header.value("BSCALE") not in (None, 1)
    found: List[Tuple[str, str]] = []
    if codec not in OURS:
        found.append(("fz", f"it does not read the codec {codec}"))
    elif bits < 0 or header.card("ZSCALE") or header.card("ZZERO"):
        found.append(("fz", "it reads integer images only"))
    elif tiles.gzip:
        found.append(("fz", "it does not read tiles of gzip"))
    if bits == 64:
        found += [(it, "the codecs of the standard have no 64 bits, and fz stores such tiles") for it in READERS[1:]]
    if len(header.axes) > 3:
        found += [(it, "it reads packed images of 1 to 3 axes only") for it in ("imcopy", "fitsio", "astropy 5")]
    if stored and scaled:
        found.append(("fitsio", "cfitsio does not apply BZERO and BSCALE to stored tiles: it fails, or gives other pixels with no error"))
    if codec == "NOCOMPRESS":
        found += [(it, "it does not read NOCOMPRESS") for it in ("astropy 5", "astropy 7")]
    if stored:
        found.append(("astropy 7", "it fails at stored tiles with a KeyError, as other versions from 6 on may"))
    return dict(found[::-1])


def readable(path: Name) -> Tuple[Readable, ...]:
    """Which readers find the pixels of each packed image of a file; nothing is decoded.

    >>> [it.by for it in readable("packed/a.fits.fz")]  # doctest: +SKIP
    [('fz', 'funpack', 'imcopy', 'fitsio', 'astropy 5')]
    """
    found = []
    try:
        for it in headers(path):
            if it.is_packed:
                tiles = tiles_of(path, it)
                found.append(Readable(it.number, it.name, str(it.value("ZCMPTYPE")), it.integer("ZBITPIX"), it.axes, tiles, unread_of(it, tiles)))
    except OSError:
        commands.list(path)  # which says why
        raise
    return tuple(found)


def stored_tiles(path: Name, tiles: Iterable[Optional[Sequence[int]]] = (None, (32, 32), (64, 64), (128, 128), (256, 256)), *, codec: str = "rice", program: Optional[Name] = None) -> Dict[Tuple[int, ...], int]:
    """How many tiles would be stored for each of these lengths of tiles; 0 is what all readers take.

    The file, plain or packed, is packed with each of them into a temporary folder (TMPDIR) and looked at; `None`, with the key
    `()`, is a row. Small tiles and noise without structure are stored most: choose lengths with 0, or leave the file plain.
    """
    counts = {}
    with tempfile.TemporaryDirectory(prefix="fz-") as folder:
        plain = plain_of(path, os.path.join(folder, "plain.fits"), program)
        for it in tiles:
            out = os.path.join(folder, "packed.fits")
            commands.pack(plain, out, codec=codec, tile=it, program=program)
            counts[tuple(it or ())] = sum(one.tiles.stored for one in readable(out))
            os.unlink(out)
    return counts


def plain_of(path: Name, out: str, program: Optional[Name]) -> Name:
    """The file itself if it has no packed image, or the one that it stands for."""
    if not any(it.is_packed for it in commands.list(path, program=program)):
        return path
    commands.unpack(path, out, program=program)
    return out
