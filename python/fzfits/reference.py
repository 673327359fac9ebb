"""Packed images for readers of zarr: references to the tiles of a file, in the form of kerchunk (version 1), with the codecs of `fzfits.numcodecs`.

    refs = fzfits.references("s3://bucket/f.fits.fz")
    zarr.open(fsspec.filesystem("reference", fo=refs).get_mapper(""), "r")["SCI"][100:200, 300:400]

Each image is an array of zarr whose chunks are its tiles; a chunk is the range of bytes that has the code of the tile. The numbers are
those that the file stores: BSCALE and BZERO are attributes. A zarr array has chunks of one length and one codec, so a tile at an edge
that is shorter, and a tile that is stored as plain bytes, are coded anew and are in the references themselves.
"""
from __future__ import annotations

import base64
import json
from typing import Any, Dict, Iterator, List, Optional, Tuple

from .arrays import numpy
from .boxes import Piece
from .errors import BadArgument
from .headers import Value
from .opening import Image
from .opening import open as open_file
from .opening.grid import needs
from .opening.pixels import Packed
from .opening.plans import Record

PLAIN, RICE, PLIO = 0, 1, 2
# So many bytes of tiles are coded anew for one file at most.
MOST_ANEW = 1 << 28
SCALES = ("BSCALE", "BZERO", "BLANK", "BUNIT", "EXTNAME", "OBJECT", "DATE-OBS", "EXPTIME", "FILTER")

Refs = Dict[str, Any]


def compressor_of(pixels: Packed) -> Optional[Dict[str, Any]]:
    """What decodes a tile, as numcodecs names it; None for plain bytes."""
    plan = pixels.plan
    if plan.codec == RICE:
        return {"id": "fz_rice", "count": plan.most, "bytepix": plan.bytepix, "block": plan.block}
    return {"id": "fz_plio", "count": plan.most} if plan.codec == PLIO else None


def kind_of(pixels: Packed) -> str:
    """The type of the decoded numbers: those of NOCOMPRESS are in the byte order of FITS."""
    plan = pixels.plan
    if plan.codec == PLAIN:
        return "|u1" if plan.bitpix == 8 else f">i{plan.bitpix // 8}"
    size = plan.bytepix if plan.codec == RICE else 4
    return "|u1" if size == 1 else f"<i{size}"


def array_of(image: Image, pixels: Packed) -> str:
    """The text of `.zarray`."""
    wanted = {"zarr_format": 2, "shape": image.shape, "chunks": image.chunks, "dtype": kind_of(pixels), "compressor": compressor_of(pixels), "fill_value": None, "order": "C", "filters": None}
    return json.dumps(wanted)


def attributes_of(image: Image) -> str:
    """The text of `.zattrs`: what the numbers stand for, and the names of the dimensions for xarray."""
    found: Dict[str, Any] = {"_ARRAY_DIMENSIONS": [f"NAXIS{it}" for it in range(image.ndim, 0, -1)]}
    for keyword in SCALES:
        value: Value = image.header.value(keyword)
        if value is not None:
            found[keyword] = value
    return json.dumps(found)


def coded(pixels: Packed, array: Any, chunk: Tuple[int, ...]) -> str:
    """A tile coded anew in the shape of a chunk, as kerchunk has bytes in a text."""
    from . import codec  # pylint: disable=import-outside-toplevel

    np = numpy()
    whole = np.pad(array, [(0, most - length) for most, length in zip(chunk, array.shape)], mode="edge")
    plan = pixels.plan
    if plan.codec == RICE:
        data = codec.rice_encode(whole.astype(kind_of(pixels)), plan.bytepix, plan.block)
    else:
        data = codec.plio_encode(whole) if plan.codec == PLIO else whole.astype(kind_of(pixels)).tobytes()
    return "base64:" + base64.b64encode(data).decode("ascii")


def chunks_of(image: Image, pixels: Packed, url: str) -> Iterator[Tuple[str, Any]]:
    """The key of each tile, and where its bytes are."""
    tiles = needs([Piece(1, it, 1, it) for it in image.axes], image.axes, pixels.tile)
    records: List[Record]
    records, fault = pixels.layer.records(pixels.plan, [it.tile for it in tiles], [it.pixels for it in tiles], *pixels.rows(0, len(tiles) - 1))
    if fault is not None:
        raise image.at_row(fault)
    anew = 0
    for need, (start, total, read, column, _) in zip(tiles, records):
        place = tuple(into.start // length for into, length in zip(need.into, image.chunks))
        if need.shape == image.chunks and (column == 0 or pixels.plan.codec == PLAIN) and read == total:
            yield ".".join(map(str, place)), [url, start, total]
            continue
        anew += need.pixels * pixels.bitpix // 8
        if anew > MOST_ANEW:
            raise BadArgument(f"more than {MOST_ANEW >> 20} MB of the tiles of HDU {image.number} are shorter than others or stored as plain bytes: retile the file", None)
        yield ".".join(map(str, place)), coded(pixels, image.read(need.into, raw=True), image.chunks)


def references(thing: Any, url: Optional[str] = None, options: Optional[Dict[str, Any]] = None) -> Refs:
    """References to all packed images of a file that can be read, for zarr by way of fsspec's `reference`.

    `thing` and `options` are those of `fzfits.open`. `url` is where readers find the file, by default what was opened. An array has the
    name of its HDU (EXTNAME), or HDU and its number.
    """
    with open_file(thing, options=options) as file:
        where = url or (str(file.name) if file.name else "")
        if not where:
            raise BadArgument("references lead to a file, and bytes have no name: url says where readers find it", None)
        found: Refs = {".zgroup": json.dumps({"zarr_format": 2})}
        for image in file.images:
            if isinstance(image.pixels, Packed):
                name = image.name or f"HDU{image.number}"
                name = f"{name}_{image.number}" if f"{name}/.zarray" in found else name
                found[f"{name}/.zarray"] = array_of(image, image.pixels)
                found[f"{name}/.zattrs"] = attributes_of(image)
                found.update((f"{name}/{key}", value) for key, value in chunks_of(image, image.pixels, where))
    return {"version": 1, "refs": found}
