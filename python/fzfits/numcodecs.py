"""Codecs of numcodecs (for zarr and kerchunk): `fz_rice` and `fz_plio`, which decode and encode tiles by libfz.

numcodecs finds them by the entry points of this package. A chunk is a tile, so all chunks have `count` pixels; `bytepix` is the bytes
of a pixel and `block` BLOCKSIZE. Decoded are pixels of the byte order of the machine, without BZERO and BSCALE. A damaged chunk raises
`fzfits.errors.BadCode`.
"""
from __future__ import annotations

from typing import Any, Optional

import numpy as np
from numcodecs.abc import Codec
from numcodecs.compat import ndarray_copy

from . import codec


class FzRice(Codec):  # type: ignore[misc]
    """RICE_1 (FITS 4.0, section 10.4.1)."""

    codec_id = "fz_rice"

    def __init__(self, count: int, bytepix: int, block: int = 32) -> None:
        self.count, self.bytepix, self.block = count, bytepix, block

    def encode(self, buf: Any) -> bytes:
        """The Rice code of the pixels."""
        made: bytes = codec.rice_encode(pixels(buf, "u1" if self.bytepix == 1 else f"i{self.bytepix}"), self.bytepix, self.block)
        return made

    def decode(self, buf: Any, out: Optional[Any] = None) -> Any:
        """The pixels of the code."""
        return given(codec.rice_decode(buf, self.count, self.bytepix, self.block), out)


class FzPlio(Codec):  # type: ignore[misc]
    """PLIO_1 (FITS 4.0, section 10.4.4): pixels of 4 bytes from 0 to 16,777,215."""

    codec_id = "fz_plio"

    def __init__(self, count: int) -> None:
        self.count = count

    def encode(self, buf: Any) -> bytes:
        """The line list of the pixels."""
        made: bytes = codec.plio_encode(pixels(buf, "i4"))
        return made

    def decode(self, buf: Any, out: Optional[Any] = None) -> Any:
        """The pixels of the line list."""
        return given(codec.plio_decode(buf, self.count), out)


def pixels(buffer: Any, kind: str) -> Any:
    """What is to be encoded: an array of pixels, or the bytes of one."""
    return buffer.reshape(-1) if isinstance(buffer, np.ndarray) and buffer.dtype.kind in "iu" and buffer.dtype.itemsize == np.dtype(kind).itemsize else np.frombuffer(buffer, kind)


def given(found: Any, out: Optional[Any]) -> Any:
    """The pixels, or `out` with their bytes in it."""
    return found if out is None else ndarray_copy(found, out)
