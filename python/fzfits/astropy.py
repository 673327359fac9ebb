"""Tiles of astropy's CompImageHDU by libfz: `install()` puts it in, and `uninstall()` takes it out again.

    >>> import fzfits.astropy                                   # doctest: +SKIP
    >>> fzfits.astropy.install()                                # doctest: +SKIP

From then on astropy decodes and encodes RICE_1 and PLIO_1 by libfz, in all threads of this process: faster, and a damaged tile raises
`fzfits.errors.BadCode` (a ValueError, and of the class that astropy raises) in the place of wrong pixels. What astropy writes is read by everybody as before. It needs
astropy 5.3 or later, whose codecs are classes; what it replaces is no public part of astropy, so an astropy that has moved it makes
`install` raise `NotSupported`, and changes nothing. Images of integers are decoded by `fzfits.astropy_images`, if this astropy has the
function whose place it takes.
"""
from __future__ import annotations

import importlib
import sys
from functools import lru_cache
from typing import Any, Dict, Optional, Tuple

import numpy as np

from . import astropy_images, codec
from .errors import BadArgument, BadCode, FzError
from .library import check, load

# Where astropy has the table of its codecs: from 6.1 on, and before.
MODULES = ("astropy.io.fits.hdu.compressed._tiled_compression", "astropy.io.fits._tiled_compression.tiled_compression")
TABLE = "ALGORITHMS"
PACKAGE = "astropy.io.fits"
# What astropy raises if a tile is damaged, in a module beside that one, and how its texts begin.
ERROR = "_compression", "CfitsioException"
TEXTS = {21: "decompression error: hit end of compressed byte stream"}
TEXT = "decompression error"
RANGE = "data out of range for PLIO compression"
NAMES = ("RICE_1", "RICE_ONE", "PLIO_1")

# The codecs that were replaced, by their names, while libfz is in their place; and the functions that were, by the modules that name them.
_OWN: Dict[str, Any] = {}
_READERS: Dict[Tuple[str, str], Any] = {}


class NotSupported(FzError):
    """This astropy has no codecs that can be replaced."""


def home() -> Any:
    """The module of astropy that has the table of its codecs. Raises `NotSupported`."""
    for name in MODULES:
        try:
            module = importlib.import_module(name)
        except ImportError:
            continue
        found = getattr(module, TABLE, None)
        if isinstance(found, dict) and "RICE_1" in found and "PLIO_1" in found:
            return module
    version = getattr(sys.modules.get("astropy"), "__version__", "not installed")
    raise NotSupported(f"astropy is {version}, and its codecs were not found", advice="fzfits.astropy needs astropy 5.3 or later.")


def table() -> Dict[str, Any]:
    """The table of astropy's codecs. Raises `NotSupported`."""
    found: Dict[str, Any] = getattr(home(), TABLE)
    return found


@lru_cache(maxsize=None)
def error_class() -> Any:
    """The class of what a damaged tile raises: `BadCode`, and the class that astropy raises then, so that a program that expects it goes on."""
    for name in MODULES:
        try:
            own = getattr(importlib.import_module(f"{name.rpartition('.')[0]}.{ERROR[0]}"), ERROR[1])
        except (ImportError, AttributeError):
            continue

        class DamagedTile(BadCode, own):  # type: ignore[misc, valid-type]
            """A tile that astropy was to decode is damaged."""

            def what(self) -> str:
                return f"{TEXTS.get(self.number, TEXT)}: {super().what()}"

            def __reduce__(self) -> Any:
                return damaged, (self.number, self.kind, self.meaning)

        return DamagedTile
    return BadCode


def damaged(number: int, kind: str, meaning: str) -> BadCode:
    """What a damaged tile raises."""
    made: BadCode = error_class()(number, kind, meaning=meaning)
    return made


def raise_damaged(answer: int) -> None:
    """Raises what an answer of libfz means that is not 0."""
    try:
        check(answer)
    except BadCode as error:
        raise damaged(error.number, error.kind, error.meaning) from None


def numbers_of(buffer: Any, kind: str) -> Any:
    """The pixels that astropy hands over, as numbers of a type: of 8 bits without a sign, as the Rice code has them."""
    return np.asarray(buffer).astype(kind, copy=False).reshape(-1)


def rice_over(own: Any) -> Any:
    """The class that takes the place of astropy's Rice1."""

    class Rice1(own):  # type: ignore[misc]
        """RICE_1 by libfz."""

        def decode(self, buf: Any, out: Optional[Any] = None) -> Any:
            """The numbers of a code, as astropy's class gives them: signed, of `bytepix` bytes."""
            try:
                found = codec.rice_decode(buf, self.tilesize, self.bytepix, self.blocksize)
            except BadCode as error:
                raise damaged(error.number, error.kind, error.meaning) from None
            return found.view("i1") if self.bytepix == 1 else found

        def encode(self, buf: Any) -> bytes:
            """The code of the numbers."""
            kind = "u1" if self.bytepix == 1 else f"i{self.bytepix}"
            made: bytes = codec.rice_encode(numbers_of(buf, kind), self.bytepix, self.blocksize)
            return made

    return Rice1


def plio_over(own: Any) -> Any:
    """The class that takes the place of astropy's PLIO1."""

    class PLIO1(own):  # type: ignore[misc]
        """PLIO_1 by libfz."""

        def decode(self, buf: Any, out: Optional[Any] = None) -> Any:
            """The numbers of a line list, of which the file has the upper byte of a word first."""
            try:
                return codec.plio_decode(buf, self.tilesize)
            except BadCode as error:
                raise damaged(error.number, error.kind, error.meaning) from None

        def encode(self, buf: Any) -> bytes:
            """The list of the numbers, in the byte order of the machine: astropy turns it."""
            try:
                code = codec.plio_encode(numbers_of(buf, "i4"))
            except BadArgument as error:
                raise BadArgument(f"{RANGE}: {error.reason}", error.answer) from None
            return np.frombuffer(code, ">i2").astype("i2").tobytes()

    return PLIO1


def install() -> None:
    """Puts libfz in the place of astropy's codecs; again it does nothing. Raises `NoLibrary` or `NotSupported`, and changes nothing then."""
    load()
    codecs = table()
    if _OWN:
        return
    _OWN.update({name: codecs[name] for name in NAMES if name in codecs})
    rice, plio = rice_over(_OWN["RICE_1"]), plio_over(_OWN["PLIO_1"])
    codecs.update({name: plio if name == "PLIO_1" else rice for name in _OWN})
    put_reader(home())


def put_reader(module: Any) -> None:
    """Puts the functions that decode images and read records in the place of astropy's, wherever they are named, unless this astropy has others."""
    if not astropy_images.is_known(module):
        return
    for name, over in ((astropy_images.RECORD, astropy_images.record_over), (astropy_images.NAME, astropy_images.over)):
        own, ours = getattr(module, name), over(module, raise_damaged)
        for place, it in list(sys.modules.items()):
            if place.startswith(f"{PACKAGE}.") and getattr(it, name, None) is own:
                _READERS[place, name] = own
                setattr(it, name, ours)


def uninstall() -> None:
    """Puts astropy's own codecs back; does nothing if libfz is not in their place."""
    if _OWN:
        table().update(_OWN)
        _OWN.clear()
    for (place, name), own in _READERS.items():
        setattr(sys.modules[place], name, own)
    _READERS.clear()


def is_installed() -> bool:
    """Whether libfz is in the place of astropy's codecs."""
    return bool(_OWN)
