"""The one place that finds libfz, the library of the codecs, and loads it.

`find` looks in this order: the environment variable FZ_LIBRARY; the folder `_lib` of this package, where a wheel has it; `out` of the
checkout that this package is in, where `make lib` puts it; the folder of libraries that `make install` has put the package below; and
where the system looks for libraries. A library that is named and is not there is an error: the next place is not tried instead.
include/fz.h says what each call does.
"""
from __future__ import annotations

import ctypes
import os
import threading
from pathlib import Path
from typing import Any, Dict, List, Mapping, Optional

from .errors import BadArgument, BadCode, NoLibrary
from .refusals import kind

SONAME = "libfz.so.1"
# The first number of fz_version that this module knows: with it the arguments of a call would change.
MAJOR = 1
NAMED_BY = "FZ_LIBRARY"
HERE = Path(__file__).resolve().parent
PLACES = (HERE / "_lib" / SONAME, HERE / "_lib" / "libfz.so", HERE.parents[1] / "out" / SONAME, HERE.parents[1] / SONAME)
TO_DO = f"make lib builds it in a checkout and make install installs it; or set {NAMED_BY} to its path."

# The kinds of what a call refuses, for the case that docs/REFUSALS.md is nowhere; the answer is minus the number.
KINDS = {21: "CodeShort", 22: "CodeValue", 23: "LineList", 24: "PixelRange", 25: "TileSize"}
# What fzfits.astropy says of a row before any call is made.
ROW_KINDS = {18: "DescriptorRange"}
# The other answers: the caller asks for something that there is not.
ARGUMENTS = {
    -101: "no such codec, or not with this block, bytepix or BITPIX: block is 1 to 32,767 and bytepix 1, 2 or 4 (the bytes of a pixel, if a tile is encoded), and 64 bits are only stored",
    -102: "no such column",
    -103: "no tile has so many pixels: it has 1 to 67,108,864; or the image has no tile of this number",
    -104: "fewer bytes were passed than the record, the row or the header has",
    -105: "out is too short",
    -106: "a number is outside the range of its bits, or for PLIO_1 outside 0 to 16,777,215",
    -107: "these are more than 2^60 bytes",
    -108: "the code is not read on from this mark",
    -109: "no HDU begins at this byte of a file of this length",
    -110: "this is no plan of a packed image",
    -111: "numbers has fewer places than the pixels of the tile",
    -112: "the box has no pixel along an axis, or one outside the image, or not as many axes",
    -113: "the row of a tile is not among the bytes of the rows",
}


class Coded(ctypes.Structure):
    """`struct fz_coded` of fz.h: the column of a record, and the number of its bytes."""

    _fields_ = [("column", ctypes.c_uint32), ("len", ctypes.c_uint32)]


U32, U64, I32, SIZE, POINTER = ctypes.c_uint32, ctypes.c_uint64, ctypes.c_int32, ctypes.c_size_t, ctypes.c_void_p
# The arguments of each call, as fz.h declares them; tools/check_library compares them with it.
CALLS: Dict[str, List[Any]] = {
    "fz_decode_tile": [U32, U32, U32, I32, U32, POINTER, SIZE, U64, POINTER, SIZE],
    "fz_encode_tile": [U32, U32, U32, I32, POINTER, SIZE, POINTER, SIZE, ctypes.POINTER(Coded)],
    "fz_rice_decode": [U32, U32, POINTER, SIZE, POINTER, SIZE, ctypes.POINTER(U64)],
    "fz_rice_encode": [U32, U32, POINTER, SIZE, POINTER, SIZE, ctypes.POINTER(U64)],
    "fz_plio_decode": [POINTER, SIZE, POINTER, SIZE],
    "fz_plio_encode": [POINTER, SIZE, POINTER, SIZE, ctypes.POINTER(U64)],
    "fz_sum": [U32, POINTER, SIZE, ctypes.POINTER(U32)],
}


def find(environment: Optional[Mapping[str, str]] = None) -> str:
    """The path of the library, or its name if the system is to look for it. Raises `NoLibrary` if it is named and not there."""
    named = (os.environ if environment is None else environment).get(NAMED_BY)
    if named:
        if not os.path.isfile(named):
            raise NoLibrary(f"the environment variable {NAMED_BY} names {named!r}, which is not there", (named,), advice=TO_DO)
        return os.path.abspath(named)
    return next((str(it) for it in PLACES if it.is_file()), SONAME)


def opened(path: str) -> ctypes.CDLL:
    """Loads the library and declares its calls. Raises `NoLibrary` if that fails, or if its version is another one."""
    try:
        found = ctypes.CDLL(path)
        for name, arguments in CALLS.items():
            call = getattr(found, name)
            call.argtypes, call.restype = arguments, I32
        found.fz_version.argtypes, found.fz_version.restype = [], U32
    except (OSError, AttributeError) as error:
        looked = (path,) if path != SONAME else (*map(str, PLACES), "the libraries of the system")
        raise NoLibrary(f"{SONAME} was not found, or is another library: {error}", looked, advice=TO_DO) from error
    if found.fz_version() // 10_000 != MAJOR:
        raise NoLibrary(f"{path} has the version {version_of(found)}, and this package needs {MAJOR}", (path,), advice=TO_DO)
    return found


def version_of(library: ctypes.CDLL) -> str:
    """The version of a library, such as 1.0.0."""
    number = library.fz_version()
    return f"{number // 10_000}.{number // 100 % 100}.{number % 100}"


_LOADED: Dict[str, ctypes.CDLL] = {}
_LOADING = threading.Lock()


def load() -> ctypes.CDLL:
    """The library, which is loaded at the first call. Raises `NoLibrary`, which says where it was looked for."""
    found = _LOADED.get("libfz")
    if found is None:
        with _LOADING:
            found = _LOADED.setdefault("libfz", opened(find()))
    return found


def check(answer: int) -> None:
    """Raises what an answer below 0 means: `BadCode` if the bytes are at fault, `BadArgument` if the caller is."""
    if answer >= 0:
        return
    kinds = {**KINDS, **ROW_KINDS}
    if -answer in kinds:
        told = kind(-answer)
        raise BadCode(-answer, told.name if told else kinds[-answer], meaning=told.text if told else "")
    raise BadArgument(ARGUMENTS.get(answer, f"libfz answers {answer}"), answer)
