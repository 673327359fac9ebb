"""The images of a FITS file, packed or plain, as a Dataset of xarray: `xarray.open_dataset("f.fits.fz", engine="fz")`.

xarray finds this module by the entry point of the package. Nothing is decoded before it is used. A variable has the name of its HDU
(EXTNAME), and the cards of its header as attributes. Coordinates are left alone: there are none, and CRPIXi and the like are attributes.
"""
from __future__ import annotations

import os
import re
from typing import Any, Dict, Iterable, List, Optional, Sequence, Tuple, Union

from xarray import Dataset, Variable  # type: ignore[import]
from xarray.backends import BackendArray, BackendEntrypoint  # type: ignore[import]
from xarray.core import indexing  # type: ignore[import]

from .headers import Value
from .opening import File, Image
from .opening import open as open_file
from .opening.dask import chunks_of

# Cards that say what the array says already, or how it is stored.
OF_THE_ARRAY = re.compile(r"SIMPLE|XTENSION|BITPIX|NAXIS\d*|EXTEND|PCOUNT|GCOUNT|CHECKSUM|DATASUM|COMMENT|HISTORY|")
OF_THE_NUMBERS = ("BZERO", "BSCALE", "BLANK")
ENDS = (".fits.fz", ".fit.fz", ".fts.fz")


class Lazy(BackendArray):  # type: ignore[misc]
    """An image that xarray reads parts of."""

    def __init__(self, image: Image) -> None:
        self.image, self.shape, self.dtype = image, image.shape, image.dtype

    def __getitem__(self, key: Any) -> Any:
        return indexing.explicit_indexing_adapter(key, self.shape, indexing.IndexingSupport.BASIC, self.image.read)


def name_of(image: Image, taken: Iterable[str]) -> str:
    """The name of the variable: EXTNAME, PRIMARY or HDU and the number; with the number if there is one of that name already."""
    is_primary = image.header.value("SIMPLE") is True
    name = image.name or ("PRIMARY" if is_primary else f"HDU{image.number}")
    return f"{name}_{image.number}" if name in taken else name


def dimensions_of(image: Image, name: str, lengths: Dict[str, int]) -> List[str]:
    """The names of the dimensions, NAXISi, with the name of the variable after it if an image before has another length there."""
    found = []
    for axis, length in reversed(list(enumerate(image.axes, 1))):
        plain = f"NAXIS{axis}"
        found.append(plain if lengths.setdefault(plain, length) == length else f"{plain}_{name}")
        lengths.setdefault(found[-1], length)
    return found


def attributes_of(image: Image) -> Dict[str, Value]:
    """The values of the header's cards by keyword, the first of each."""
    found: Dict[str, Value] = {}
    for it in image.header.cards:
        is_left_out = OF_THE_ARRAY.fullmatch(it.keyword) or it.keyword in OF_THE_NUMBERS and not image.raw
        if it.value is not None and not is_left_out:
            found.setdefault(it.keyword, it.value)
    return found


def dataset_of(file: File, hdus: Optional[Sequence[Union[int, str]]], dropped: Sequence[str]) -> Dataset:
    """The Dataset of these HDUs, or of all images that can be read. The others are in its attribute `undecoded`."""
    images = file.images if hdus is None else [file[it] for it in hdus]
    variables: Dict[str, Variable] = {}
    lengths: Dict[str, int] = {}
    for image in images:
        name = name_of(image, variables)
        if name not in dropped:
            names = dimensions_of(image, name, lengths)
            encoding = {"preferred_chunks": dict(zip(names, chunks_of(image)))}
            variables[name] = Variable(names, indexing.LazilyIndexedArray(Lazy(image)), attributes_of(image), encoding)
    found = Dataset(variables, attrs={"undecoded": [f"HDU {it.number}: {it.undecoded}" for it in file.values() if it.said.is_packed and it.undecoded]})
    found.set_close(file.close)
    return found


class FzBackend(BackendEntrypoint):  # type: ignore[misc]
    """`engine="fz"`. `hdu` names one HDU or several, by number or EXTNAME; `raw` and `options` are those of `fzfits.open`."""

    description = "Images of FITS files, packed (RICE_1, PLIO_1, NOCOMPRESS) or plain"
    open_dataset_parameters = ("filename_or_obj", "drop_variables", "hdu", "raw", "options")

    def open_dataset(self, filename_or_obj: Any, *, drop_variables: Any = None, hdu: Any = None, raw: bool = False, options: Any = None) -> Dataset:
        """The Dataset of a file: a path, a URL, or an object that is open for bytes."""
        dropped: Tuple[str, ...] = (drop_variables,) if isinstance(drop_variables, str) else tuple(drop_variables or ())
        hdus = [hdu] if isinstance(hdu, (int, str)) else hdu
        return dataset_of(open_file(filename_or_obj, raw=raw, options=options), hdus, dropped)

    def guess_can_open(self, filename_or_obj: Any) -> bool:
        """Whether this is the engine for a name."""
        return isinstance(filename_or_obj, (str, os.PathLike)) and os.fsdecode(filename_or_obj).endswith(ENDS)
