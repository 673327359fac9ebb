"""Pack, restore, cut and verify integer images in FITS files with the program fz.

    >>> import fzfits                                                            # doctest: +SKIP
    >>> fzfits.pack("night/a.fits", "packed/a.fits.fz", tile=(64, 64), sums=True)  # doctest: +SKIP
    >>> fzfits.verify("packed/a.fits.fz").is_right                                # doctest: +SKIP
    True
    >>> fzfits.section("packed/a.fits.fz", "SCI", np.s_[100:200, ::4]).shape      # doctest: +SKIP
    (100, 1024)
    >>> fzfits.open("packed/a.fits.fz")["SCI"].section[100:200, ::4].shape        # doctest: +SKIP
    (100, 1024)
    >>> fzfits.write("packed/b.fits.fz", array, header={"OBJECT": "M 31"})        # doctest: +SKIP

Every packed or restored byte is made by the program; this package finds it (`fzfits.program`), calls it, and turns what it prints into
results (`Hdu`, `Verdict`, `Report`, `Made`) and errors (`FzError` and its subclasses) that say what to do. `open` and `fzfits.codec` decode
in this process, by libfz. It needs nothing but Python; arrays need numpy, and HDUs of `section` astropy.
"""
from importlib import import_module
from typing import TYPE_CHECKING, Any

from .checks import Checked, check
from .commands import cut, drill, list, pack, retile, unpack, verify  # noqa: F401  # pylint: disable=redefined-builtin
from .contents import Content, contents
from .errors import FzError, Killed, NoMemory, NoProgram, NoSuchHdu, OverLimit, ReadFault, Refused, Unexpected, Usage, WriteFault
from .mend import Change, Mended, mend
from .plan import Try, plan
from .readers import Readable, readable, stored_tiles
from .results import Drill, Hdu, Made, Place, Report, Verdict
from .section import cutout, section, section_cfitsio
from .version import VERSION
from .writing import patch, write

if TYPE_CHECKING:
    from .opening import File, Image, open  # pylint: disable=redefined-builtin
    from .reference import references

__version__ = VERSION

# `list` and `open` are left out, so that `from fzfits import *` does not hide those of Python.
__all__ = [
    "Change", "Checked", "Content", "Drill", "File", "FzError", "Hdu", "Image", "Killed", "Made", "Mended", "NoMemory", "NoProgram", "NoSuchHdu", "OverLimit", "Place",
    "ReadFault", "Readable", "Refused", "Report", "Try", "Unexpected", "Usage", "Verdict", "WriteFault", "check", "contents", "cut", "cutout", "drill",
    "mend", "pack", "patch", "plan", "readable", "references", "retile", "section", "section_cfitsio", "stored_tiles", "unpack", "verify", "write",
]

# What is imported when it is first used: the commands need nothing of it, and start without it.
LATER = {"File": ".opening", "Image": ".opening", "open": ".opening", "references": ".reference"}


def __getattr__(name: str) -> Any:
    if name not in LATER:
        raise AttributeError(f"module {__name__!r} has no attribute {name!r}")
    found = globals()[name] = getattr(import_module(LATER[name], __name__), name)
    return found
