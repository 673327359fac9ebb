"""Names: which files of a folder are adopted, and where its manifest is if no other place is named.

Every command looks at these, also those that then have nothing to do with an adopted folder: so nothing large is imported here.
"""
from __future__ import annotations

from .. import names

SUFFIX = b".fzbatch.sqlite"


def is_wanted(name: bytes) -> bool:
    """Whether a file of this name is adopted: FITS files, packed ones, and those that another program compressed as a whole."""
    return names.is_fits(name) or name.lower().endswith(names.PACKED) or names.is_compressed_fits(name)


def beside(folder: bytes) -> bytes:
    """The manifest of a folder if no other place is named: beside it, with its name."""
    return folder.rstrip(b"/") + SUFFIX
