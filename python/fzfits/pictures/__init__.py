"""Pictures of FITS images and charts of archives, drawn by matplotlib and astropy: the extra `fzfits[pictures]`.

`images` finds the images of a file and averages their pixels, `drawing` draws them, `page` puts small pictures of a folder on one page, and
`charts` draws the charts of `fzbatch report`.
"""
from __future__ import annotations

from importlib import import_module
from typing import Any

INSTALL = "install them by pip install 'fzfits[pictures]', or by apt install python3-matplotlib python3-astropy"


class NoPicture(Exception):
    """There is nothing to draw, or nothing to draw with."""


def library(name: str) -> Any:
    """A module of matplotlib, numpy or astropy, imported only when something is drawn."""
    try:
        return import_module(name)
    except ImportError:
        raise NoPicture(f"pictures are drawn by matplotlib and astropy, and {name.split('.')[0]} is not there: {INSTALL}") from None


def plain_text(text: str) -> str:
    """Text that others wrote, for matplotlib: nothing but line feeds controls anything, and no dollar sign begins a formula."""
    from ..batch.names import told

    return "\n".join(map(told, text.split("\n"))).replace("$", r"\$")
