"""Small pictures of all FITS files of a folder, on one page of HTML that needs nothing beside it."""
from __future__ import annotations

import base64
import io
import os
import warnings
from html import escape
from typing import Iterator, List, Optional

from ..batch import names
from ..headers import Header
from . import NoPicture, drawing, images, library

HEAD = '<!DOCTYPE html>\n<html lang="en"><head><meta charset="utf-8"><meta name="viewport" content="width=device-width, initial-scale=1"><meta name="generator" content="fzbatch look">'
POLICY = "<meta http-equiv=\"Content-Security-Policy\" content=\"default-src 'none'; style-src 'unsafe-inline'; img-src data:\">"
STYLE = """
:root { color-scheme: light dark; } body { font: 14px/1.4 system-ui, sans-serif; margin: 1.5em auto; max-width: 90em; padding: 0 1em; }
.all { display: grid; grid-template-columns: repeat(auto-fill, minmax(170px, 1fr)); gap: 1em; } figure { margin: 0; }
img { display: block; width: 100%; height: 170px; object-fit: contain; background: #8883; } figcaption { margin-top: 4px; overflow-wrap: anywhere; font-size: 12px; }
img.few { image-rendering: pixelated; } .none { height: 170px; background: #8883; display: grid; place-content: center; padding: .5em; box-sizing: border-box; overflow: hidden; } .note { opacity: .7; }
"""
SIZE = 256
# So many files are on a page.
FILES = 2000


def files_of(folder: bytes) -> List[bytes]:
    """The FITS files below a folder, by their names; links to folders are not followed."""
    found = []
    for room, below, here in os.walk(folder):
        below.sort()
        found += [os.path.join(room, it) for it in sorted(here) if names.is_fits(it) and os.path.isfile(os.path.join(room, it))]
    return found


def page(folder: bytes, how: drawing.Look) -> "tuple[str, int, int]":
    """The page, how many files it shows, and how many it could not show."""
    every = files_of(folder)
    if not every:
        raise NoPicture("it has no FITS file")
    library("matplotlib.image")
    with warnings.catch_warnings():
        warnings.simplefilter("ignore")
        parts = list(_figures(folder, every[:FILES], how))
    bad = sum(1 for it in parts if 'class="none"' in it)
    more = f'<p class="note">The first {FILES:,} of {len(every):,} files.</p>' if len(every) > FILES else ""
    title = escape(names.shown(folder))
    body = f"<h1>{title}</h1>{more}<div class=\"all\">\n" + "\n".join(parts) + "\n</div>"
    return f"{HEAD}{POLICY}<title>{title}</title><style>{STYLE}</style></head><body>\n{body}\n</body></html>\n", len(parts), bad


def _figures(folder: bytes, every: List[bytes], how: drawing.Look) -> Iterator[str]:
    for path in every:
        name = escape(names.shown(os.path.relpath(path, folder)))
        try:
            found = images.of_file(path)
            few = ' class="few"' if max((*found[0].axes, 1)[:2]) < SIZE else ""
            picture = f'<img{few} alt="" src="data:image/png;base64,{base64.b64encode(small(path, found[0], how)).decode()}">'
            more = f", and {len(found) - 1} more" if len(found) > 1 else ""
            said = f"{images.title_of(found[0])}{more}"
        except Exception as error:  # a file that cannot be shown leaves the others
            picture, said = f'<div class="none">{escape(names.told(images.wanted(error)))}</div>', "not shown"
        yield f"<figure>{picture}<figcaption><b>{name}</b><br>{escape(names.told(said))}</figcaption></figure>"


def small(path: bytes, header: Header, how: drawing.Look, program: Optional[str] = None) -> bytes:
    """A small picture of an image as PNG, without axes."""
    part = images.part_of(header, "", SIZE, how.exact)
    values = images.bins(path, header, part, program or how.program)
    made = io.BytesIO()
    norm = drawing.norm_of(values, how.stretch)
    colours = drawing.greys()(norm(library("numpy").ma.masked_invalid(values)))
    library("matplotlib.image").imsave(made, colours, format="png", origin="lower", metadata={"Software": None})
    return made.getvalue()
