"""`fzbatch look`: pictures of FITS files, packed or plain; of a folder small ones, on one page."""
from __future__ import annotations

import os
import stat
from typing import Optional, Union

from ..pictures import NoPicture, drawing, images, page
from . import names

Extension = Union[int, str, None]


def extension_of(text: str) -> Extension:
    """The HDU that `--hdu` names: its number, or its EXTNAME."""
    return int(text) if text.isascii() and text.isdigit() else text


def out_of(path: bytes, out: Optional[bytes]) -> bytes:
    """The file that is written: `out`, or the name of the file or folder with .png or .html after it, in this folder."""
    if out is not None:
        return out
    return os.path.basename(path.rstrip(b"/") or path) + (b".html" if os.path.isdir(path) else b".png")


def look(path: bytes, out: bytes, extension: Extension = None, how: drawing.Look = drawing.Look()) -> str:
    """Draws a file, or the files of a folder, into the new file `out`, and says what it shows."""
    if os.path.lexists(out):
        raise NoPicture(f"{names.shown(out)} is there: give another name with -o")
    kind = os.stat(path).st_mode
    name = names.shown(os.path.basename(path.rstrip(b"/")) or path)
    try:
        if stat.S_ISDIR(kind):
            text, count, bad = page.page(path, how)
            with open(out, "x", encoding="utf-8", errors="backslashreplace") as file:
                file.write(text)
            return f"{names.shown(out)}: {count} file{'' if count == 1 else 's'}, {bad} of them not shown"
        if not stat.S_ISREG(kind):
            raise NoPicture("it is a pipe or a device, and no file")
        return f"{names.shown(out)}: {drawing.look(path, name, out, images.of_file(path, extension), how)}"
    except NoPicture as error:
        raise NoPicture(f"{names.shown(path)}: {error}") from None
