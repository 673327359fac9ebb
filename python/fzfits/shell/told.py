"""Errors and names in the words of the shell: which file, what is wrong, and which command helps."""
from __future__ import annotations

import os
import re
import shlex
from typing import List, Optional

from .. import commands
from ..errors import FzError, OverLimit, Refused, shown
from ..headers import Name
from ..results import Verdict


def name(path: Name) -> str:
    """The name of a file as it can be typed in a shell."""
    return shlex.quote(shown(path))


def option(of_mend: str) -> str:
    """An option of `mend` as it is typed."""
    return "--" + of_mend.replace("_", "-")


def sentence(text: str) -> str:
    """The first sentence of a text."""
    return re.split(r"(?<=[.:;]) ", text, maxsplit=1)[0].rstrip(".:;") + "."


def remedy(error: FzError, whole: bool = False) -> str:
    """What to do. If more is known about this very file than about the kind, of the page only its first sentence, unless all is asked for."""
    if isinstance(error, OverLimit):
        return f"--memory {error.enough} is enough; fewer workers or smaller tiles need less." if error.enough else error.remedy()
    if not isinstance(error, Refused):
        return error.remedy()
    lines = [error.advice.replace("tile=(64, 64)", "--tile 64,64")] if error.advice else []
    if error.mends and error.path is not None:
        lines.append(f"fzfits mend {option(error.mends)} {name(error.path)} OUT makes a copy without this fault.")
    if error.meaning:
        lines = lines + [error.meaning] if whole else [sentence(error.meaning), *lines] if lines else [error.meaning]
    return "\n".join(lines)


def message(error: BaseException, path: Optional[Name] = None, whole: bool = False) -> str:
    """An error as lines: the file and the cause, and below what to do."""
    if isinstance(error, FzError):
        about = error.path if error.path is not None else path
        first = error.what() if about is None else f"{shown(about)}: {error.what()}"
        return "\n    ".join([first, *remedy(error, whole).splitlines()])
    if isinstance(error, OSError):
        about = error.filename if error.filename is not None else path
        return f"{shown(about) if isinstance(about, (str, bytes)) else about}: {error.strerror or error}"
    return str(error) if path is None else f"{shown(path)}: {error}"


def wrong_sum(it: Verdict) -> str:
    """What the wrong checksums of an HDU mean.

    >>> wrong_sum(Verdict(2, "ok", "wrong"))
    'CHECKSUM of HDU 2 does not fit its bytes; its data are as DATASUM says, so its header was changed, or CHECKSUM was never right'
    """
    if it.datasum == "wrong":
        said = f"DATASUM of HDU {it.hdu} does not fit its data: they were changed or damaged, or DATASUM was never right"
        return said + {"wrong": "; CHECKSUM does not fit either", "ok": "; CHECKSUM fits, so it was so when that was made"}.get(it.checksum, "")
    if it.datasum == "ok":
        return f"CHECKSUM of HDU {it.hdu} does not fit its bytes; its data are as DATASUM says, so its header was changed, or CHECKSUM was never right"
    return f"CHECKSUM of HDU {it.hdu} does not fit its bytes, and it has no DATASUM: its header or its data were changed or damaged, or CHECKSUM was never right"


def wrong_sums(path: Name) -> "List[str]":
    """What the wrong checksums of a file mean, one line for each HDU that has one."""
    return [wrong_sum(it) for it in commands.verify(path).wrong]


def packed_name(path: str, folder: Optional[str]) -> str:
    """Where `pack` puts the packed file: FILE.fz, beside it or in another folder."""
    return (path if folder is None else os.path.join(folder, os.path.basename(path))) + ".fz"


def plain_name(path: str, folder: Optional[str]) -> Optional[str]:
    """Where `unpack` puts the plain file: the name without .fz; None if it has none."""
    base = path if folder is None else os.path.join(folder, os.path.basename(path))
    return base[:-3] if base.endswith(".fz") and os.path.basename(base) != ".fz" else None


def table(rows: "list[tuple[str, ...]]") -> str:
    """Rows with columns of one width, two blanks apart; numbers are not moved to the right."""
    widths = [max(len(it[at]) for it in rows) for at in range(len(rows[0]))]
    return "\n".join("  ".join(cell.ljust(width) for cell, width in zip(it, widths)).rstrip() for it in rows)
