"""What each kind of refusal means and what to do about it: the text of docs/REFUSALS.md, which is its one home.

A wheel of this package carries that page beside this file; in a checkout it is read from docs/. Nothing of it is repeated here.
"""
from __future__ import annotations

import re
import sys
from dataclasses import dataclass
from functools import lru_cache
from pathlib import Path
from typing import Dict, Optional, Union

PAGE = "REFUSALS.md"
# A kind begins with its number and name, in bold letters or as a heading, and its text goes to the end of the paragraph.
KIND = re.compile(r"^(?:\*\*|#+ +)(\d+) +(\w+?)\.?(?:\*\*)?\.?(?: +|\n+)(.*?)(?:\n\s*\n|\Z)", re.MULTILINE | re.DOTALL)


SECTION = re.compile(r"^## .*\n", re.MULTILINE)


@dataclass(frozen=True)
class Kind:
    """One kind of refusal: its number, which never changes, its name, and what docs/REFUSALS.md says about it.

    `common` is what the page says of all kinds of its section, which may be nothing.
    """

    number: int
    name: str
    text: str
    common: str = ""


def page_of() -> Optional[Path]:
    """Where the page is: beside this file, in the docs of a checkout, or where a package of the system puts it."""
    here = Path(__file__).resolve().parent
    places = [here / PAGE, here.parents[1] / "docs" / PAGE]
    places += [Path(it) / "share" / "doc" / "fz" / PAGE for it in (sys.prefix, "/usr/local", "/usr")]
    return next((it for it in places if it.is_file()), None)


def plain(text: str) -> str:
    """The text of a paragraph without line breaks and the marks of Markdown."""
    return re.sub(r"\[([^\]]*)\]\([^)]*\)", r"\1", " ".join(text.split())).replace("`", "").replace("**", "")


def kinds_of(page: str) -> Dict[int, Kind]:
    """The kinds that a page tells of, by number."""
    found = {}
    for section in SECTION.split(page):
        told = list(KIND.finditer(section))
        common = section[: told[0].start()].split("\n\n")[0] if told else ""
        if common.endswith(":"):
            # an example follows in the page, and none here
            common = common[:-1] + "."
        for it in told:
            if plain(it[3]):
                found[int(it[1])] = Kind(int(it[1]), it[2], plain(it[3]), plain(common))
    return found


@lru_cache(maxsize=None)
def kinds() -> Dict[int, Kind]:
    """All kinds of refusals by number; empty if the page is nowhere."""
    page = page_of()
    return {} if page is None else kinds_of(page.read_text(encoding="utf-8"))


def kind(wanted: Union[int, str]) -> Optional[Kind]:
    """The kind of this number or name, or None.

    >>> kind("NotFits").number
    1
    """
    return next((it for it in kinds().values() if wanted in (it.number, it.name)), None)
