"""The list for sha256sum of an adopted folder. Every row is checked for it."""
from __future__ import annotations

from typing import Iterator

from .. import keep
from .rows import COLUMNS, GONE
from .store import Store

NAME, SHA256, STATUS = map(COLUMNS.index, ("name", "sha256", "status"))


def pieces(store: Store) -> Iterator[bytes]:
    """The list, piece by piece, to be read by sha256sum -c in the folder. What the store was given is saved before."""
    yield keep.HEAD
    for it in store.paths():
        yield from lines(store, it)


def lines(store: Store, folder: bytes) -> Iterator[bytes]:
    """The lines of one folder."""
    before = folder + b"/" if folder else b""
    for values in store.checked(folder):
        if values[STATUS] != GONE:
            yield keep.line_of(before + values[NAME], values[SHA256].hex())
