"""`open`: a file as a mapping of its HDUs, each of which is looked at when it is asked for."""
from __future__ import annotations

import contextlib
import os
import threading
from collections import OrderedDict
from collections.abc import Mapping
from typing import Any, Dict, Iterator, List, Optional, Tuple, Union

from .. import plain
from ..errors import NoSuchHdu, Refused
from .faults import Fault, Kind, refused
from .hdus import Hdu, Image, Unread
from .layer import layer
from .pixels import Packed, Plain
from .plans import At, Said
from .sources import OpenAgain, Source, source_of

Extension = Union[int, str, Tuple[str, int]]
# So many files stay open in a process to which images were pickled.
MOST_AGAIN = 16


class File(Mapping):  # type: ignore[type-arg]
    """An open file: `file[1]`, `file["SCI"]`, `file["SCI", 2]`, or `file.first` for the first image.

    Its keys are the numbers of the HDUs. `refused` is why those after the last one cannot be read, or None.
    """

    def __init__(self, source: Source, raw: bool = False, workers: int = 1, options: Optional[Dict[str, Any]] = None) -> None:
        self.source, self.raw, self.workers, self.options, self.layer = source, raw, workers, options, layer()
        self.fronts: List[Tuple[At, Said, bytes]] = []
        self.hdus: Dict[int, Hdu] = {}
        self.refused: Optional[Refused] = None
        self.lock = threading.RLock()
        if not self.reach(0):
            source.close()
            assert self.refused is not None
            raise self.refused

    @property
    def name(self) -> Any:
        """The name of the file, or None."""
        return self.source.name

    def reach(self, number: int) -> bool:
        """Goes over the headers up to that of this HDU. Answers whether there is one."""
        with self.lock:
            while len(self.fronts) <= number and self.refused is None:
                at = self.next_at()
                if at is None:
                    return False
                try:
                    front = self.front(at)
                    said = self.layer.said(front, at)
                    self.fronts.append((at, said, front[: said.header_len]))
                except Fault as fault:
                    self.refused = refused(fault, at.hdu, self.name)
            return len(self.fronts) > number

    def next_at(self) -> Optional[At]:
        """Where the next HDU begins, or None after the last one."""
        if not self.fronts:
            return At(0, self.source.length, 0)
        at, said, _ = self.fronts[-1]
        empty = at.hdu == 0 and not said.lengths
        return None if said.next_at == at.length else At(said.next_at, at.length, at.hdu + 1, empty)

    def front(self, at: At) -> bytes:
        """The whole header of an HDU, and maybe some bytes after it."""
        left = at.length - at.start
        front = self.source.read(at.start, min(self.source.front, left))
        more = self.layer.more(front, at)
        while more:
            more = min(max(more, len(front)), left - len(front))
            front += self.source.read(at.start + len(front), more)
            more = self.layer.more(front, at)
        return front

    def number_of(self, key: Extension) -> int:
        """The number of an HDU. A name without a version is the first of that name, and PRIMARY also the packed primary image."""
        if isinstance(key, int):
            if not self.reach(key) or key < 0:
                raise self.refused or NoSuchHdu(key, self.names(), path=self.name, command="open")
            return key
        name, version = (key, None) if isinstance(key, str) else key
        wanted = name.strip().upper()
        for number in self:
            hdu = self[number]
            is_primary = wanted == "PRIMARY" and not hdu.name and (number == 0 and len(hdu.said.lengths) > 0 or hdu.cards.is_true(hdu.cards.find("ZSIMPLE")))
            if (wanted and hdu.name.upper() == wanted or is_primary) and version in (None, hdu.version):
                return number
        raise self.refused or NoSuchHdu(name if version is None else f"{name},{version}", self.names(), path=self.name, command="open")

    def names(self) -> List[str]:
        """The names of the HDUs, without those that have none."""
        return [it.name for it in self.values() if it.name]

    def __getitem__(self, key: Extension) -> Any:
        number = self.number_of(key)
        found = self.hdus.get(number)
        return self.hdus.setdefault(number, self.hdu(number)) if found is None else found

    def hdu(self, number: int, raw: Optional[bool] = None) -> Hdu:
        """The HDU with this number, made anew."""
        at, said, front = self.fronts[number]
        try:
            return Image(self, at, said, front, self.pixels(at, said, front), self.raw if raw is None else raw)
        except Fault as fault:
            return Unread(self, at, said, front, fault)

    def pixels(self, at: At, said: Said, front: bytes) -> Union[Packed, Plain]:
        """The pixels of an HDU. Raises the `Fault` for which `fz cut` refuses it."""
        if said.sort not in ("PRIMARY", "IMAGE"):
            return Packed(self.source, self.layer, self.layer.plan(front, at, said))
        header = Hdu(self, at, said, front).table_header
        if not plain.is_image(header):
            raise Fault(Kind.NotPacked, "byte", at.start)
        return Plain(self.source, header)

    @property
    def first(self) -> Image:
        """The first packed image, or else the first plain one. Raises why there is none."""
        others = [it for it in self.values() if it.said.is_packed or isinstance(it, Image)]
        found: Union[Image, Unread, None] = next((it for it in others if it.said.is_packed), others[0] if others else None)
        if found is None:
            raise self.refused or refused(Fault(Kind.NotPacked, "byte", self.source.length), len(self), self.name)
        if isinstance(found, Unread):
            raise found.refused
        return found

    @property
    def images(self) -> Tuple[Image, ...]:
        """The HDUs whose pixels can be read."""
        return tuple(it for it in self.values() if isinstance(it, Image))

    def __iter__(self) -> Iterator[int]:
        number = 0
        while self.reach(number):
            yield number
            number += 1

    def __len__(self) -> int:
        while self.reach(len(self.fronts)):
            pass
        return len(self.fronts)

    def __contains__(self, key: object) -> bool:
        try:
            self.number_of(key)  # type: ignore[arg-type]
        except (NoSuchHdu, Refused, TypeError, ValueError):
            return False
        return True

    def close(self) -> None:
        """Closes the file, but not an object that was open before. Readings that are under way end as they would have."""
        self.source.close()

    def __enter__(self) -> "File":
        return self

    def __exit__(self, *_: object) -> None:
        self.close()

    def __reduce__(self) -> Tuple[Any, ...]:
        return file_again, (self.source.again(), self.options, self.raw, self.workers)

    def __repr__(self) -> str:
        lines = [f"<File {os.fsdecode(self.name) if self.name else 'of bytes'}>", *(f"  {it!r}" for it in self.values())]
        return "\n".join([*lines, *([f"  {self.refused}"] if self.refused else [])])


def open(  # pylint: disable=redefined-builtin
    thing: Any, *, raw: bool = False, workers: int = 1, options: Optional[Dict[str, Any]] = None
) -> File:
    """Opens a FITS file, packed or plain, so that parts of its images can be read: nothing is decoded before.

        with fzfits.open("f.fits.fz") as file:
            part = file["SCI"].section[100:200, ::4]

    `thing` is a path, the bytes of a file, a file that is open for bytes, a file of fsspec, or a URL such as `s3://..`, for which
    `options` are those of fsspec. With `raw` images have the numbers that the file stores, and not the physical values. `workers`
    is how many threads decode a part of many tiles.
    """
    return File(source_of(thing, options), raw, workers, options)


AGAIN: "OrderedDict[Any, File]" = OrderedDict()
AGAIN_LOCK = threading.Lock()


def file_again(things: Tuple[Any, ...], options: Optional[Dict[str, Any]], raw: bool, workers: int) -> File:
    """The file that was pickled, opened in this process."""
    return open(*things, raw=raw, workers=workers, options=options)


def again_key(thing: Any) -> Any:
    """What is the same if a file that was pickled is the same as before."""
    if isinstance(thing, str) and "://" not in thing:
        found = os.stat(thing)
        return thing, found.st_dev, found.st_ino, found.st_mtime_ns, found.st_size
    return thing.key if isinstance(thing, OpenAgain) else None


def image_again(things: Tuple[Any, ...], options: Optional[Dict[str, Any]], number: int, raw: bool) -> Any:
    """The image that was pickled. Its file stays open for the next ones, as long as it is the same."""
    key = None
    with contextlib.suppress(OSError):
        key = again_key(things[0])
    if key is None:
        return file_again(things, options, raw, 1)[number]
    with AGAIN_LOCK:
        kept = AGAIN.get((key, raw))
        if kept is None:
            kept = AGAIN[(key, raw)] = file_again(things, options, raw, 1)
        AGAIN.move_to_end((key, raw))
        while len(AGAIN) > MOST_AGAIN:
            AGAIN.popitem(last=False)
    return kept[number]
