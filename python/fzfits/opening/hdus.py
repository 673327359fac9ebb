"""The HDUs of an open file: images, whose pixels are read when they are asked for, and all others, which say why they have none."""
from __future__ import annotations

import math
from functools import cached_property
from typing import TYPE_CHECKING, Any, Optional, Sequence, Tuple

from .. import arrays, boxes
from ..contents import content_of
from ..errors import Refused
from ..headers import Header, Value, card_of, value_of
from ..rows import pixels_of_row
from . import restored
from .cards import CARD, Cards
from .faults import Fault, refused
from .fronts import BLOCK, end_of
from .pixels import Packed, Plain
from .plans import At, Said

if TYPE_CHECKING:
    from .file import File

Key = Any


class Hdu:
    """An HDU of an open file. `number` counts from 0, and `name` and `version` are EXTNAME and EXTVER.

    `undecoded` says why there are no pixels to read; it is empty for an `Image`.
    """

    def __init__(self, file: "File", at: At, said: Said, raw_header: bytes) -> None:
        self.file, self.number, self.at, self.said, self.raw_header = file, at.hdu, at, said, raw_header
        self.cards: Cards = said.own or Cards(raw_header, end_of(raw_header, at, len(raw_header) // BLOCK) or 0)

    @cached_property
    def name(self) -> str:
        """The text of EXTNAME, or the empty text."""
        found = (self.cards.text(self.cards.find("EXTNAME")) or b"").decode("latin-1")
        return "" if found == "COMPRESSED_IMAGE" else found

    @property
    def version(self) -> int:
        """The value of EXTVER, or 1."""
        return self.cards.integer(self.cards.find("EXTVER")) or 1

    @cached_property
    def table_header(self) -> Header:
        """The header as the file has it: that of the table, if the HDU is a packed image."""
        raw = self.raw_header
        cards = tuple(card_of(it, raw[CARD * it : CARD * it + CARD]) for it in range(self.cards.count))
        return Header(self.number, self.at.start, raw, cards)

    @cached_property
    def header(self) -> Header:
        """The header: of a packed image that of the image itself, as `unpack` restores it."""
        return self.table_header

    @property
    def sort(self) -> str:
        """What it is: image, packed image, table, compressed table, empty, or the text of XTENSION."""
        return content_of(self.table_header).sort

    @property
    def undecoded(self) -> str:
        """Why it has no pixels to read; empty if it has some."""
        return ""

    def __bool__(self) -> bool:
        return True


class Unread(Hdu):
    """An HDU without pixels to read: every use of them raises `refused`."""

    def __init__(self, file: "File", at: At, said: Said, raw_header: bytes, why: Fault) -> None:
        super().__init__(file, at, said, raw_header)
        self.refused = refused(why, at.hdu, file.name, self.table_header)

    @property
    def undecoded(self) -> str:
        if self.refused.kind == "NotPacked":
            return f"it is no image: {self.sort}"
        return content_of(self.table_header).undecoded or f"refused: {self.refused.number} {self.refused.kind}, {self.refused.place}"

    def no_pixels(self, *_: Any, **__: Any) -> Any:
        """Raises why there are none."""
        raise self.refused

    axes = shape = dtype = chunks = tiles = ndim = size = nbytes = section = property(no_pixels)
    tile = read = to_dask = __getitem__ = __len__ = __array__ = no_pixels

    def __repr__(self) -> str:
        return f"<HDU {self.number} {self.name or '-'}: {self.undecoded}>"


class Section:
    """What `image.section` is: in brackets the part that is wanted."""

    def __init__(self, image: "Image") -> None:
        self.image = image

    def __getitem__(self, key: Key) -> Any:
        return self.image.read(key)


def turned(out: Any, pieces: Sequence[boxes.Piece]) -> Any:
    """The array with axes reversed, and without those that a whole number was asked of."""
    index = tuple(0 if it.drop else slice(None, None, -1 if it.back else 1) for it in pieces[::-1])
    return arrays.numpy().array(out[index], order="C")


class Scaled:
    """Those values of a header that say what the numbers stand for, as `fzfits.arrays` asks for them."""

    is_packed = False

    def __init__(self, bitpix: int, cards: Cards) -> None:
        self.bitpix, self.cards = bitpix, cards

    def integer(self, _: str) -> int:
        """BITPIX."""
        return self.bitpix

    def value(self, keyword: str) -> Value:
        """The value of the first card with this keyword, or None."""
        field = self.cards.field(self.cards.find(keyword))
        return None if field is None else value_of(field.decode("latin-1"))


class Image(Hdu):
    """An image of an open file, packed or plain: a lazy array. Any number of threads may use it at once.

    `shape` and `chunks`, the lengths of a tile, are in the order of numpy. Pixels have their physical values, as `fzfits.section`
    gives them; `raw` images have the numbers that the file stores.
    """

    def __init__(self, file: "File", at: At, said: Said, raw_header: bytes, pixels: "Packed | Plain", raw: bool) -> None:
        super().__init__(file, at, said, raw_header)
        self.pixels, self.raw = pixels, raw
        self.axes = pixels.lengths
        self.shape: Tuple[int, ...] = pixels.lengths[::-1]
        self.chunks: Tuple[int, ...] = pixels.tile[::-1]
        self.ndim = len(self.shape)
        self.size: int = math.prod(self.shape)
        self.tiles: Tuple[int, ...] = tuple(-(-length // it) for length, it in zip(self.shape, self.chunks))
        scaled = Scaled(pixels.bitpix, self.cards)
        self.scaling = arrays.Scaling(arrays.kind_of(scaled), *arrays.scaling_of(scaled))  # type: ignore[arg-type]
        self.stored = arrays.STORED[pixels.bitpix][1:]

    @cached_property
    def header(self) -> Header:
        """The header of the image: of a packed one as `unpack` restores it."""
        if self.said.is_packed:
            return restored.restored(self.raw_header, self.cards.count, self.number, self.at.start)
        return self.table_header

    @property
    def dtype(self) -> Any:
        """The type of the pixels."""
        return arrays.numpy().dtype(self.stored if self.raw else self.scaling.kind)

    @property
    def nbytes(self) -> int:
        """The bytes of the whole array."""
        return self.size * int(self.dtype.itemsize)

    @property
    def section(self) -> Section:
        """Parts of the image: `image.section[100:200, ::4]` reads only the tiles that have a pixel of it."""
        return Section(self)

    def __getitem__(self, key: Key) -> Any:
        return self.read(key)

    def __len__(self) -> int:
        return self.shape[0]

    def __array__(self, dtype: Any = None, copy: Optional[bool] = None) -> Any:
        found = self.read(...)
        return found if dtype is None else found.astype(dtype, copy=False)

    def read(self, key: Key = ..., *, raw: Optional[bool] = None, workers: Optional[int] = None) -> Any:
        """A part of the image: `key` is what would follow an array of the whole image in brackets.

        `raw` gives the stored numbers, and `workers` decodes in so many threads; without them it is as the file was opened.
        Raises `Refused` for the first fault of the rows that are needed, as `fz cut` does.
        """
        np = arrays.numpy()
        pieces = boxes.of_numpy(key, self.axes)
        out = np.empty([it.count for it in pieces[::-1]], self.stored)
        if out.size:
            try:
                self.pixels.read(pieces, out, self.file.workers if workers is None else workers)
            except Fault as fault:
                raise self.at_row(fault) from None
        found = turned(out, pieces) if any([it.back or it.drop for it in pieces]) else out
        if not (self.raw if raw is None else raw):
            found = arrays.physical(found, self.scaling)
        return found if found.ndim else found[()]

    def at_row(self, fault: Fault) -> Refused:
        """The error for a tile that is refused."""
        pixels = pixels_of_row(self.table_header, fault.place)
        advice = f"The tile has the pixels {pixels}; parts of the image without these can be read." if pixels else ""
        return refused(fault, self.number, self.file.name, self.table_header, advice)

    def tile(self, *index: int) -> Any:
        """The pixels of one tile, by its place among the tiles, in the order of numpy: `image.tile(0, 3)`."""
        if len(index) != self.ndim or not all(0 <= it < many for it, many in zip(index, self.tiles)):
            raise IndexError(f"tile{index} is not one of the {'x'.join(map(str, self.tiles))} tiles of the image")
        return self.read(tuple(slice(it * length, (it + 1) * length) for it, length in zip(index, self.chunks)))

    def to_dask(self, chunks: Any = "tiles", *, nbytes: int = 1 << 25) -> Any:
        """The image as an array of dask. Its chunks are groups of whole tiles of about `nbytes` bytes, or what `chunks` says."""
        from .dask import array_of  # pylint: disable=import-outside-toplevel

        return array_of(self, chunks, nbytes)

    def token(self) -> Tuple[Any, ...]:
        """What is another one if the pixels are."""
        return (*self.file.source.token(), self.number, self.raw)

    __dask_tokenize__ = token

    def __reduce__(self) -> Tuple[Any, ...]:
        from .file import image_again  # pylint: disable=import-outside-toplevel

        return image_again, (self.file.source.again(), self.file.options, self.number, self.raw)

    def __repr__(self) -> str:
        return f"<Image {self.number} {self.name or '-'}: {self.dtype} {'x'.join(map(str, self.shape))}, tiles {'x'.join(map(str, self.chunks))}>"
