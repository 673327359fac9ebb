"""The checks of what a packed header says of its image (38 to 59 of docs/FORMAT.md, section 10), and the plan that it then is."""
from __future__ import annotations

import math
import re
from typing import Optional, Tuple

from .cards import Cards, keyword
from .faults import Fault, Kind, at_card
from .plans import At, Plan, Said
from .tables import TO_999, Table, check_cards, check_table, table_of

CODECS = {b"NOCOMPRESS": 0, b"RICE_1": 1, b"RICE_ONE": 1, b"PLIO_1": 2}
PLAIN, RICE, PLIO = 0, 1, 2
SCALING = (b"ZSCALE", b"ZZERO", b"ZBLANK", b"NULL_PIXEL_MASK")
COLUMN_NAME = re.compile(rb"TTYPE(" + TO_999 + rb") *")
PARAMETER_NAME = re.compile(rb"ZNAME(" + TO_999 + rb") *")
MOST_AXES = 9
MOST_LENGTH = 2_147_483_647
MOST_PIXELS, MOST_TILE, MOST_TILES = 1 << 40, 1 << 26, 2_147_483_647
MOST_BLOCK = 32_767


def plan_of(cards: Cards, said: Said, at: At) -> Plan:
    """The plan of the packed image of this HDU."""
    if said.sort == "BINTABLE":
        check_table(cards)
    if not said.is_packed:
        raise Fault(Kind.NotPacked, "byte", at.start)
    check_cards(cards)
    axes = len(said.lengths)
    table = table_of(cards, said, cards.integer(4 + axes) or 0)
    check_scaling(cards, table.fields)
    codec = codec_of(cards)
    bitpix = bitpix_of(cards, codec)
    lengths, tile = shape_of(cards)
    block, bytepix = parameters_of(cards) if codec == RICE else (0, 0)
    primary = check_sort(cards, at.after_empty)
    offset = cards.first_offset() if codec == PLIO else None
    if offset is not None:
        raise at_card(Kind.PlioOffset, offset)
    if said.lengths[1] != tiles_of(lengths, tile):
        raise at_card(Kind.RowCount, 4)
    return made(said, table, codec, (block, bytepix), bitpix, lengths, tile, primary)


def made(said: Said, table: Table, codec: int, parameters: Tuple[int, int], bitpix: int, lengths: Tuple[int, ...], tile: Tuple[int, ...], primary: bool) -> Plan:
    """The plan, of what was checked."""
    coded, stored, gzip = (table.columns.get(it) for it in (b"COMPRESSED_DATA", b"UNCOMPRESSED_DATA", b"GZIP_COMPRESSED_DATA"))
    where = said.data_at, said.data_at + table.heap, said.data_len - table.heap, said.lengths[0], said.lengths[1]
    return Plan(*where, coded, stored, gzip, codec, *parameters, bitpix, lengths, tile, primary)


def tiles_of(lengths: Tuple[int, ...], tile: Tuple[int, ...]) -> int:
    """How many tiles the image has."""
    return math.prod(-(-length // it) for length, it in zip(lengths, tile))


def check_scaling(cards: Cards, fields: int) -> None:
    """No pixels were scaled or masked."""
    found = [it for name, it in cards.first.items() if name in (b"ZSCALE  ", b"ZZERO   ") or name[:5] == b"TTYPE" and names_scaling(cards, it, name, fields)]
    if found:
        raise at_card(Kind.Quantised, min(found))


def names_scaling(cards: Cards, index: int, name: bytes, fields: int) -> bool:
    """Whether a card is the name of a column of scaled or masked pixels."""
    found = COLUMN_NAME.fullmatch(name)
    return found is not None and int(found[1]) <= fields and (cards.text(index) or b"").upper() in SCALING


def require(cards: Cards, name: str, number: Optional[int] = None) -> int:
    """The index of the first card with this name, which must be there."""
    index = cards.find(name, number)
    if index is None:
        raise at_card(Kind.BadCard, cards.count)
    return index


def codec_of(cards: Cards) -> int:
    """The codec, by its number in fz.h."""
    index = require(cards, "ZCMPTYPE")
    text = cards.text(index)
    if text is None:
        raise at_card(Kind.BadCard, index)
    if text not in CODECS:
        raise at_card(Kind.UnknownCodec, index)
    return CODECS[text]


def bitpix_of(cards: Cards, codec: int) -> int:
    """ZBITPIX."""
    index = require(cards, "ZBITPIX")
    found = cards.integer(index)
    if found in (-32, -64):
        raise at_card(Kind.Quantised, index)
    if found not in (8, 16, 32, 64):
        raise at_card(Kind.BadCard, index)
    if found == 64 and codec != PLAIN:
        raise at_card(Kind.UnknownCodec, require(cards, "ZCMPTYPE"))
    assert found is not None
    return found


def shape_of(cards: Cards) -> Tuple[Tuple[int, ...], Tuple[int, ...]]:
    """The lengths of the axes, and those of a tile."""
    index = require(cards, "ZNAXIS")
    axes = positive(cards, index)
    if axes > MOST_AXES:
        raise at_card(Kind.Limit, index)
    lengths = tuple(axis_of(cards, it) for it in range(1, axes + 1))
    tile = tuple(min(length, tile_of(cards, it, length)) for it, length in enumerate(lengths, 1))
    if math.prod(lengths) > MOST_PIXELS or math.prod(tile) > MOST_TILE or tiles_of(lengths, tile) > MOST_TILES:
        raise at_card(Kind.Limit, index)
    return lengths, tile


def positive(cards: Cards, index: int) -> int:
    """The value of a card, an integer of 1 or more."""
    found = cards.integer(index)
    if found is None or found < 1:
        raise at_card(Kind.BadCard, index)
    return found


def axis_of(cards: Cards, axis: int) -> int:
    """ZNAXISi."""
    index = require(cards, "ZNAXIS", axis)
    found = positive(cards, index)
    if found > MOST_LENGTH:
        raise at_card(Kind.Limit, index)
    return found


def tile_of(cards: Cards, axis: int, length: int) -> int:
    """ZTILEi; without it a tile is a row."""
    index = cards.find("ZTILE", axis)
    return positive(cards, index) if index is not None else length if axis == 1 else 1


def parameters_of(cards: Cards) -> Tuple[int, int]:
    """BLOCKSIZE and BYTEPIX."""
    block, bytepix = 32, 4
    index = parameter(cards, b"BLOCKSIZE")
    if index is not None:
        block = positive(cards, index)
        if block > MOST_BLOCK:
            raise at_card(Kind.BadCard, index)
    index = parameter(cards, b"BYTEPIX")
    if index is not None:
        bytepix = cards.integer(index) or 0
        if bytepix not in (1, 2, 4):
            raise at_card(Kind.UnknownCodec if bytepix == 8 else Kind.BadCard, index)
    return block, bytepix


def parameter(cards: Cards, name: bytes) -> Optional[int]:
    """The index of the card that has the value of a parameter, ZVALi for the least i with this ZNAMEi; None if there is no such parameter."""
    found = ((PARAMETER_NAME.fullmatch(it), index) for it, index in cards.first.items() if it[:5] == b"ZNAME")
    numbers = [(int(it[1]), index) for it, index in found if it and cards.text(index) == name]
    if not numbers:
        return None
    number, index = min(numbers)
    value = cards.first.get(keyword("ZVAL", number))
    if value is None:
        raise at_card(Kind.BadCard, index)
    return value


def check_sort(cards: Cards, after_empty: bool) -> bool:
    """ZSIMPLE or ZTENSION say what the image was, and where it may be. Answers whether it was a primary."""
    simple, tension = cards.find("ZSIMPLE"), cards.find("ZTENSION")
    if simple is not None and not cards.is_true(simple):
        raise at_card(Kind.BadCard, simple)
    if tension is not None and cards.text(tension) != b"IMAGE":
        raise at_card(Kind.BadCard, tension)
    if simple is not None:
        if not after_empty:
            raise at_card(Kind.MisplacedPrimary, simple)
        return True
    for name, value in (("ZPCOUNT", 0), ("ZGCOUNT", 1)):
        index = cards.find(name)
        if index is not None and cards.integer(index) != value:
            raise at_card(Kind.BadCard, index)
    return False
