"""The checks of a packed table: of its cards, its columns and its heap (26 to 37 of docs/FORMAT.md, section 10)."""
from __future__ import annotations

import re
from typing import Dict, NamedTuple, Optional

from .cards import Cards
from .faults import Kind, at_card
from .plans import Arrays, Said

MOST_COLUMNS = 999
FORM = re.compile(rb"([0-9]{0,9})([LBAIJEKDCPMQX])(.?)", re.DOTALL)
BYTES = {b"L": 1, b"B": 1, b"A": 1, b"I": 2, b"J": 4, b"E": 4, b"K": 8, b"D": 8, b"C": 8, b"P": 8, b"M": 16, b"Q": 16, b"X": 1}
# The letters that the elements of each of the three columns may have.
COLUMNS = {b"COMPRESSED_DATA": b"BIJK", b"UNCOMPRESSED_DATA": b"BIJK", b"GZIP_COMPRESSED_DATA": b"LXBIJKAEDCM"}
# A number of a name: 1 to 999, or 1 to 99, without zeros before it.
TO_999, TO_99 = rb"[1-9][0-9]{0,2}", rb"[1-9][0-9]?"
ONCE = re.compile(
    rb"(?:XTENSION|BITPIX|NAXIS|PCOUNT|GCOUNT|TFIELDS|THEAP|ZIMAGE|ZCMPTYPE|ZBITPIX|ZNAXIS|ZSIMPLE|ZTENSION|ZPCOUNT|ZGCOUNT"
    rb"|(?:NAXIS|TTYPE|TFORM|ZTILE|ZNAME|ZVAL)" + TO_999 + rb"|ZNAXIS" + TO_99 + rb") *"
)


class Form(NamedTuple):
    """What TFORMi says: the repeat count, the letter, the bytes of the column in a row, and the letter after the first."""

    repeat: int
    letter: bytes
    size: int
    element: bytes


class Table(NamedTuple):
    """Where the heap begins in the data, and the columns of a packed image, those that are there."""

    fields: int
    heap: int
    columns: Dict[bytes, Arrays]


def check_cards(cards: Cards) -> None:
    """A packed header says nothing twice; ZSIMPLE and ZTENSION are one name."""
    if len(cards.first) == cards.count and not (b"ZSIMPLE " in cards.first and b"ZTENSION" in cards.first):
        return
    seen = set()
    for it, name in enumerate(cards.names()):
        name = b"ZSIMPLE " if name == b"ZTENSION" else name
        if name in seen and ONCE.fullmatch(name):
            raise at_card(Kind.Duplicate, it)
        seen.add(name)


def check_table(cards: Cards) -> None:
    """A binary table is no compressed table."""
    found = cards.first_true("ZTABLE")
    if found is not None:
        raise at_card(Kind.CompressedTable, found)


def table_of(cards: Cards, said: Said, gcount: int) -> Table:
    """The columns and the heap of a packed table."""
    for holds, index in ((said.bitpix == 8, 1), (len(said.lengths) == 2, 2), (gcount == 1, 6)):
        if not holds:
            raise at_card(Kind.BadTable, index)
    fields = bounded(cards, cards.find("TFIELDS"), 1, MOST_COLUMNS)
    if sum(form_at(cards, it).size for it in range(1, fields + 1)) != said.lengths[0]:
        raise at_card(Kind.BadTable, 3)
    rows_len, place = said.lengths[0] * said.lengths[1], cards.find("THEAP")
    heap = rows_len if place is None else bounded(cards, place, rows_len, said.data_len)
    return Table(fields, heap, columns_of(cards, fields))


def bounded(cards: Cards, index: Optional[int], low: int, high: int) -> int:
    """The integer of a card if it is within these bounds; a missing card is refused at END."""
    found = cards.integer(index)
    if found is None or not low <= found <= high:
        raise bad(cards, index)
    return found


def bad(cards: Cards, index: Optional[int]) -> Exception:
    """A fault of the table at this card, or at END if it is missing."""
    return at_card(Kind.BadTable, cards.count if index is None else index)


def form_at(cards: Cards, column: int) -> Form:
    """The form of a column."""
    index = cards.find("TFORM", column)
    text = cards.text(index)
    found = None if text is None else FORM.match(text)
    if found is None:
        raise bad(cards, index)
    repeat, letter = int(found[1] or b"1"), found[2]
    if letter in b"PQ" and repeat > 1:
        raise bad(cards, index)
    size = -(-repeat // 8) if letter == b"X" else repeat * BYTES[letter]
    return Form(repeat, letter, size, found[3])


def columns_of(cards: Cards, fields: int) -> Dict[bytes, Arrays]:
    """The three columns that a packed image may have, by name; each once, and each with the form that it may have."""
    found: Dict[bytes, Arrays] = {}
    at = 0
    for it in range(1, fields + 1):
        form, name = form_at(cards, it), (cards.text(cards.find("TTYPE", it)) or b"").upper()
        if name in COLUMNS:
            if name in found:
                raise bad(cards, cards.find("TTYPE", it))
            if form.letter not in b"PQ" or form.repeat != 1 or not form.element or form.element not in COLUMNS[name]:
                raise bad(cards, cards.find("TFORM", it))
            found[name] = Arrays(at, form.letter == b"Q", BYTES[form.element])
        at += form.size
    return found
