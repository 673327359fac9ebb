"""What a header itself shows of damage: characters that no header has, text without an end, and bytes where FITS wants blanks or zeros."""
from __future__ import annotations

import os
import re
from typing import Iterator

from ...headers import BLOCK, CARD, Header, padded
from .rows import Finding

ALLOWED = re.compile(rb"[ -~]*")
KEYWORD = re.compile(rb"[A-Z0-9_-]{0,8} *")
# The value of a card: a text, T or F, a number, two numbers in brackets, or none; and a comment.
VALUE = re.compile(r" *(?:'(?:[^']|'')*'|[TF]|[+-]?(?:\d+\.?\d*|\.\d+)(?:[ED][+-]?\d+)?|\( *[-+.\dED]+ *, *[-+.\dED]+ *\))? *(?:/.*)?")
DAMAGED = "fetch the file from another copy; if it always was so, correct the header with the tool that wrote it"
FILLED = "fetch the file from another copy; if it always was so, the program that wrote it filled the block otherwise than FITS asks"
# So many faults of one header are named.
NAMED = 5
MANDATORY = re.compile(r"SIMPLE|XTENSION|BITPIX|NAXIS\d*|PCOUNT|GCOUNT|TFIELDS|TFORM\d+|Z(?:IMAGE|CMPTYPE|BITPIX|NAXIS\d*|TILE\d+)")


def faults_of(number: int, header: Header, size: int) -> "Iterator[Finding]":
    """What is wrong with a header and with the end of its data, in an open file of this size."""
    for it in list(_cards(header))[:NAMED]:
        yield Finding("header is damaged", it, DAMAGED, header.number, header.name)
    end = len(header.cards) + 1
    if header.raw[end * CARD :].strip(b" "):
        yield Finding("header is not filled with blanks", "after END there is something else than blanks", FILLED, header.number, header.name)
    if _fill(number, header, size):
        yield Finding("data are not filled with zeros", "after the data, in their last block, there is something else than FITS asks for", FILLED, header.number, header.name)


def _cards(header: Header) -> Iterator[str]:
    seen = set()
    for it in header.cards:
        raw = header.raw[it.number * CARD : (it.number + 1) * CARD]
        if not ALLOWED.fullmatch(raw):
            yield f"card {it.number} has a character that no FITS header has: {it.text[:30]!r}"
        elif not KEYWORD.fullmatch(raw[:8]):
            yield f"card {it.number} has no keyword that FITS allows: {it.text[:30]!r}"
        elif raw[8:10] == b"= " and it.keyword not in ("COMMENT", "HISTORY", "") and not VALUE.fullmatch(it.text[10:]):
            yield f"card {it.number} has no value of a form that FITS has: {it.text[:40]!r}"
        elif MANDATORY.fullmatch(it.keyword) and it.keyword in seen:
            yield f"card {it.number} is a second {it.keyword}"
        seen.add(it.keyword)


def _fill(number: int, header: Header, size: int) -> bool:
    """Whether the last block of the data has something else than zeros after them (blanks in an ASCII table)."""
    start, end = header.data + header.size, header.data + padded(header.size)
    if end > size or end - start > BLOCK:
        return False
    return bool(os.pread(number, end - start, start).strip(b" " if header.sort == "TABLE" else b"\0"))
