"""The checksums of FITS 4.0, section 4.4.2.7 and appendix J: the sum of bytes, and the text of CHECKSUM."""
from __future__ import annotations

import sys
from array import array
from typing import Iterable

LOW, HIGH = b":;<=>?@", b"[\\]^_`"


def words_of(data: bytes) -> "array[int]":
    """The big-endian words of 32 bits of bytes, the last one filled up with zeros."""
    words = array("I" if array("I").itemsize == 4 else "L", data + bytes(-len(data) % 4))
    if sys.byteorder == "little":
        words.byteswap()
    return words


def added(total: int, data: bytes) -> int:
    """A sum, and the bytes that follow; all but the last must be whole words.

    >>> added(0, bytes.fromhex("ffffffff00000002"))
    2
    """
    total += sum(words_of(data))
    while total >> 32:
        total = (total & 0xFFFFFFFF) + (total >> 32)
    return total


def sum_of(pieces: Iterable[bytes]) -> int:
    """The sum of bytes, which come in pieces of whole words."""
    total = 0
    for it in pieces:
        total = added(total, it)
    return total


def text_of(total: int) -> str:
    """The sixteen characters of CHECKSUM that make the sum of an HDU all ones, if it is `total` with sixteen zeros there.

    >>> text_of(868229149)
    'hcHjjc9ghcEghc9g'
    """
    left = (0xFFFFFFFF - total).to_bytes(4, "big")
    columns = []
    for it in left:
        four = [it // 4 + 48 + (it % 4 if at == 0 else 0) for at in range(4)]
        for pair in ((0, 1), (2, 3)):
            while four[pair[0]] in LOW + HIGH or four[pair[1]] in LOW + HIGH:
                four[pair[0]] += 1
                four[pair[1]] -= 1
        columns.append(four)
    text = "".join(chr(columns[it][at]) for at in range(4) for it in range(4))
    return text[-1] + text[:-1]
