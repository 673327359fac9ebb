#!/usr/bin/env python3
"""make_refused.py FOLDER: writes a file for each kind of refusal, named by its number and name, for docs/REFUSALS.md.

Each is one of the files that tools/make_samples.py writes out by hand, with one thing changed.
"""
import sys
from pathlib import Path

from make_samples import EMPTY_PRIMARY, grid_stored, image, small_by_rice
from making.fits import BLOCK, CARD, card, filled, header

SMALL = image(4, 2, [0, 1] * 4)
# The table of a packed sample: its header, its rows of 16 bytes, and of the small one the heap.
TABLE, ROWS, HEAP = BLOCK, 2 * BLOCK, 2 * BLOCK + 32


def put(file, place, new):
    return file[:place] + new + file[place + len(new) :]


def with_card(file, start, number, new):
    """The file with another card in the header that begins at `start`."""
    return put(file, start + number * CARD, new)


def behind_the_last(file, cards, *more):
    """The file with more cards in its first header, which has `cards` of them."""
    return put(file, cards * CARD, b"".join(more) + b"END".ljust(CARD))


def packed(number, new):
    return with_card(small_by_rice(), TABLE, number, new)


def number32(value):
    return value.to_bytes(4, "big")


def gzip_tile():
    """The second column is that of gzip, and has the bytes of the first tile."""
    file = packed(10, card("TTYPE2", "GZIP_COMPRESSED_DATA"))
    return put(file, ROWS, number32(0) + number32(0) + number32(2) + number32(0))


def unlawful_code():
    """A code of 32-bit numbers whose first block has an identifier that no packer may use."""
    file = put(packed(19, card("ZVAL2", 4)), ROWS, number32(8))
    return put(file, HEAP, bytes.fromhex("00000005 D8000000"))


def compressed_table():
    cards = [card("XTENSION", "BINTABLE"), card("BITPIX", 8), card("NAXIS", 2), card("NAXIS1", 1), card("NAXIS2", 1), card("PCOUNT", 0)]
    cards += [card("GCOUNT", 1), card("TFIELDS", 1), card("TFORM1", "1B"), card("ZTABLE", True)]
    return EMPTY_PRIMARY + header(cards) + filled(b"\0")


def misplaced_primary():
    return SMALL + small_by_rice()[BLOCK:]


FILES = {
    "01.NotFits": with_card(SMALL, 0, 0, card("SIMPLE", False)),
    "02.Truncated": SMALL[:-1],
    "03.LongHeader": card("SIMPLE", True).ljust(256 * BLOCK, b" "),
    "04.BadCard": with_card(SMALL, 0, 1, card("BITPIX", 12)),
    "05.Duplicate": behind_the_last(SMALL, 5, card("BITPIX", 16)),
    "06.HeaderFill": put(SMALL, BLOCK - 1, b"X"),
    "07.DataFill": put(SMALL, BLOCK + 16, b"\1"),
    "08.TrailingBytes": SMALL + bytes(10),
    "09.Reserved": behind_the_last(SMALL, 5, card("ZTILE1", 4)),
    "10.AlreadyPacked": small_by_rice(),
    "11.Limit": with_card(SMALL, 0, 2, card("NAXIS", 10)),
    "12.Groups": header([card("SIMPLE", True), card("BITPIX", 16), card("NAXIS", 2), card("NAXIS1", 0), card("NAXIS2", 3), card("GROUPS", True)]),
    "13.UnknownCodec": packed(13, card("ZCMPTYPE", "HCOMPRESS_1")),
    "14.Quantised": packed(21, card("ZBITPIX", -32)),
    "15.CompressedTable": compressed_table(),
    "16.BadTable": packed(9, card("TFORM1", "2PB(4)")),
    "17.RowCount": packed(4, card("NAXIS2", 1)),
    "18.DescriptorRange": put(grid_stored(), ROWS + 3 * 16 + 8, number32(16)),
    "19.TileMissing": put(grid_stored(), ROWS + 5 * 16 + 8, number32(0)),
    "20.GzipTile": gzip_tile(),
    "21.CodeShort": put(small_by_rice(), ROWS, number32(2)),
    "22.CodeValue": unlawful_code(),
    "23.LineList": packed(13, card("ZCMPTYPE", "PLIO_1")),
    "24.PixelRange": put(packed(21, card("ZBITPIX", 8)), HEAP, b"\x7f"),
    "25.TileSize": put(grid_stored(), ROWS + 4 * 16 + 8, number32(1)),
    "26.MisplacedPrimary": misplaced_primary(),
    "27.NotPacked": SMALL,
    "28.OutOfBox": grid_stored(),
    "29.PlioOffset": behind_the_last(SMALL, 5, card("BZERO", 32768)),
    "31.Unpatchable": packed(19, card("ZVAL2", 4)),
    "32.BadPatch": SMALL,
}


def main():
    folder = Path(sys.argv[1])
    folder.mkdir(parents=True, exist_ok=True)
    for name, file in FILES.items():
        (folder / f"{name}.fits").write_bytes(file)


if __name__ == "__main__":
    main()
