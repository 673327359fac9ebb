#!/usr/bin/env python3
"""Writes the files of samples/: seeded, so that no byte of them is unexplained.

The packed files are written out card by card and number by number, as docs/FORMAT.md says them, and not by fz. So are the
sums.
"""
import math
import random
import struct
from pathlib import Path

SAMPLES = Path(__file__).resolve().parent.parent / "samples"


def card(name, value):
    return f"{name:<8}= {value:>20}".ljust(80).encode("ascii")


def image(columns, rows, pixels):
    """A primary image of 16-bit pixels with the five cards that it must have."""
    header = card("SIMPLE", "T") + card("BITPIX", "16") + card("NAXIS", "2")
    header += card("NAXIS1", str(columns)) + card("NAXIS2", str(rows)) + b"END".ljust(80)
    data = struct.pack(f">{columns * rows}h", *pixels)
    return header.ljust(2880, b" ") + data + bytes(-len(data) % 2880)


def star_field(columns, rows, stars, seed):
    """A sky of 1000 with noise, and stars as round blurs."""
    rng = random.Random(seed)
    sky = [[1000 + rng.gauss(0, 8) for _ in range(columns)] for _ in range(rows)]
    for _ in range(stars):
        x, y = rng.uniform(0, columns), rng.uniform(0, rows)
        peak = 10 ** rng.uniform(2, 4)
        for row in range(max(0, int(y) - 8), min(rows, int(y) + 9)):
            for column in range(max(0, int(x) - 8), min(columns, int(x) + 9)):
                blur = (column - x) ** 2 + (row - y) ** 2
                sky[row][column] += peak * math.exp(-blur / 4.5)
    return [min(32767, round(pixel)) for line in sky for pixel in line]


def flag_lines(columns, rows, seed):
    """Flags 0 to 3 in runs, most of them 0."""
    rng = random.Random(seed)
    flags = []
    while len(flags) < columns * rows:
        flags += [rng.choice((0, 0, 0, 1, 2, 3))] * rng.randint(1, 40)
    return flags[: columns * rows]


def depths(columns, rows, seed):
    """A slope of 32-bit numbers with noise, from below 0 to above 2^24."""
    rng = random.Random(seed)
    return [round(20000 * (x + y * columns / 10) - 10**6 + rng.gauss(0, 300)) for y in range(rows) for x in range(columns)]


def text_card(name, text):
    return f"{name:<8}= {chr(39) + text.ljust(8) + chr(39)}".ljust(80).encode("ascii")


def blocks(parts, fill):
    """Parts one after another, filled to whole blocks."""
    whole = b"".join(parts)
    return whole + fill * (-len(whole) % 2880)


def header(cards):
    return blocks([*cards, b"END".ljust(80)], b" ")


def grid_file():
    """A primary image of 5 x 3 pixels of 8 bits, 1 to 15."""
    cards = [card("SIMPLE", "T"), card("BITPIX", "8"), card("NAXIS", "2"), card("NAXIS1", "5"), card("NAXIS2", "3")]
    return header(cards) + blocks([bytes(range(1, 16))], b"\0")


def image_hdu(bitpix, letter, columns, rows, pixels, further=(), first=False):
    """An image of any bits, as the primary or as an extension, with further cards."""
    cards = [card("SIMPLE", "T") if first else text_card("XTENSION", "IMAGE"), card("BITPIX", str(bitpix)), card("NAXIS", "2")]
    cards += [card("NAXIS1", str(columns)), card("NAXIS2", str(rows))]
    cards += [] if first else [card("PCOUNT", "0"), card("GCOUNT", "1")]
    return header(cards + list(further)) + blocks([struct.pack(f">{columns * rows}{letter}", *pixels)], b"\0")


def small_table(sums=()):
    """A binary table of three rows with a number each."""
    cards = [text_card("XTENSION", "BINTABLE"), card("BITPIX", "8"), card("NAXIS", "2"), card("NAXIS1", "4"), card("NAXIS2", "3")]
    cards += [card("PCOUNT", "0"), card("GCOUNT", "1"), card("TFIELDS", "1"), text_card("TTYPE1", "TIME"), text_card("TFORM1", "1J")]
    return header(cards + list(sums)) + blocks([struct.pack(">3i", 1, 2, 3)], b"\0")


def several_file():
    """An empty primary, images of 16, 8 and 32 bits with cards of their own, and a small binary table."""
    primary = header([card("SIMPLE", "T"), card("BITPIX", "16"), card("NAXIS", "0"), card("EXTEND", "T"), text_card("ORIGIN", "fz")])
    counts = image_hdu(16, "h", 64, 48, star_field(64, 48, 10, 8), [text_card("EXTNAME", "SCI"), card("BZERO", "32768"), card("BSCALE", "1")])
    flags = image_hdu(8, "B", 64, 48, flag_lines(64, 48, 9), [text_card("EXTNAME", "DQ")])
    depth = image_hdu(32, "i", 64, 48, depths(64, 48, 10), [text_card("EXTNAME", "ERR"), b"HISTORY made from a seed".ljust(80)])
    return primary + counts + flags + depth + small_table()


EMPTY_PRIMARY = header([card("SIMPLE", "T"), card("BITPIX", "8"), card("NAXIS", "0"), card("EXTEND", "T")])


def packed_table(heap, rows, forms, own, image_cards):
    """The table of a packed image: rows are pairs of descriptors, each of a count and an offset."""
    cards = [text_card("XTENSION", "BINTABLE"), card("BITPIX", "8"), card("NAXIS", "2"), card("NAXIS1", "16")]
    cards += [card("NAXIS2", str(len(rows))), card("PCOUNT", str(len(heap))), card("GCOUNT", "1"), card("TFIELDS", "2")]
    cards += [text_card("TTYPE1", "COMPRESSED_DATA"), text_card("TFORM1", forms[0])]
    cards += [text_card("TTYPE2", "UNCOMPRESSED_DATA"), text_card("TFORM2", forms[1]), card("ZIMAGE", "T")]
    table = b"".join(struct.pack(">4I", *coded, *stored) for coded, stored in rows)
    return header(cards + own + image_cards) + blocks([table, heap], b"\0")


def image_cards(bitpix, columns, rows):
    cards = [card("ZSIMPLE", "T"), card("ZBITPIX", str(bitpix)), card("ZNAXIS", "2")]
    return cards + [card("ZNAXIS1", str(columns)), card("ZNAXIS2", str(rows))]


def small_by_rice():
    """Each row of the small image has the code 00 00 19 48: the first number in 16 bits, k + 1 = 1 in 4 bits, and the
    differences 0, 1, -1, 1 as 0, 2, 1, 2 in unary."""
    own = [text_card("ZCMPTYPE", "RICE_1"), card("ZTILE1", "4"), card("ZTILE2", "1")]
    own += [text_card("ZNAME1", "BLOCKSIZE"), card("ZVAL1", "32"), text_card("ZNAME2", "BYTEPIX"), card("ZVAL2", "2")]
    rows = [((4, 0), (0, 0)), ((4, 4), (0, 0))]
    heap = bytes.fromhex("00001948 00001948")
    return EMPTY_PRIMARY + packed_table(heap, rows, ("1PB(4)", "1PI(0)"), own, image_cards(16, 4, 2))


def small_stored():
    own = [text_card("ZCMPTYPE", "NOCOMPRESS"), card("ZTILE1", "4"), card("ZTILE2", "1")]
    rows = [((0, 0), (4, 0)), ((0, 0), (4, 8))]
    heap = bytes.fromhex("0000000100000001 0000000100000001")
    return EMPTY_PRIMARY + packed_table(heap, rows, ("1PB(0)", "1PI(4)"), own, image_cards(16, 4, 2))


def grid_stored(sums=()):
    """The grid in tiles of 2 x 2, which are cut short at the right and above."""
    own = [text_card("ZCMPTYPE", "NOCOMPRESS"), card("ZTILE1", "2"), card("ZTILE2", "2")]
    places = [(4, 0), (4, 4), (2, 8), (2, 10), (2, 12), (1, 14)]
    heap = bytes.fromhex("01020607 03040809 050A 0B0C 0D0E 0F")
    cards = image_cards(8, 5, 3) + list(sums)
    return EMPTY_PRIMARY + packed_table(heap, [((0, 0), it) for it in places], ("1PB(0)", "1PB(4)"), own, cards)


def sum_of(data):
    """The sum of words of 32 bits, each carry added again."""
    total = sum(struct.unpack(f">{len(data) // 4}I", data))
    while total >> 32:
        total = (total & 0xFFFFFFFF) + (total >> 32)
    return total


def characters(total):
    """The sixteen characters that make the sum of an HDU all ones, which has this sum with sixteen zeros in their place."""
    text = [0] * 16
    for place, byte in enumerate(struct.pack(">I", 0xFFFFFFFF - total)):
        four = [byte // 4 + 48] * 4
        four[0] += byte % 4
        for first in (0, 2):
            while any(58 <= it <= 64 or 91 <= it <= 96 for it in four[first : first + 2]):
                four[first] += 1
                four[first + 1] -= 1
        text[place::4] = four
    return bytes(text[-1:] + text[:-1]).decode("ascii")


def summed(hdu, data):
    """An HDU that begins with its header and ends with these data, with right sums in its cards of sums."""
    hdu = hdu.replace(text_card("DATASUM", "0"), text_card("DATASUM", str(sum_of(data))))
    return hdu.replace(BLANK_CHECKSUM, text_card("CHECKSUM", characters(sum_of(hdu))))


BLANK_CHECKSUM = text_card("CHECKSUM", "0" * 16)
BLANK_SUMS = (text_card("DATASUM", "0"), BLANK_CHECKSUM)


def grid_summed():
    """The grid in its tiles, with sums."""
    table = grid_stored(BLANK_SUMS)[len(EMPTY_PRIMARY) :]
    return EMPTY_PRIMARY + summed(table, table[2880:])


def sums_file():
    """An empty primary without sums, an image with right ones, and a table whose CHECKSUM was right before BLAME came in."""
    image = image_hdu(8, "B", 5, 3, range(1, 16), BLANK_SUMS)
    table = small_table(BLANK_SUMS)
    table = summed(table, table[2880:]).replace(b"END".ljust(160), text_card("BLAME", "nobody") + b"END".ljust(80))
    return EMPTY_PRIMARY + summed(image, image[2880:]) + table


def main():
    (SAMPLES / "packed").mkdir(parents=True, exist_ok=True)
    small = [0, 1, 0, 1, 0, 1, 0, 1]
    (SAMPLES / "small.fits").write_bytes(image(4, 2, small))
    (SAMPLES / "grid.fits").write_bytes(grid_file())
    (SAMPLES / "star_field.fits").write_bytes(image(128, 96, star_field(128, 96, 40, 7)))
    (SAMPLES / "flags.fits").write_bytes(image_hdu(8, "B", 128, 96, flag_lines(128, 96, 11), first=True))
    (SAMPLES / "depths.fits").write_bytes(image_hdu(32, "i", 128, 96, depths(128, 96, 12), first=True))
    (SAMPLES / "several.fits").write_bytes(several_file())
    (SAMPLES / "packed" / "small.rice.fits").write_bytes(small_by_rice())
    (SAMPLES / "packed" / "small.none.fits").write_bytes(small_stored())
    (SAMPLES / "packed" / "grid.2x2.fits").write_bytes(grid_stored())
    (SAMPLES / "packed" / "grid.sums.fits").write_bytes(grid_summed())
    # The first pixel, 1, becomes 0.
    (SAMPLES / "packed" / "grid.wrong.fits").write_bytes(grid_summed().replace(b"\x01\x02\x06\x07", b"\0\x02\x06\x07"))
    (SAMPLES / "sums.fits").write_bytes(sums_file())


if __name__ == "__main__":
    main()
