"""Faults that an archive of packed files has after some years, planted in the files of `strangers`: each says what it did."""
import os
import shutil
import struct
from pathlib import Path

from fzfits.headers import CARD, Header, headers
from fzfits.rows import columns_of


def packed_of(path) -> Header:
    """The last packed table of a file."""
    return [it for it in headers(path) if it.is_packed or it.value("ZTABLE") is True][-1]


def kept(path, data, at=None):
    """Writes a file in the place of another, with its times; `at` says that the time is another too."""
    it = os.stat(path)
    Path(path).write_bytes(bytes(data))
    os.utime(path, ns=(it.st_atime_ns, it.st_mtime_ns if at is None else it.st_mtime_ns + at))


def flip(path, at, bit=4):
    data = bytearray(Path(path).read_bytes())
    data[at] ^= bit
    kept(path, data, 7_000_000_000)


def row_of(path, header, row):
    """Where the descriptor of a row is, and how many bytes its numbers have: that of the first column with a record."""
    row, data = min(row, header.integer("NAXIS2") - 1), Path(path).read_bytes()
    for at, wide in columns_of(header).values():
        place = header.data + row * header.integer("NAXIS1") + at
        if any(data[place : place + wide]):
            return place, wide
    raise SystemExit(f"{path}: row {row} has no record")


def record_of(path, row):
    """Where the record of a row is in the file, and how long it is."""
    header = packed_of(path)
    at, wide = row_of(path, header, row)
    form = ">ii" if wide == 4 else ">qq"
    count, offset = struct.unpack_from(form, Path(path).read_bytes(), at)
    element = 2 if str(header.value("ZCMPTYPE")).startswith("PLIO") else 1
    return header.data + header.integer("THEAP", header.integer("NAXIS1") * header.integer("NAXIS2")) + offset, count * element


def in_the_heap(path, rng):
    start, length = record_of(path, 17)
    flip(path, start + length // 2)


def that_does_not_decode(path, rng):
    """A record of ones, which no Rice code is."""
    start, length = record_of(path, 11)
    data = bytearray(Path(path).read_bytes())
    data[start + 2 : start + length] = b"\xff" * (length - 2)
    kept(path, data, 7_000_000_000)


def that_decodes(path, rng):
    """A bit of the first pixel of a tile, which Rice codes keep as it is."""
    flip(path, record_of(path, 23)[0] + 1, 1)


def row_out_of_the_heap(path, rng):
    at, wide = row_of(path, packed_of(path), 5)
    flip(path, at + wide, 0x40)


def rows_swapped(path, rng):
    header, data = packed_of(path), bytearray(Path(path).read_bytes())
    (one, wide), (two, _) = row_of(path, header, 3), row_of(path, header, 4)
    data[one : one + 2 * wide], data[two : two + 2 * wide] = data[two : two + 2 * wide], data[one : one + 2 * wide]
    kept(path, data, 7_000_000_000)


def card_at(path, keyword):
    header = next(it for it in reversed(list(headers(path))) if it.card(keyword) is not None)
    return header.start + header.card(keyword).number * CARD


def mandatory_card(path, rng):
    flip(path, card_at(path, "ZNAXIS2") + 3, 8)


def codec_card(path, rng):
    flip(path, card_at(path, "ZCMPTYPE") + 12, 2)


def character(path, rng):
    flip(path, card_at(path, "OBJECT") + 14, 0x80)


def keyword(path, rng):
    flip(path, card_at(path, "EXPTIME") + 2, 0x20)


def quote(path, rng):
    header = list(headers(path))[-1]
    name = next(it for it in ("EXTNAME", "OBJECT", "TFORM1") if header.card(it))
    data = Path(path).read_bytes()
    at = card_at(path, name)
    end = data.rindex(b"'", at, at + CARD)
    flip(path, end, 1)


def after_end(path, rng):
    header = packed_of(path) if path.suffix == ".fz" else list(headers(path))[-1]
    flip(path, header.data - 3, 1)


def fill_of_data(path, rng):
    header = list(headers(path))[-1]
    flip(path, header.end - 2, 1)


def cut_in_heap(path, rng):
    start, length = record_of(path, 60)
    kept(path, Path(path).read_bytes()[: start + length // 2], 7_000_000_000)


def cut_in_header(path, rng):
    header = list(headers(path))[-1]
    kept(path, Path(path).read_bytes()[: header.start + 1000], 7_000_000_000)


def cut_after_hdu(path, rng):
    header = list(headers(path))[-1]
    kept(path, Path(path).read_bytes()[: header.start], 7_000_000_000)


def more_bytes(path, rng):
    kept(path, Path(path).read_bytes() + b"Connection reset by peer\n", 7_000_000_000)


def sector_of_zeros(path, rng):
    start, length = record_of(path, 30)
    data = bytearray(Path(path).read_bytes())
    at = (start + length) // 512 * 512
    data[at : at + 512] = bytes(512)
    kept(path, data, 7_000_000_000)


def in_plain_data(path, rng):
    header = next(it for it in headers(path) if it.size)
    flip(path, header.data + header.size // 2)


def in_table(path, rng):
    header = next(it for it in headers(path) if it.sort == "BINTABLE" and not it.is_packed)
    flip(path, header.data + header.size // 3)


def wrong_datasum(path, rng):
    at = card_at(path, "DATASUM") + 11
    flip(path, at, 1)


def empty(path, rng):
    kept(path, b"", 7_000_000_000)


def in_gz(path, rng):
    flip(path, path.stat().st_size // 2)


def rotten(path, rng):
    """The data have another bit, and the file its length and its time."""
    it = os.stat(path)
    that_decodes(path, rng) if path.suffix == ".fz" else in_plain_data(path, rng)
    os.utime(path, ns=(it.st_atime_ns, it.st_mtime_ns))


def gone(path, rng):
    path.unlink()


def renamed(path, rng):
    path.rename(path.with_name("other-" + path.name))


def web_page(path, rng):
    kept(path, b"<html><body>404 not found</body></html>\n", 7_000_000_000)


# Each kind of fault: what it does, and the kinds of files in which it is planted.
FAULTS = {
    "a bit in the heap, table with checksums": (in_the_heap, ("fpack rice", "fpack uint16", "fz rice", "astropy rice")),
    "a record that does not decode, no checksums": (that_does_not_decode, ("fpack rice, no sums", "astropy rice, no sums", "fitsio rice", "fz squares, no sums", "fpack tiles, no sums")),
    "a bit that decodes, only the image has checksums": (that_decodes, ("fpack rice, own sums only",)),
    "a bit that decodes in one of several images, floats among them": (that_decodes, ("fpack floats among, own sums only",)),
    "a row out of the heap, no checksums": (row_out_of_the_heap, ("fpack rice, no sums", "fitsio rice", "fpack gzip, no sums", "fitsio hcompress")),
    "a sector of zeros in the heap": (sector_of_zeros, ("fpack rice", "fpack rice, no sums", "fpack float, no sums")),
    "a mandatory card of a packed image": (mandatory_card, ("fpack rice", "fitsio rice")),
    "the name of the codec": (codec_card, ("fpack rice, no sums", "fz rice")),
    "a character that is no text, no checksums": (character, ("plain", "fpack rice, no sums")),
    "a keyword with a small letter, no checksums": (keyword, ("plain", "astropy rice, no sums")),
    "a text without an end, no checksums": (quote, ("plain several, no sums", "astropy rice, no sums")),
    "a byte after END, no checksums": (after_end, ("plain", "fitsio gzip")),
    "a byte after the data": (fill_of_data, ("plain with sums", "plain")),
    "cut off in the heap": (cut_in_heap, ("fpack rice", "fpack rice, no sums", "fpack hcompress", "astropy gzip, no sums")),
    "cut off in a header": (cut_in_header, ("fpack several", "plain several")),
    "more bytes at the end": (more_bytes, ("fpack rice", "plain with sums")),
    "a bit in a plain image with checksums": (in_plain_data, ("plain with sums", "plain several", "plain float")),
    "a bit in a table with checksums": (in_table, ("plain table", "fpack several")),
    "a wrong DATASUM card": (wrong_datasum, ("fpack rice", "plain with sums")),
    "a bit in a gzip tile, no checksums": (in_the_heap, ("fpack gzip, no sums", "astropy gzip, no sums", "fitsio gzip", "fpack gzip2, no sums")),
    "a bit in an HCOMPRESS or float tile with checksums": (in_the_heap, ("fpack hcompress", "astropy hcompress", "fpack float", "astropy float")),
    "a bit in a compressed table": (in_the_heap, ("fpack table",)),
    "a bit in a .fits.gz": (in_gz, ("gzip",)),
    "an empty file": (empty, ("plain", "fpack rice")),
    "a web page in the place of a file": (web_page, ("fz rice",)),
}
# These need a manifest of before: the files are as whole as others.
LATER = {
    "another bit, with length and time as before, no checksums": (rotten, ("fitsio rice", "plain", "fpack rice, no sums")),
    "cut off between two HDUs": (cut_after_hdu, ("fpack several", "plain several, no sums")),
    "a file that is gone": (gone, ("fz plio", "plain float")),
    "a file with another name": (renamed, ("fpack plio", "fz several")),
    "two files swapped": (None, ("fpack int32 tiles",)),
}


def swapped(one, two):
    """Two files get each other's names."""
    room = one.with_name("between")
    shutil.move(one, room)
    shutil.move(two, one)
    shutil.move(room, two)


# Nobody finds these but a manifest of before: a checksum of FITS is a sum, whatever the order of its words.
UNSEEN = {"two rows swapped, only the image has checksums": (rows_swapped, ("fpack rice, own sums only", "fz stored"))}
