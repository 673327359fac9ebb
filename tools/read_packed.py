#!/usr/bin/env python3
"""read_packed.py IN [OUT]: a small, slow reader of packed images, laid out in the order of docs/FORMAT.md.

It writes the plain file that IN stands for to OUT; without OUT it prints the pixels of each packed image. It uses only the
standard library, and shares no code with fz or with the other tools, so that checks can use it as an independent judge
(tools/check_reader). The number in front of each part is that of the section of docs/FORMAT.md whose rules it follows.

It makes none of the checks of section 10: it reads files that fz takes, and may read others that fz rejects. If it cannot
read IN it prints one line and exits 1.
"""
import math
import re
import sys
from pathlib import Path


class CannotRead(Exception):
    pass


# 2. Files, headers and cards
BLOCK = 2880
CARD = 80
END = b"END     "
INTEGER = re.compile(rb" *([+-]?[0-9]{1,18}) *(?:/.*)?", re.DOTALL)
LOGICAL = re.compile(rb" *([TF]) *(?:/.*)?", re.DOTALL)
TEXT = re.compile(rb" *'((?:[^']|'')*)' *(?:/.*)?", re.DOTALL)


def whole_blocks(length):
    return length + -length % BLOCK


class Header:
    """The cards of a header before END."""

    def __init__(self, cards):
        self.cards = cards

    def card(self, name):
        """The first card of this name."""
        return next((it for it in self.cards if it[:8] == name.ljust(8).encode()), None)

    def value(self, name, form):
        """What the first card of this name says in this form, or None."""
        card = self.card(name)
        found = form.fullmatch(card[10:]) if card and card[8:10] == b"= " else None
        return found[1] if found else None

    def integer(self, name, default=None):
        found = self.value(name, INTEGER)
        return default if found is None else int(found)

    def logical(self, name):
        return self.value(name, LOGICAL) == b"T"

    def text(self, name):
        found = self.value(name, TEXT)
        return None if found is None else found.replace(b"''", b"'").rstrip(b" ").decode("latin-1")

    def data_length(self, primary):
        axes = [self.integer(f"NAXIS{i}") for i in range(1, self.integer("NAXIS") + 1)]
        if not axes:
            return 0
        pcount, gcount = (0, 1) if primary else (self.integer("PCOUNT"), self.integer("GCOUNT"))
        return abs(self.integer("BITPIX")) // 8 * gcount * (pcount + math.prod(axes))


def header_at(file, start):
    """The cards of the header that begins here, and the byte at which its blocks end."""
    cards, at = [], start
    while file[at : at + 8] != END:
        if at + CARD > len(file):
            raise CannotRead(f"the header at byte {start} has no END")
        cards.append(file[at : at + CARD])
        at += CARD
    return Header(cards), start + whole_blocks(at + CARD - start)


def hdus_of(file):
    """The HDUs: the header, the data without the fill, and all bytes of each."""
    start = 0
    while start < len(file):
        header, data_start = header_at(file, start)
        length = header.data_length(primary=start == 0)
        end = data_start + whole_blocks(length)
        if end > len(file):
            raise CannotRead(f"the data at byte {data_start} end after the file")
        yield header, file[data_start : data_start + length], file[start:end]
        start = end


def header_bytes(cards):
    made = b"".join(cards) + END.ljust(CARD)
    return made.ljust(whole_blocks(len(made)))


def plain_number(data, signed=True):
    return int.from_bytes(data, "big", signed=signed)


# 3. Images and packed tables
def is_packed(header):
    return header.text("XTENSION") == "BINTABLE" and header.logical("ZIMAGE")


# 4. Arrays and tiles
def tiles_of(axes, tile):
    """The corner and the lengths of each tile, axis 1 of the grid fastest."""
    counts = [-(-axis // length) for axis, length in zip(axes, tile)]
    for number in range(math.prod(counts)):
        corner = []
        for count, length in zip(counts, tile):
            corner.append(number % count * length)
            number //= count
        yield corner, [min(length, axis - at) for axis, length, at in zip(axes, tile, corner)]


def places_of(axes, corner, lengths):
    """The places in the array of the numbers of a tile, axis 1 fastest."""
    for number in range(math.prod(lengths)):
        place, step = 0, 1
        for axis, at, length in zip(axes, corner, lengths):
            place += step * (at + number % length)
            number //= length
            step *= axis
        yield place


# 5.4 Names in both headers
PLAIN_NAMES = {"ZSIMPLE": "SIMPLE", "ZTENSION": "XTENSION", "ZBITPIX": "BITPIX", "ZNAXIS": "NAXIS", "ZEXTEND": "EXTEND",
               "ZBLOCKED": "BLOCKED", "ZPCOUNT": "PCOUNT", "ZGCOUNT": "GCOUNT", "ZHECKSUM": "CHECKSUM", "ZDATASUM": "DATASUM",
               **{f"ZNAXIS{i}": f"NAXIS{i}" for i in range(1, 10)}}
DROPPED = re.compile(r"XTENSION|BITPIX|NAXIS|PCOUNT|GCOUNT|CHECKSUM|DATASUM|TFIELDS|THEAP|ZIMAGE|ZCMPTYPE|ZBLANK|ZQUANTIZ|ZDITHER0|ZMASKCMP"
                     r"|(NAXIS|TTYPE|TFORM|ZTILE|ZNAME|ZVAL)[1-9][0-9]{0,2}")


def name_of(card):
    return card[:8].decode("latin-1").rstrip(" ")


def translated(card):
    return PLAIN_NAMES.get(name_of(card), name_of(card)).ljust(8).encode("latin-1") + card[8:]


# 6.1 Columns and forms
WIDTHS = {**dict.fromkeys("LBA", 1), "I": 2, **dict.fromkeys("JE", 4), **dict.fromkeys("KDCP", 8), **dict.fromkeys("MQ", 16)}


def columns_of(header):
    """For each column that is named: its byte in the row, the bytes of a number of its descriptor, the bytes of an element."""
    found, at = {}, 0
    for n in range(1, header.integer("TFIELDS") + 1):
        form = re.match(r"([0-9]{0,9})([A-Z])(.?)", header.text(f"TFORM{n}"))
        repeat, letter, element = int(form[1] or "1"), form[2], form[3]
        if letter in "PQ":
            found[(header.text(f"TTYPE{n}") or "").upper()] = at, 4 if letter == "P" else 8, WIDTHS.get(element, 0)
        at += -(-repeat // 8) if letter == "X" else repeat * WIDTHS[letter]
    return found


# 6.2 Descriptors and records
def record_of(header, data, columns, row):
    """The column of the record of a row, and its bytes."""
    width, rows = header.integer("NAXIS1"), header.integer("NAXIS2")
    heap = header.integer("THEAP", width * rows)
    for name in ("COMPRESSED_DATA", "UNCOMPRESSED_DATA"):
        if name in columns:
            at, size, unit = columns[name]
            at += width * row
            count, offset = (plain_number(data[it : it + size], signed=False) for it in (at, at + size))
            if count > 0:
                return name, data[heap + offset : heap + offset + count * unit]
    raise CannotRead(f"row {row} has no record in COMPRESSED_DATA or UNCOMPRESSED_DATA")


# 6.3 What the header says
def axes_of(header):
    return [header.integer(f"ZNAXIS{i}") for i in range(1, header.integer("ZNAXIS") + 1)]


def tile_of(header, axes):
    return [min(axis, header.integer(f"ZTILE{i}", axis if i == 1 else 1)) for i, axis in enumerate(axes, 1)]


def parameter(header, name, default):
    number = next((i for i in range(1, 1000) if header.text(f"ZNAME{i}") == name), None)
    return default if number is None else header.integer(f"ZVAL{number}")


# 6.4 The header of the image
def plain_cards(header):
    primary = header.card("ZSIMPLE")
    n = header.integer("ZNAXIS")
    first = [primary or header.card("ZTENSION") or b"XTENSION= 'IMAGE   '".ljust(CARD)]
    first += [header.card(name) for name in ("ZBITPIX", "ZNAXIS", *(f"ZNAXIS{i}" for i in range(1, n + 1)))]
    if not primary:
        first.append(header.card("ZPCOUNT") or b"PCOUNT  =                    0".ljust(CARD))
        first.append(header.card("ZGCOUNT") or b"GCOUNT  =                    1".ljust(CARD))
    taken = {"ZSIMPLE", "ZTENSION", "ZBITPIX", "ZNAXIS", *(f"ZNAXIS{i}" for i in range(1, 100))}
    taken |= set() if primary else {"ZPCOUNT", "ZGCOUNT"}
    others = [it for it in header.cards if name_of(it) not in taken and not is_dropped(it)]
    return [translated(it) for it in [*first, *others]]


def is_dropped(card):
    return DROPPED.fullmatch(name_of(card)) or name_of(card) == "EXTNAME" and Header([card]).text("EXTNAME") == "COMPRESSED_IMAGE"


# 7.1 Plain bytes
def plain_numbers(record, bitpix):
    size = bitpix // 8
    return [plain_number(record[at : at + size], signed=bitpix > 8) for at in range(0, len(record), size)]


def plain_bytes(numbers, bitpix):
    return b"".join(it.to_bytes(bitpix // 8, "big", signed=bitpix > 8) for it in numbers)


# 7.2 RICE_1
ID_BITS = {8: 3, 16: 4, 32: 5}
RAW_ID = {8: 7, 16: 15, 32: 26}


class Bits:
    """The bits of a code, the most significant of each byte first."""

    def __init__(self, code):
        self.bits = "".join(format(byte, "08b") for byte in code)
        self.at = 0

    def take(self, count):
        if self.at + count > len(self.bits):
            raise CannotRead("a Rice code ends early")
        self.at += count
        return self.bits[self.at - count : self.at]

    def number(self, width):
        return int(self.take(width) or "0", 2)

    def unary(self):
        """How many zeros precede the next one, which is taken too."""
        end = self.bits.find("1", self.at)
        return len(self.take((end if end >= 0 else len(self.bits)) + 1 - self.at)) - 1


def rice_values(bits, width, count):
    """The mapped differences of a block."""
    number = bits.number(ID_BITS[width])
    if number > RAW_ID[width]:
        raise CannotRead(f"identifier {number} is not lawful")
    if number == 0:
        return [0] * count
    if number == RAW_ID[width]:
        return [bits.number(width) for _ in range(count)]
    k = number - 1
    return [(bits.unary() << k) + bits.number(k) for _ in range(count)]


def rice_numbers(code, width, block, count):
    bits = Bits(code)
    last = bits.number(width)
    numbers = []
    for first in range(0, count, block):
        for value in rice_values(bits, width, min(block, count - first)):
            difference = value // 2 if value % 2 == 0 else -(value + 1) // 2
            last = (last + difference) % (1 << width)
            numbers.append(last - (1 << width) if width > 8 and last >> (width - 1) else last)
    return numbers


# 7.3 PLIO_1
def line_numbers(record, count):
    words = [plain_number(record[at : at + 2], signed=False) for at in range(0, len(record), 2)]
    length = words[3] + 32768 * words[4]
    rest = iter(words[7:length])
    numbers, high = [], 1
    for word in rest:
        operation, n = word >> 12, word & 4095
        if operation == 1:
            high = n + 4096 * next(rest)
        elif operation in (2, 6):
            high += n
        elif operation in (3, 7):
            high -= n
        elif operation > 7:
            raise CannotRead(f"operation {operation} of a line list is not lawful")
        numbers += {0: [0] * n, 4: [high] * n, 5: [0] * (n - 1) + [high], 6: [high], 7: [high]}.get(operation, [])
    return numbers + [0] * (count - len(numbers))


# 7.4 The record of a tile
def tile_numbers(header, column, record, count):
    bitpix, codec = header.integer("ZBITPIX"), header.text("ZCMPTYPE")
    if column == "UNCOMPRESSED_DATA" or codec == "NOCOMPRESS":
        numbers = plain_numbers(record, bitpix)
    elif codec in ("RICE_1", "RICE_ONE"):
        numbers = rice_numbers(record, 8 * parameter(header, "BYTEPIX", 4), parameter(header, "BLOCKSIZE", 32), count)
    elif codec == "PLIO_1":
        numbers = line_numbers(record, count)
    else:
        raise CannotRead(f"the codec {codec} is not supported")
    if len(numbers) != count:
        raise CannotRead(f"a tile has {len(numbers)} numbers, not {count}")
    return numbers


def array_of(header, data):
    """The numbers of a packed image, axis 1 fastest."""
    axes, columns = axes_of(header), columns_of(header)
    array = [0] * math.prod(axes)
    for row, (corner, lengths) in enumerate(tiles_of(axes, tile_of(header, axes))):
        column, record = record_of(header, data, columns, row)
        numbers = tile_numbers(header, column, record, math.prod(lengths))
        for place, number in zip(places_of(axes, corner, lengths), numbers):
            array[place] = number
    return array


# 6.5 The file that a packed file stands for
def plain_file(file):
    hdus = list(hdus_of(file))
    made = []
    for number, (header, data, whole) in enumerate(hdus):
        if number == 0 and len(hdus) > 1 and is_packed(hdus[1][0]) and hdus[1][0].card("ZSIMPLE"):
            continue
        if not is_packed(header):
            made.append(whole)
            continue
        pixels = plain_bytes(array_of(header, data), header.integer("ZBITPIX"))
        made.append(header_bytes(plain_cards(header)) + pixels.ljust(whole_blocks(len(pixels)), b"\0"))
    return b"".join(made)


def print_pixels(file):
    for number, (header, data, _) in enumerate(hdus_of(file)):
        if is_packed(header):
            axes = axes_of(header)
            print(f"HDU {number} {header.integer('ZBITPIX')} {'x'.join(map(str, axes))}")
            array = array_of(header, data)
            for at in range(0, len(array), axes[0]):
                print(*array[at : at + axes[0]])


def main():
    if len(sys.argv) not in (2, 3):
        sys.exit("usage: read_packed.py IN [OUT]")
    file = Path(sys.argv[1]).read_bytes()
    try:
        if len(sys.argv) == 2:
            print_pixels(file)
        else:
            Path(sys.argv[2]).write_bytes(plain_file(file))
    except CannotRead as error:
        sys.exit(f"read_packed.py: {error}")


if __name__ == "__main__":
    main()
