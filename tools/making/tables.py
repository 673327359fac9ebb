"""Packed files as other packers may write them: lawful, and not as fz writes them."""
import math
import struct

from .codes import line_list, rice_code
from .fits import card, filled, header, highest, lowest, plain_bytes, words
from .plain import further_cards, image, other_hdu
from .tiles import places_of, tile_for, tiles_of

UNITS = {"B": 1, "I": 2, "J": 4, "K": 8}


def suited(rng, codec):
    """An image whose numbers the codec can write, and the bytes of a number in its codes."""
    found = image(rng, None if codec == "NOCOMPRESS" else rng.choice((8, 16, 32)))
    bytepix = found.bitpix // 8
    if codec == "RICE_1" and rng.random() < 0.5:
        bytepix = rng.choice((1, 2, 4))
        width = 8 * bytepix
        low, high = max(lowest(width), lowest(found.bitpix)), min(highest(width), highest(found.bitpix))
        found.numbers = [min(high, max(low, it)) for it in found.numbers]
    if codec == "PLIO_1":
        found.numbers = [abs(it) % (1 << 24) if it != lowest(found.bitpix) else 0 for it in found.numbers]
    return found, bytepix


def record(rng, codec, bytepix, block, bitpix, numbers):
    """Which column has the record of a tile, and its bytes."""
    stored = plain_bytes(bitpix, numbers)
    if codec == "NOCOMPRESS":
        return rng.choice(("COMPRESSED_DATA", "UNCOMPRESSED_DATA")), stored
    if rng.random() < 0.15:
        return "UNCOMPRESSED_DATA", stored
    code = rice_code(rng, 8 * bytepix, block, numbers) if codec == "RICE_1" else line_list(rng, numbers)
    room = 8 * len(numbers) + 64 - len(code)
    if room < 0:
        return "UNCOMPRESSED_DATA", stored
    extra = rng.choice((0, 0, 0, 2 * rng.randint(0, room // 2)))
    return "COMPRESSED_DATA", code + rng.randbytes(extra)


def columns_of(rng, codec, records):
    """The columns of a table in some order, each as its name, whether it is wide, and the letter of its elements."""
    names = ["COMPRESSED_DATA"]
    if any(column == "UNCOMPRESSED_DATA" for column, _ in records) or rng.random() < 0.5:
        names.append("UNCOMPRESSED_DATA")
    if rng.random() < 0.2:
        names.append("GZIP_COMPRESSED_DATA")
    rng.shuffle(names)
    made = []
    for name in names:
        sizes = [len(data) for column, data in records if column == name]
        letters = [it for it in "BIJK" if all(size % UNITS[it] == 0 for size in sizes)]
        made.append((name, rng.random() < 0.3, rng.choice(letters)))
    return made


def spread(rng, records):
    """A heap with the records at some places: in another order, with gaps, the same bytes once. With the offsets."""
    order = list(range(len(records)))
    if rng.random() < 0.4:
        rng.shuffle(order)
    heap, offsets, known = b"", [0] * len(records), {}
    for it in order:
        data = records[it][1]
        if data in known and rng.random() < 0.5:
            offsets[it] = known[data]
            continue
        heap += rng.randbytes(rng.choice((0, 0, 0, 0, 5)))
        offsets[it] = known[data] = len(heap)
        heap += data
    return heap, offsets


def row_bytes(columns, extra, record_at, rng):
    name_here, data, offset = record_at
    made = b""
    for name, wide, letter in columns:
        form = ">QQ" if wide else ">II"
        mine = name == name_here
        unused = rng.choice((0, 0, 77))
        made += struct.pack(form, len(data) // UNITS[letter] if mine else 0, offset if mine else unused)
    return made + bytes(extra)


def table_cards(rng, columns, extra, rows, heap_length, gap):
    width = sum(16 if wide else 8 for _, wide, _ in columns) + extra
    cards = [card("XTENSION", "BINTABLE"), card("BITPIX", 8), card("NAXIS", 2), card("NAXIS1", width), card("NAXIS2", rows)]
    cards += [card("PCOUNT", gap + heap_length), card("GCOUNT", 1), card("TFIELDS", len(columns) + (extra > 0))]
    for it, (name, wide, letter) in enumerate(columns):
        spelled = name if rng.random() < 0.8 else name.lower()
        form = f"{rng.choice(('1', '1', ''))}{'Q' if wide else 'P'}{letter}{rng.choice(('', f'({heap_length})'))}"
        both = [card(f"TTYPE{it + 1}", spelled), card(f"TFORM{it + 1}", form)]
        cards += both if rng.random() < 0.8 else both[::-1]
    if extra:
        cards += [card(f"TTYPE{len(columns) + 1}", rng.choice(("NOTE", "ZZ"))), card(f"TFORM{len(columns) + 1}", f"{extra}B")]
    if gap or rng.random() < 0.2:
        cards.append(card("THEAP", width * rows + gap))
    return cards


def image_cards(rng, found, codec, bytepix, block, tile, first):
    """The cards that say the image, in some order."""
    spelled = rng.choice(("RICE_1", "RICE_ONE")) if codec == "RICE_1" else codec
    groups = [[card("ZIMAGE", True)], [card("ZCMPTYPE", spelled)], [card("ZBITPIX", found.bitpix)], [card("ZNAXIS", len(found.axes))]]
    groups.append([card(f"ZNAXIS{it + 1}", length) for it, length in enumerate(found.axes)])
    if tile != tile_for(found.axes, []) or rng.random() < 0.6:
        groups.append([card(f"ZTILE{it + 1}", rng.choice((length, 10**17)) if length == axis else length) for it, (length, axis) in enumerate(zip(tile, found.axes))])
    if codec == "RICE_1":
        parameters = []
        if block != 32 or rng.random() < 0.5:
            parameters.append(("BLOCKSIZE", block))
        if bytepix != 4 or rng.random() < 0.5:
            parameters.append(("BYTEPIX", bytepix))
        rng.shuffle(parameters)
        groups += [[card(f"ZNAME{it + 1}", name), card(f"ZVAL{it + 1}", value)] for it, (name, value) in enumerate(parameters)]
    if first:
        groups.append([card("ZSIMPLE", True)])
    elif rng.random() < 0.7:
        groups.append([card("ZTENSION", "IMAGE")])
    if not first and rng.random() < 0.5:
        groups.append([card("ZPCOUNT", 0), card("ZGCOUNT", 1)])
    if rng.random() < 0.3:
        groups.append([card("EXTNAME", "COMPRESSED_IMAGE")])
    if rng.random() < 0.2:
        groups.append([card("ZHECKSUM", "0000000000000000"), card("ZDATASUM", "0")])
    if rng.random() < 0.2:
        groups.append([words("HISTORY", " packed by another hand")])
    rng.shuffle(groups)
    return [it for group in groups for it in group]


def packed_table(rng, first):
    """A packed table, and the image that it stands for."""
    codec = rng.choice(("RICE_1", "RICE_1", "PLIO_1", "NOCOMPRESS"))
    found, bytepix = suited(rng, codec)
    tile = tile_for(found.axes, rng.choice(([], [rng.randint(1, 40) for _ in found.axes])))
    if math.prod(-(-axis // length) for axis, length in zip(found.axes, tile)) > 400:
        tile = tile_for(found.axes, [])
    block = rng.choice((32, 32, 16, 1, 7, 32767))
    numbers = found.numbers
    tiles = [[numbers[it] for it in places_of(found.axes, *box)] for box in tiles_of(found.axes, tile)]
    records = [record(rng, codec, bytepix, block, found.bitpix, it) for it in tiles]
    columns = columns_of(rng, codec, records)
    extra = rng.choice((0, 0, 0, 6))
    heap, offsets = spread(rng, records)
    gap = rng.choice((0, 0, 0, 8, 100))
    rows = b"".join(row_bytes(columns, extra, (*it, offset), rng) for it, offset in zip(records, offsets))
    cards = table_cards(rng, columns, extra, len(records), len(heap), gap)
    cards += image_cards(rng, found, codec, bytepix, block, tile, first) + [it for it in further_cards(rng) if it[:8] != b"BZERO   "]
    return header(cards) + filled(rows + rng.randbytes(gap) + heap), found


def empty_primary(rng):
    cards = [card("SIMPLE", True), card("BITPIX", rng.choice((8, 16))), card("NAXIS", 0), card("EXTEND", True)]
    return header(cards + [words("COMMENT", " an empty primary")] * rng.choice((0, 1, 40)))


def other_file(rng):
    """A packed file of another packer, with the images that it stands for by the number of their HDU in the restored file."""
    made, images = empty_primary(rng), {}
    number = 1
    if rng.random() < 0.5:
        table, found = packed_table(rng, True)
        made, images, number = made + table, {0: found}, 1
    for _ in range(rng.choice((0, 1, 1, 2)) if images else rng.choice((1, 2))):
        if rng.random() < 0.75:
            table, images[number] = packed_table(rng, False)
            made += table
        else:
            made += other_hdu(rng, False)
        number += 1
    return made, images
