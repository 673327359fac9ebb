"""Structured damage to a file: to its cards, descriptors, heap and lengths. Each answers the file and what was done."""
import struct

from .fits import BLOCK, CARD, END, card, filled, hdus_of

VALUES = (0, 1, -1, 2, 3, 4, 8, 16, 32, 64, -32, 255, 256, 32767, 32768, 65535, 2147483647, 2147483648, 4294967296, 10**17)
TEXTS = ("", "X", "IMAGE", "BINTABLE", "RICE_1", "PLIO_1", "NOCOMPRESS", "GZIP_1", "HCOMPRESS_1", "1PB(4)", "1QI", "2PB", "8X", "COMPRESSED_IMAGE")
NAMES = ("SIMPLE", "XTENSION", "BITPIX", "NAXIS", "NAXIS1", "NAXIS2", "NAXIS3", "PCOUNT", "GCOUNT", "TFIELDS", "TTYPE1", "TFORM1", "TTYPE2", "TFORM2",
         "THEAP", "ZIMAGE", "ZTABLE", "ZCMPTYPE", "ZBITPIX", "ZNAXIS", "ZNAXIS1", "ZNAXIS2", "ZNAXIS3", "ZTILE1", "ZTILE2", "ZNAME1", "ZVAL1", "ZNAME2",
         "ZVAL2", "ZSIMPLE", "ZTENSION", "ZPCOUNT", "ZGCOUNT", "ZSCALE", "ZZERO", "ZBLANK", "BZERO", "GROUPS", "EXTEND", "EXTNAME", "END", "OBJECT")

# Values that a card of a packed header may well have, so that what is wrong is found by a later check.
NEAR = {
    "ZBITPIX": (8, 16, 32, 64, -32, -64, 12),
    "ZCMPTYPE": ("RICE_1", "RICE_ONE", "PLIO_1", "NOCOMPRESS", "GZIP_1", "rice_1"),
    "ZNAXIS": (1, 2, 3, 9, 10, 0),
    "ZNAXIS1": (1, 2, 7, 64, 2147483647, 2147483648, 0),
    "ZNAXIS2": (1, 2, 7, 64, 2147483647, 0),
    "ZTILE1": (1, 2, 7, 64, 67108864, 67108865, 0, -1),
    "ZTILE2": (1, 2, 7, 64, 10**17, 0),
    "ZNAME1": ("BLOCKSIZE", "BYTEPIX", "NOISEBIT"),
    "ZNAME2": ("BLOCKSIZE", "BYTEPIX", "NOISEBIT"),
    "ZVAL1": (0, 1, 2, 4, 8, 16, 32, 32767, 32768),
    "ZVAL2": (0, 1, 2, 4, 8, 16, 32, 32767, 32768),
    "TTYPE1": ("COMPRESSED_DATA", "UNCOMPRESSED_DATA", "GZIP_COMPRESSED_DATA", "ZSCALE", "NULL_PIXEL_MASK", "compressed_data", "OTHER"),
    "TTYPE2": ("COMPRESSED_DATA", "UNCOMPRESSED_DATA", "GZIP_COMPRESSED_DATA", "ZZERO", "ZBLANK", "OTHER"),
    "TFORM1": ("1PB(9)", "PB", "1PI", "1PJ", "1PK", "1QB", "8B", "2J", "0PB", "1PE", "1PP", "01PB", " 1PB", "64X"),
    "TFORM2": ("1PB(9)", "PI", "1PI", "1PJ", "1PK", "1QI", "8B", "1QK", "1PX", "2PB"),
    "TFIELDS": (1, 2, 3, 0, 999, 1000),
    "THEAP": (0, 8, 16, 32, 100, 1000),
    "NAXIS2": (0, 1, 2, 3, 7),
    "ZSIMPLE": (True, False, 1),
    "ZTENSION": ("IMAGE", "image", "BINTABLE"),
    "ZPCOUNT": (0, 1),
    "ZGCOUNT": (1, 2),
    "ZIMAGE": (False, 1),
    "ZTABLE": (True, False),
    "ZSCALE": (1,),
    "BZERO": (0, 32768),
}


def value_card(rng, name):
    """A card of the name with some value, or with none."""
    kind = rng.randrange(5)
    if kind == 0:
        return card(name, rng.choice(VALUES))
    if kind == 1:
        return card(name, rng.choice(TEXTS))
    if kind == 2:
        return card(name, rng.random() < 0.5)
    if kind == 3:
        return (name.ljust(8) + rng.choice(("= ", "=", "  ", "=  \t 3", "= 1.5", "= +", "= '", "= T/", "= 00000000000000000016", "=                  016"))).ljust(CARD).encode()
    return card(name, rng.randint(-5, 70))


def with_cards(file, hdu, cards):
    """The file with other cards in an HDU."""
    made = filled(b"".join(cards) + END, b" ")
    return file[: hdu.start] + made + file[hdu.start + len(hdu.header) :]


def change_cards(rng, file, hdu):
    cards = list(hdu.cards)
    at = rng.randrange(len(cards)) if cards else 0
    kind = rng.choice(("drop", "repeat", "swap", "value", "value", "value", "name", "insert", "near"))
    if not cards or kind == "insert":
        name = rng.choice(NAMES)
        at = rng.randint(min(9, len(cards)), len(cards)) if rng.random() < 0.7 else at
        cards.insert(at, value_card(rng, name))
        return with_cards(file, hdu, cards), f"a card {name} put in at {at}"
    name = cards[at][:8].decode("latin-1").rstrip()
    if kind == "drop":
        del cards[at]
    elif kind == "repeat":
        cards.insert(rng.randint(at, len(cards)), rng.choice((cards[at], value_card(rng, name))))
    elif kind == "swap":
        other = rng.randrange(len(cards))
        cards[at], cards[other] = cards[other], cards[at]
    elif kind == "value":
        cards[at] = value_card(rng, name)
    elif kind == "near":
        old = hdu.integer(name)
        cards[at] = card(name, (old or 0) + rng.choice((-1, 1, 2, -2))) if name else cards[at]
    else:
        cards[at] = rng.choice(NAMES).ljust(8).encode() + cards[at][8:]
    return with_cards(file, hdu, cards), f"card {at}, {name}: {kind}"


def change_image_card(rng, file, hdu):
    """A card that says the packed image gets another value, or is put in where it does not stand."""
    if not hdu.is_packed():
        return change_cards(rng, file, hdu)
    cards, name = list(hdu.cards), rng.choice(list(NEAR))
    at = next((it for it, found in enumerate(cards) if found[:8] == name.ljust(8).encode()), None)
    new = card(name, rng.choice(NEAR[name]))
    if at is None:
        at = rng.randint(8, len(cards)) if len(cards) > 8 else len(cards)
        cards.insert(at, new)
    else:
        cards[at] = new
    return with_cards(file, hdu, cards), f"card {at} made {new.decode('latin-1').rstrip()}"


def change_header_byte(rng, file, hdu):
    at = hdu.start + rng.randrange(len(hdu.header))
    value = rng.choice((0, 9, 32, 39, 47, 48, 57, 61, 84, 70, 127, 255, rng.randrange(256)))
    return file[:at] + bytes([value]) + file[at + 1 :], f"byte {at} of a header made {value}"


def change_fill(rng, file, hdu):
    """A byte behind END, or behind the data."""
    behind = hdu.start + (len(hdu.cards) + 1) * CARD
    data_end = hdu.start + len(hdu.header) + len(hdu.data)
    places = [*range(behind, hdu.start + len(hdu.header)), *range(data_end, min(len(file), data_end + -len(hdu.data) % BLOCK))]
    if not places:
        return change_header_byte(rng, file, hdu)
    at = rng.choice((places[0], places[-1], rng.choice(places)))
    return file[:at] + bytes([rng.choice((0, 1, 32, 255, 88))]) + file[at + 1 :], f"fill at byte {at}"


def change_data_byte(rng, file, hdu):
    if not hdu.data:
        return change_header_byte(rng, file, hdu)
    at = hdu.start + len(hdu.header) + rng.randrange(len(hdu.data))
    kind = rng.choice(("bit", "zero", "ones", "any"))
    value = {"bit": file[at] ^ 1 << rng.randrange(8), "zero": 0, "ones": 255, "any": rng.randrange(256)}[kind]
    return file[:at] + bytes([value]) + file[at + 1 :], f"byte {at} of the data made {value}"


def change_descriptor(rng, file, hdu):
    """A number of a descriptor in a row, as if all descriptors were of 32 bits."""
    rows, width = hdu.integer("NAXIS2", 0), hdu.integer("NAXIS1", 0)
    table = rows * width
    if not hdu.is_packed() or table < 4 or table > len(hdu.data):
        return change_data_byte(rng, file, hdu)
    at = hdu.start + len(hdu.header) + 4 * rng.randrange(table // 4)
    old = struct.unpack(">I", file[at : at + 4])[0]
    new = rng.choice((0, 1, old + 1, old - 1, 2 * old, 8 * old, hdu.integer("PCOUNT", 0), 2**31, 2**32 - 1, rng.randrange(2**32), rng.randrange(1 + len(hdu.data)))) % 2**32
    return file[:at] + struct.pack(">I", new) + file[at + 4 :], f"the number at byte {at} of the rows made {new} from {old}"


def change_heap(rng, file, hdu):
    """A few bytes of the heap, most often at the front of a record."""
    rows, width = hdu.integer("NAXIS2", 0), hdu.integer("NAXIS1", 0)
    heap = rows * width
    if not hdu.is_packed() or heap >= len(hdu.data):
        return change_data_byte(rng, file, hdu)
    base = hdu.start + len(hdu.header)
    row = base + width * rng.randrange(max(1, rows))
    offset = struct.unpack(">I", file[row + 4 : row + 8].rjust(4, b"\0"))[0] if rng.random() < 0.6 else rng.randrange(len(hdu.data) - heap)
    at = min(base + heap + offset + rng.randrange(16), base + len(hdu.data) - 1)
    new = rng.randbytes(rng.choice((1, 1, 2, 4)))
    return file[:at] + new + file[at + len(new) :], f"bytes {new.hex()} put at byte {at} of the heap"


def cut_file(rng, file, _hdu):
    at = rng.choice((rng.randrange(len(file) + 1), rng.randrange(len(file) // BLOCK + 1) * BLOCK, max(0, len(file) - 1), 0))
    return file[:at], f"cut at byte {at}"


def grow_file(rng, file, _hdu):
    more = rng.choice((b"\0", bytes(10), bytes(BLOCK), b"XTENSION", b"XTENSION".ljust(BLOCK), b" " * BLOCK, rng.randbytes(rng.randint(1, BLOCK)), filled(b"XTENSION= 'IMAGE   '".ljust(CARD) + END, b" ")))
    return file + more, f"{len(more)} bytes behind it"


def move_blocks(rng, file, _hdu):
    """A block taken out, doubled or put elsewhere."""
    blocks = [file[it : it + BLOCK] for it in range(0, len(file), BLOCK)]
    if not blocks:
        return file, "nothing"
    at, kind = rng.randrange(len(blocks)), rng.choice(("taken out", "doubled", "moved"))
    moved = blocks[at]
    if kind != "doubled":
        del blocks[at]
    if kind != "taken out":
        blocks.insert(rng.randint(0, len(blocks)), moved)
    return b"".join(blocks), f"block {at} {kind}"


KINDS = (change_cards, change_cards, change_image_card, change_image_card, change_image_card, change_image_card, change_header_byte, change_fill, change_data_byte,
         change_descriptor, change_descriptor, change_descriptor, change_heap, change_heap, change_heap, cut_file, grow_file, move_blocks)


def damaged(rng, file):
    """The file with one to three kinds of damage, and what they are."""
    story = []
    for _ in range(rng.choice((1, 1, 1, 1, 2, 3))):
        hdus = hdus_of(file)
        if not hdus:
            break
        hdu = rng.choice(hdus[-2:] if rng.random() < 0.7 else hdus)
        file, done = rng.choice(KINDS)(rng, file, hdu)
        story.append(f"HDU at byte {hdu.start}: {done}")
    return file, story
