"""Codes and numbers for tools/check_library, with what must come out: rows of crates/fz_cases_codes, tiles of samples/, lawful codes that no
packer writes (tools/making/codes.py), and damaged ones, of which it is only asked that all ways to decode them agree."""
import random
import re
from dataclasses import dataclass, field
from pathlib import Path

import read_packed
from making.codes import HIGHEST_FLAG, line_list, rice_code
from making.fits import highest, lowest, plain_bytes

TOP = Path(__file__).resolve().parents[2]
ROWS = TOP / "crates/fz_cases_codes/src"
CODECS = {"NOCOMPRESS": 0, "RICE_1": 1, "RICE_ONE": 1, "PLIO_1": 2}
COLUMNS = ("COMPRESSED_DATA", "UNCOMPRESSED_DATA")
# What a column of numbers or words is in a case: a list in brackets.
LIST = r"&\[([-0-9a-fA-Fx_,\s]*)\]"


@dataclass
class Tile:
    """A tile: its codec and parameters, its numbers, and its record. Numbers or answer are None if they are not known."""

    origin: str
    codec: str
    bitpix: int
    column: str
    record: bytes
    count: int
    numbers: list = field(default=None)
    answer: int = None
    bytepix: int = 4
    block: int = 32
    # whether fz writes this record for these numbers
    is_written: bool = False


def numbers_of(text):
    """The numbers of a list in a source of Rattle."""
    return [int(it.replace("_", ""), 0) for it in text.split(",") if it.strip()]


def words_of(text):
    return b"".join(it.to_bytes(2, "big") for it in numbers_of(text))


def rows_of_rice():
    """expect_code::<W>(&rt, numbers, code) of rice.rt, with the lists of `let` in their places."""
    text = re.sub(r"//.*", "", (ROWS / "rice.rt").read_text())
    names = {}
    for found in re.finditer(r"let (\w+) = \[([^\]]*)\];|expect_code::<(\d+)>\(\s*&rt,\s*&(?:\[([^\]]*)\]|(\w+)),\s*&(?:\[([^\]]*)\]|(\w+)),?\s*\)", text):
        if found[1]:
            names[found[1]] = found[2]
            continue
        width = int(found[3])
        numbers, code = numbers_of(found[4] or names[found[5]]), bytes(numbers_of(found[6] or names[found[7]]))
        yield Tile("rice.rt", "RICE_1", width, COLUMNS[0], code, len(numbers), numbers, 0, width // 8)


def rows_of_plio():
    """The rows of encodes_rows and decodes_rows of plio.rt."""
    text = re.sub(r"//.*", "", (ROWS / "plio.rt").read_text())
    for found in re.finditer(rf"\(\s*{LIST},\s*{LIST},?\s*\)", text):
        numbers, code = numbers_of(found[1]), words_of(found[2])
        yield Tile("plio.rt", "PLIO_1", 32, COLUMNS[0], code, len(numbers), numbers, 0, is_written=len(code) < 4 * len(numbers))
    for found in re.finditer(rf"\(\s*{LIST},\s*(?:Ok\(\[([^\]]*)\]\)|Err\(LineFault\)),?\s*\)", text):
        numbers = numbers_of(found[2]) if found[2] else None
        yield Tile("plio.rt", "PLIO_1", 32, COLUMNS[0], words_of(found[1]), 3, numbers, 0 if numbers else -23)


def rows_of_tiles():
    """expect_bytes(&rt, codec, numbers, column, bytes) of tile.rt."""
    text = re.sub(r"//.*", "", (ROWS / "tile.rt").read_text())
    codecs = {"rice(2)": "RICE_1", "Codec::Plio": "PLIO_1", "Codec::Plain": "NOCOMPRESS"}
    for found in re.finditer(rf"expect_bytes\(\s*&rt,\s*([\w:()]+),\s*{LIST},\s*Place2::(\w+),\s*{LIST},?\s*\)", text):
        numbers, column = numbers_of(found[2]), COLUMNS[found[3] == "Stored"]
        yield Tile("tile.rt", codecs[found[1]], 16, column, bytes(numbers_of(found[4])), len(numbers), numbers, 0, 2, is_written=True)


def tiles_of_file(path):
    """The tiles of each packed image of a file, with the numbers that the small reader finds."""
    for header, data, _ in read_packed.hdus_of(path.read_bytes()):
        if not read_packed.is_packed(header):
            continue
        axes, columns = read_packed.axes_of(header), read_packed.columns_of(header)
        for row, (_, lengths) in enumerate(read_packed.tiles_of(axes, read_packed.tile_of(header, axes))):
            column, record = read_packed.record_of(header, data, columns, row)
            count = 1
            for it in lengths:
                count *= it
            numbers = read_packed.tile_numbers(header, column, record, count)
            bytepix, block = read_packed.parameter(header, "BYTEPIX", 4), read_packed.parameter(header, "BLOCKSIZE", 32)
            yield Tile(path.name, header.text("ZCMPTYPE"), header.integer("ZBITPIX"), column, record, count, numbers, 0, bytepix, block, True)


def some_numbers(rng, codec, bitpix):
    """Numbers of a tile, of several sorts, in the range of the codec."""
    low, high = (0, min(HIGHEST_FLAG, highest(bitpix))) if codec == "PLIO_1" else (lowest(bitpix), highest(bitpix))
    count, base = rng.choice((1, 2, 31, 32, 33, 100, 400)), rng.randint(low, high)
    sort = rng.randrange(4)
    noise = rng.choice((1, 3, 40, 5000))
    pick = {0: lambda: base, 1: lambda: base + rng.randint(-noise, noise), 2: lambda: rng.choice((0, 0, 0, base)), 3: lambda: rng.randint(low, high)}[sort]
    return [min(high, max(low, pick())) for _ in range(count)]


def lawful(rng, count):
    """Lawful records that no packer writes."""
    for _ in range(count):
        codec = rng.choice(("RICE_1", "RICE_1", "PLIO_1", "NOCOMPRESS"))
        bitpix = rng.choice((8, 16, 32, 64) if codec == "NOCOMPRESS" else (8, 16, 32))
        numbers, block, bytepix = some_numbers(rng, codec, bitpix), rng.choice((32, 32, 16, 1, 7, 32767)), bitpix // 8
        column = COLUMNS[rng.random() < 0.1]
        if codec == "NOCOMPRESS" or column == COLUMNS[1]:
            record = plain_bytes(bitpix, numbers)
        else:
            record = rice_code(rng, bitpix, block, numbers) if codec == "RICE_1" else line_list(rng, numbers)
        if len(record) <= 8 * len(numbers) + 64:
            yield Tile("lawful", codec, bitpix, column, record, len(numbers), numbers, 0, bytepix, block)


def damaged(rng, tiles, count):
    """Records of these tiles, damaged. A record has a byte at least, and no more than the most that is read of one."""
    for _ in range(count):
        of = rng.choice(tiles)
        record = bytearray(of.record)
        kind = rng.randrange(4)
        if kind < 2:
            for _ in range(rng.randint(1, 3)):
                record[rng.randrange(len(record))] ^= 1 << rng.randrange(8)
        elif kind == 2:
            record = record[: max(1, rng.randrange(len(record) + 1))]
        else:
            at = rng.randrange(len(record))
            record[at:] = rng.randbytes(len(record) - at)
        yield Tile("damaged", of.codec, of.bitpix, of.column, bytes(record), of.count, None, None, of.bytepix, of.block)


def all_tiles(seed):
    """All tiles, by what they are from. Raises ValueError if the rows of a file are not found any more."""
    rng = random.Random(seed)
    found = {
        "fz_cases_codes": [*rows_of_rice(), *rows_of_plio(), *rows_of_tiles()],
        "samples": [it for path in sorted((TOP / "samples/packed").glob("*.fits")) for it in tiles_of_file(path)],
        "lawful": [*lawful(rng, 300)],
    }
    for origin, least in (("fz_cases_codes", 45), ("samples", 10), ("lawful", 200)):
        if len(found[origin]) < least:
            raise ValueError(f"only {len(found[origin])} tiles of {origin} were found, and there were {least}")
    found["damaged"] = [*damaged(rng, [it for tiles in found.values() for it in tiles], 300)]
    return found
