"""The ways to call the codecs, for tools/check_library: C, ctypes in this process, and the program. Each answers a list with a line for a tile:
the answer, and after 0 the numbers (decode), or the column and the bytes (encode)."""
import subprocess
import tempfile
from pathlib import Path

from fzfits import codec, errors, refusals
from making.fits import card, filled, hdus_of, header, plain_bytes
from read_packed import columns_of, header_at, record_of

from .vectors import CODECS, COLUMNS



def cells(bitpix, numbers):
    """Numbers as libfz has them: two for one of 64 bits, the upper half and then the lower one."""
    if bitpix < 64:
        return numbers
    return [half for it in numbers for half in (it >> 32, ((it & 0xFFFFFFFF) ^ 0x80000000) - 0x80000000)]


def joined(bitpix, halves):
    if bitpix < 64:
        return halves
    return [(upper << 32) | (lower & 0xFFFFFFFF) for upper, lower in zip(halves[::2], halves[1::2])]


class C:
    """tools/library/vectors.c, with each place before and after a page that nobody may touch."""

    def __init__(self, program):
        self.program = program

    def lines(self, asked):
        ended = subprocess.run([self.program], input="\n".join(asked) + "\n", capture_output=True, text=True, check=False)
        if ended.returncode:
            raise ValueError(f"{self.program}: status {ended.returncode} {ended.stdout[-300:]} {ended.stderr[-1500:]}")
        return ended.stdout.splitlines()

    def decoded(self, tiles):
        asked = []
        for it in tiles:
            words = CODECS[it.codec], it.block, it.bytepix, it.bitpix, COLUMNS.index(it.column), len(it.record), it.record.hex() or "-"
            asked.append(f"decode_tile {' '.join(map(str, words))} {len(cells(it.bitpix, [0] * it.count))}")
        return [self.numbers(it, line.split()) for it, line in zip(tiles, self.lines(asked))]

    @staticmethod
    def numbers(tile, words):
        return (int(words[0]), joined(tile.bitpix, [int(it) for it in words[2:]]) if words[0] == "0" else None)

    def encoded(self, tiles):
        asked = []
        for it in tiles:
            numbers = cells(it.bitpix, it.numbers)
            asked.append(f"encode_tile {CODECS[it.codec]} {it.block} {it.bitpix // 8} {it.bitpix} {len(numbers)} {' '.join(map(str, numbers))}")
        return [self.record(line.split()) for line in self.lines(asked)]

    @staticmethod
    def record(words):
        return (int(words[0]), (COLUMNS[int(words[1])], words[2]) if words[0] == "0" else None)

    def single(self, tiles):
        """The codes by themselves, in parts too: what of these is not what the tile says, a line each."""
        asked, wanted = [], []
        for it in tiles:
            numbers = f"{it.count} {' '.join(map(str, it.numbers))}"
            if it.codec == "PLIO_1":
                asked += [f"plio_decode {it.record.hex()} {it.count}", f"plio_encode {numbers}"]
                wanted += [f"0 {numbers}", f"0 {it.record.hex()}" if it.is_written else None]
            else:
                first = f"{8 * it.bytepix} {it.block}"
                asked += [f"rice_decode {first} {it.record.hex()} {it.count}", f"rice_encode {first} {numbers}"]
                asked.append(f"parts 1 {it.block} {it.bytepix} {8 * it.bytepix} {it.record.hex()} {it.count} {it.block}")
                wanted += [f"0 {len(it.record)} {numbers}", f"0 {it.record.hex()}" if it.is_written else None, f"0 {numbers}"]
        said = self.lines(asked)
        return len(said), [f"{one[:90]}: {two[:90]}, and not {three[:90]}" for one, two, three in zip(asked, said, wanted) if three and two != three]


class Ctypes:
    """fzfits.codec."""

    @staticmethod
    def decoded(tiles):
        return [Ctypes.decode(it) for it in tiles]

    @staticmethod
    def decode(tile):
        try:
            found = codec.decode_tile(tile.record, tile.count, codec=tile.codec, bitpix=tile.bitpix, bytepix=tile.bytepix, block=tile.block, column=tile.column)
        except errors.BadCode as error:
            return (-error.number, None)
        except errors.BadArgument as error:
            return (error.answer, None)
        return (0, found.tolist())

    @staticmethod
    def encoded(tiles):
        found = [codec.encode_tile(it.numbers, codec=it.codec, bitpix=it.bitpix, block=it.block) for it in tiles]
        return [(0, (it.column, it.data.hex() or "-")) for it in found]


def packed_file(tile):
    """A packed file of one image that has this one tile."""
    at = COLUMNS.index(tile.column)
    row = b"".join((len(tile.record) if it == at else 0).to_bytes(4, "big") + bytes(4) for it in (0, 1))
    cards = [card("XTENSION", "BINTABLE"), card("BITPIX", 8), card("NAXIS", 2), card("NAXIS1", 16), card("NAXIS2", 1), card("PCOUNT", len(tile.record))]
    cards += [card("GCOUNT", 1), card("TFIELDS", 2), card("TTYPE1", COLUMNS[0]), card("TFORM1", "1PB"), card("TTYPE2", COLUMNS[1]), card("TFORM2", "1PB")]
    cards += [card("ZIMAGE", True), card("ZTENSION", "IMAGE"), card("ZBITPIX", tile.bitpix), card("ZNAXIS", 1), card("ZNAXIS1", tile.count)]
    cards += [card("ZTILE1", tile.count), card("ZCMPTYPE", tile.codec), card("ZNAME1", "BLOCKSIZE"), card("ZVAL1", tile.block)]
    cards += [card("ZNAME2", "BYTEPIX"), card("ZVAL2", tile.bytepix)]
    primary = header([card("SIMPLE", True), card("BITPIX", 8), card("NAXIS", 0), card("EXTEND", True)])
    return primary + header(cards) + filled(row + tile.record)


def plain_file(tile):
    """A plain file of the numbers of a tile."""
    return header([card("SIMPLE", True), card("BITPIX", tile.bitpix), card("NAXIS", 1), card("NAXIS1", tile.count)]) + filled(plain_bytes(tile.bitpix, tile.numbers))


class Program:
    """The program fz, over a file for each tile."""

    def __init__(self, fz):
        self.fz = fz

    def run(self, words, file, folder):
        """What the program prints, and the file that it makes, or None."""
        given, made = Path(folder, "in"), Path(folder, "out")
        given.write_bytes(file)
        made.unlink(missing_ok=True)
        ended = subprocess.run([self.fz, *words, given, made], stdin=subprocess.DEVNULL, capture_output=True, text=True, check=False)
        return ended.stdout, made.read_bytes() if ended.returncode == 0 else None

    def decoded(self, tiles):
        with tempfile.TemporaryDirectory() as folder:
            return [self.decode(it, folder) for it in tiles]

    def decode(self, tile, folder):
        said, made = self.run(["unpack"], packed_file(tile), folder)
        if made is None:
            return (-int(said.split()[1]), None)
        data, size = hdus_of(made)[-1].data, tile.bitpix // 8
        return (0, [int.from_bytes(data[it : it + size], "big", signed=size > 1) for it in range(0, len(data), size)])

    def encoded(self, tiles):
        with tempfile.TemporaryDirectory() as folder:
            return [self.encode(it, folder) for it in tiles]

    def encode(self, tile, folder):
        name = {"NOCOMPRESS": "none", "PLIO_1": "plio"}.get(tile.codec, "rice")
        words = ["pack", "--codec", name, "--tile", str(tile.count)] + (["--block", str(tile.block)] if name == "rice" else [])
        said, made = self.run(words, plain_file(tile), folder)
        if made is None:
            return (said, None)
        cards, start = header_at(made, 2880)
        column, record = record_of(cards, made[start : start + cards.data_length(False)], columns_of(cards), 0)
        return (0, (column, record.hex()))


def kind_name(answer):
    """An answer in words."""
    found = refusals.kind(-answer) if isinstance(answer, int) and -100 < answer < 0 else None
    return f"{answer} {found.name}" if found else str(answer)
