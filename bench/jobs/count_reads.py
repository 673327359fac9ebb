#!/usr/bin/env python3
"""count_reads.py FZ PACKED BOX: counts the bytes of a packed file that `fz cut` reads, by strace, beside those that it may read.

It may read the headers up to the packed HDU, and the rows and records of the tiles that hold a pick. The file has one packed
image, behind an empty primary, in tiles with descriptors of 32 bits.
"""
import os
import re
import struct
import subprocess
import sys
import tempfile

READ = re.compile(r"pread64\(\d+<([^>]*)>, .*, (\d+), (\d+)\) += (\d+)")


def header(file, start):
    """The cards of a header, and where it ends."""
    cards = {}
    at = start
    while True:
        block = file[at : at + 2880]
        at += 2880
        for card in (block[it : it + 80] for it in range(0, 2880, 80)):
            if card == b"END".ljust(80):
                return cards, at
            cards.setdefault(card[:8].decode().strip(), card[10:30].decode().strip())


def picked_tiles(cards, box):
    """The numbers of the tiles that hold a pick of a box of two axes."""
    axes = [int(cards[f"ZNAXIS{it}"]) for it in (1, 2)]
    tiles = [int(cards[f"ZTILE{it}"]) for it in (1, 2)]
    along = []
    for part, tile in zip(box.split(","), tiles):
        low, high, step = (*map(int, part.split(":")), 1)[:3]
        along.append(sorted({(it - 1) // tile for it in range(low, high + 1, step)}))
    columns = -(-axes[0] // tiles[0])
    return [row * columns + column for row in along[1] for column in along[0]]


def may_read(file, box):
    """The ranges that a cut may read."""
    _, start = header(file, 0)
    cards, rows_at = header(file, start)
    ranges = [(0, rows_at)]
    row_len = int(cards["NAXIS1"])
    heap_at = rows_at + row_len * int(cards["NAXIS2"])
    for tile in picked_tiles(cards, box):
        at = rows_at + row_len * tile
        ranges.append((at, at + row_len))
        first, first_at, second, second_at = struct.unpack(">4i", file[at : at + 16])
        size = int(cards["ZBITPIX"]) // 8
        begin, length = (first_at, first) if first else (second_at, size * second)
        ranges.append((heap_at + begin, heap_at + begin + length))
    return ranges


def joined(ranges):
    """The ranges in order, those that touch as one."""
    made = []
    for low, high in sorted(ranges):
        if made and low <= made[-1][1]:
            made[-1][1] = max(high, made[-1][1])
        else:
            made.append([low, high])
    return made


def total(ranges):
    return sum(high - low for low, high in ranges)


def main():
    fz, packed, box = sys.argv[1:]
    with tempfile.TemporaryDirectory() as folder:
        log = f"{folder}/log"
        subprocess.run(["strace", "-f", "-y", "-e", "trace=pread64", "-o", log, fz, "cut", "--box", box, packed, f"{folder}/out.fits"], check=True)
        found = [READ.search(line) for line in open(log, encoding="utf-8")]
    read = [(int(it[3]), int(it[3]) + int(it[4])) for it in found if it and it[1] == os.path.realpath(packed)]
    allowed = joined(may_read(open(packed, "rb").read(), box))
    seen = joined(read)
    beyond = total(joined([*map(tuple, allowed), *map(tuple, seen)])) - total(allowed)
    print(f"{box}: {len(read)} reads, {total(read)} bytes, {total(seen)} different ones; {total(allowed)} may be read; {beyond} of others were")


if __name__ == "__main__":
    main()
