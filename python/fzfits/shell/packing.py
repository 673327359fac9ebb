"""`fzfits pack`, `unpack`, `cut` and `mend`."""
from __future__ import annotations

import argparse
import os
import secrets
import sys
from typing import Optional

from .. import commands
from ..errors import Usage, shown
from ..headers import Name, headers
from ..mend import OPTIONS, mend
from ..names import sync_folder
from ..results import Made
from ..section import cutout
from . import told

PIECE = 1 << 20


def say(made: Made, asked: argparse.Namespace, more: str = "") -> None:
    """One line for a file that was made."""
    if not asked.quiet:
        print(f"{made.source} -> {made.path}: {made.source_size:,} -> {made.size:,} bytes, ratio {made.ratio:.2f}{more}")


def out_of(path: str, asked: argparse.Namespace, default: Optional[str]) -> str:
    """The name of the output: `-o`, or the default."""
    out = asked.out or default
    if out is None:
        raise Usage(f"{shown(path)} does not end with .fz: name the output with -o")
    if out == "-":
        raise Usage("standard output gets lines of text only: name a file with -o (./- is a file of that name)")
    return out


def same_bytes(one: Name, other: Name) -> bool:
    """Whether two files have the same bytes."""
    with open(one, "rb") as first, open(other, "rb") as second:
        while True:
            piece = first.read(PIECE)
            if piece != second.read(PIECE):
                return False
            if not piece:
                return True


def state_of(path: Name) -> "tuple[int, ...]":
    """What changes when a file does."""
    found = os.lstat(path)
    return found.st_mode, found.st_ino, found.st_dev, found.st_size, found.st_mtime_ns, found.st_ctime_ns


def sync(path: str) -> None:
    """Waits until the disk has a file and the names of its folder. Raises OSError if the system can't say so."""
    for it in (path, os.path.dirname(path) or "."):
        handle = os.open(it, os.O_RDONLY)
        try:
            os.fsync(handle)
        finally:
            os.close(handle)


def drop(path: str, packed: str, before: "tuple[int, ...]") -> None:
    """Removes a plain file after its packed file is on the disk, was unpacked again and compared with it. Raises `Usage` if it must stay."""
    if os.path.islink(path) or not os.path.isfile(path):
        raise Usage(f"{shown(path)} is packed, and stays: it is no regular file, and --delete removes nothing else")
    sync(packed)
    again = os.path.join(os.path.dirname(packed) or ".", f".fz-{secrets.token_hex(8)}.unfinished")
    try:
        commands.unpack(packed, again)
        same = same_bytes(path, again)
    finally:
        if os.path.lexists(again):
            os.unlink(again)
    if not same or state_of(path) != before:
        raise Usage(f"{shown(path)} stays: {shown(packed)} does not restore it, byte for byte; was it changed meanwhile?")
    os.unlink(path)
    sync_folder(os.fsencode(os.path.dirname(path) or "."))


def pack_file(path: str, asked: argparse.Namespace) -> int:
    """Packs one file."""
    out = out_of(path, asked, told.packed_name(path, asked.folder))
    before = state_of(path) if asked.delete and os.path.lexists(path) else ()
    made = commands.pack(path, out, codec=asked.codec, tile=asked.tile, block=asked.block, sums=not asked.no_sums, workers=asked.workers, memory=asked.memory)
    # a file without checksums is not read a second time
    has_sums = any(it.card("DATASUM") or it.card("CHECKSUM") for it in headers(path))
    for it in told.wrong_sums(path) if has_sums else ():
        print(f"fzfits pack: warning: {shown(path)}: {it}; it is packed as it is (fzfits why {told.name(path)})", file=sys.stderr)
    if asked.delete:
        drop(path, out, before)
    say(made, asked, ", compared and deleted" if asked.delete else "")
    return 0


def unpack_file(path: str, asked: argparse.Namespace) -> int:
    """Restores one file."""
    out = out_of(path, asked, told.plain_name(path, asked.folder))
    made = commands.unpack(path, out, workers=asked.workers, memory=asked.memory)
    if not asked.quiet:
        print(f"{made.source} -> {made.path}: {made.source_size:,} -> {made.size:,} bytes")
    return 0


def cut_file(path: str, asked: argparse.Namespace) -> int:
    """Cuts a part out of an image, packed or plain."""
    made = cutout(path, asked.out, workers=asked.workers, memory=asked.memory)
    if not asked.quiet:
        print(f"{made.source} -> {made.path}: {made.size:,} bytes")
    return 0


def mend_file(path: str, asked: argparse.Namespace) -> int:
    """Writes a copy without the faults that are asked for."""
    wanted = {it: getattr(asked, it) for it in OPTIONS}
    if not any(wanted.values()) and not asked.sums:
        raise Usage(f"say which faults to mend: {', '.join(map(told.option, OPTIONS))}, --sums; fzfits why {told.name(path)} says which there is")
    done = mend(path, asked.out, sums=asked.sums, **wanted)
    if not done:
        print(f"{shown(path)}: nothing to mend, and no file was made")
        return 1
    print(f"{shown(path)} -> {done.path}")
    for it in done.changes:
        print(f"    {it}")
    for number in done.stale:
        print(f"    HDU {number}: its checksums are now wrong; --sums makes them anew")
    return 0
