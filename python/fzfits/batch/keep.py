"""What lies beside the manifest: its second copy, and SHA256SUMS, a list of the packed files that `sha256sum -c` reads."""
from __future__ import annotations

import os
import re
import stat
from typing import Iterable, Iterator

from . import files, inside, names
from .manifest import BadManifest, Manifest, Row

HEAD = b"# SHA-256 of the packed files of this folder, written by fzbatch. To compare: sha256sum -c SHA256SUMS\n"
UNFINISHED = re.compile(rb"(fzbatch\.sqlite\.copy|SHA256SUMS|fzbatch\.tasks)\.[0-9a-f]{12}\.new")
# A path has at most 4 kB, each byte of which is written as two.
LONGEST = 16 << 10
LINE = re.compile(rb"(\\?)([0-9a-f]{64}) [ *](.+)")


def keep(manifest: Manifest, packed: bytes) -> "list[str]":
    """Writes both anew after a run that changed the manifest. What is there and is none of them stays, and a line says so."""
    manifest.save()
    for it in os.listdir(packed):
        # what a killed run was writing
        if UNFINISHED.fullmatch(it):
            files.remove(os.path.join(packed, it))
    rights = stat.S_IMODE(os.stat(packed).st_mode) & 0o666
    said = []
    for name, beginning, pieces in ((names.COPY, b"SQLite format 3\0", _bytes_of(manifest.path)), (names.SUMS, HEAD, sums_of(manifest.rows()))):
        path = os.path.join(packed, name)
        if is_none_of_ours(path, beginning):
            said.append(f"{names.shown(path)} is there, and fzbatch did not write it: it stays as it is, and none was written.")
        else:
            inside.replace(path, pieces, rights)
    return said


def is_none_of_ours(path: bytes, beginning: bytes) -> bool:
    """Whether there is something of this name that fzbatch did not write."""
    if not files.there(path):
        return False
    try:
        number = inside.own(path, os.O_RDONLY)
    except OSError:
        return True
    try:
        return os.pread(number, len(beginning), 0) != beginning
    finally:
        os.close(number)


def _bytes_of(path: bytes) -> Iterator[bytes]:
    with open(path, "rb") as it:
        while True:
            piece = it.read(files.PIECE)
            if not piece:
                return
            yield piece


def sums_of(rows: Iterable[Row]) -> Iterator[bytes]:
    """The lines of SHA256SUMS."""
    yield HEAD
    for it in rows:
        if it.packed_sha256:
            yield line_of(names.packed_name(it.path), it.packed_sha256)


def line_of(path: bytes, sha256: str) -> bytes:
    """A line as sha256sum writes and reads it: names with a line feed or a backslash are escaped."""
    escaped = path.replace(b"\\", b"\\\\").replace(b"\n", b"\\n")
    return (b"\\" if escaped != path else b"") + sha256.encode() + b"  " + escaped + b"\n"


def read_sums(packed: bytes) -> "dict[bytes, str]":
    """SHA256SUMS as it was written by fzbatch: the SHA-256 of each packed file; nothing if there is none, or another file.

    Raises `BadManifest` for a line that is none: of the file that it was about nothing would be known, not even that it is lost.
    """
    path = os.path.join(packed, names.SUMS)
    if not files.there(path) or is_none_of_ours(path, HEAD):
        return {}
    found = {}
    with open(path, "rb") as it:
        it.seek(len(HEAD))
        number = 1
        # a line without an end is none that fzbatch wrote
        while line := it.readline(LONGEST):
            number += 1
            parts = LINE.fullmatch(line[:-1]) if line.endswith(b"\n") else None
            if parts is None:
                raise BadManifest(f"line {number} of {names.shown(path)} is none that fzbatch wrote, so it is not known of which file it was: keep the file elsewhere, correct the line or take it out, and start this again")
            name = re.sub(rb"\\(.)", lambda it: b"\n" if it[1] == b"n" else it[1], parts[3], flags=re.S) if parts[1] else parts[3]
            found[name] = parts[2].decode()
    return found
