"""Names of files as bytes: which are FITS files, the name of the packed file, and how a name is printed."""
from __future__ import annotations

import os
import re
from typing import Any

PLAIN = (b".fits", b".fit", b".fts")
SUFFIXES = PLAIN + tuple(it + b".fz" for it in PLAIN)
PACKED = b".fz"
PART = b".part"
# The manifest in a folder of packed files, its second copy, and the list that `sha256sum -c` reads.
MANIFEST = b"fzbatch.sqlite"
COPY = b"fzbatch.sqlite.copy"
SUMS = b"SHA256SUMS"
LOCK = b"fzbatch.lock"
# Suffixes of programs that compress whole files.
COMPRESSED = (b".gz", b".z", b".bz2", b".xz", b".zst", b".zstd", b".lz4", b".lz", b".lzma", b".zip", b".7z", b".br")
# A name that a FITS file may have after it was copied by hand: raw.fits~, raw.fits.1, raw.fits (1).
NEARLY = re.compile(rb".*\.(fits|fit|fts)(\.fz)?[^a-z0-9].*", re.S)
TASKS = b"fzbatch.tasks"
RESULTS = b"fzbatch.results"
# Names in a folder of packed files that fzbatch, or SQLite for it, gives to files of its own, also while they are written.
OURS = re.compile(r"(fzbatch\.sqlite.*|(fzbatch\.(lock|tasks|results)|sha256sums)(\.[0-9a-f]{12}\.new)?)", re.S)
TOKEN = re.compile(r"[0-9a-f]{16}")


def is_fits(name: bytes) -> bool:
    """Whether a file of this name is packed: .fits, .fit or .fts in any case, also with .fz after it."""
    return name.lower().endswith(SUFFIXES)


def is_compressed_fits(name: bytes) -> bool:
    """Whether a file of this name is a FITS file that another program compressed as a whole: .fits.gz and the like."""
    stem, last = os.path.splitext(name.lower())
    return last in COMPRESSED and is_fits(stem)


def is_nearly_fits(name: bytes) -> bool:
    """Whether a name has the suffix of a FITS file, and more after it."""
    return NEARLY.fullmatch(name.lower()) is not None and not is_fits(name)


def fault_of(path: bytes) -> str:
    """Why a path is none that fzbatch writes of a file in a folder, or the empty text."""
    parts = path.split(b"/")
    if not path or b"\0" in path:
        return "it is empty or has a zero byte"
    if path.startswith(b"/"):
        return "it is absolute"
    if any(it in (b"", b".", b"..") for it in parts):
        return "it has an empty part, . or .."
    if is_ours(path):
        return "it has a name that fzbatch uses for itself"
    return "" if is_fits(parts[-1]) else "it is not the name of a FITS file"


def is_ours(path: bytes) -> bool:
    """Whether a path begins with a name that fzbatch uses for itself in a folder of packed files, also on a disk that ignores case."""
    return OURS.fullmatch(os.fsdecode(path.split(b"/")[0]).casefold()) is not None


def packed_name(path: bytes) -> bytes:
    """The path of the packed file. It ends with one more `.fz`, so no two plain files have the same one."""
    return path + PACKED


def suffix_of(name: bytes) -> str:
    """What is counted of a name that is not that of a FITS file: its last suffix, or two if the last says how it is compressed."""
    stem, last = os.path.splitext(os.path.basename(name).lower())
    if last in COMPRESSED:
        last = os.path.splitext(stem)[1] + last
    return shown(last) if last else "no suffix"


def part_name(token: str, number: int) -> bytes:
    """The name of a file that is being written. The token of the run is in it, so only that run and its successors remove it."""
    return f".fzbatch-{token}-{number}".encode() + PART


def is_part_of(name: bytes, tokens: set[str]) -> bool:
    """Whether a file was being written by one of these runs."""
    if not (name.startswith(b".fzbatch-") and name.endswith(PART)):
        return False
    fields = name[: -len(PART)].split(b"-")
    return len(fields) == 3 and fields[2].isdigit() and fields[1].decode("latin-1") in tokens and TOKEN.fullmatch(fields[1].decode("latin-1")) is not None


def shown(name: bytes) -> str:
    """A name on one line: as it is if all of it prints, and otherwise as bash reads it, $'..' with its escapes."""
    try:
        text = name.decode("utf-8")
    except UnicodeDecodeError:
        text = ""
    if text and text.isprintable() and not text.startswith("$'"):
        return text
    return "$'" + "".join(_escaped(it) for it in name) + "'"


def _escaped(byte: int) -> str:
    named = {0x0A: "\\n", 0x09: "\\t", 0x0D: "\\r", 0x27: "\\'", 0x5C: "\\\\"}
    if byte in named:
        return named[byte]
    return chr(byte) if 0x20 <= byte < 0x7F else f"\\x{byte:02x}"


def told(text: str) -> str:
    """Text of a file or of another machine on one line, in which no character controls a terminal."""
    return text if text.isprintable() else "".join(it if it.isprintable() else _spelled(it) for it in text)


def _spelled(character: str) -> str:
    number = ord(character)
    if 0xDC80 <= number <= 0xDCFF:
        # a byte of a name that is not UTF-8
        number -= 0xDC00
    return f"\\x{number:02x}" if number < 0x100 else f"\\u{number:04x}" if number < 0x10000 else f"\\U{number:08x}"


def unescaped(stream: Any) -> Any:
    """The stream itself, for what controls a terminal on purpose: a bar that shows how far a run is."""
    return stream.raw if isinstance(stream, Escaping) else stream


class Escaping:
    """A stream for text that others wrote: all but line feeds is shown as `told` shows it. `raw` is the stream itself."""

    def __init__(self, raw: Any) -> None:
        self.raw = raw

    def write(self, text: str) -> int:
        count: int = self.raw.write("\n".join(map(told, text.split("\n"))))
        return count

    def __getattr__(self, name: str) -> Any:
        return getattr(self.raw, name)
