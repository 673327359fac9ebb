"""The commands of the program as functions over paths, with its options as keywords.

Each calls the program once. What the program takes is decided by the program only: a value that it does not take is `Usage`.
Lengths and boxes are in the order of FITS, axis 1 first, and counted from 1, as on the command line; `fzfits.section` takes them
in the order of numpy. Names of files are text, bytes or paths.
"""
from __future__ import annotations

import dataclasses
import os
from typing import Any, Iterator, List, Mapping, Optional, Sequence, Tuple, Union

from . import diagnose, program as programs
from .errors import NoSuchHdu, shown
from .headers import Name, headers
from .names import bytes_of, links, output
from .program import Outcome
from .results import Drill, Hdu, Made, Report, drill_of, hdu_of, verdict_of

Lengths = Union[str, Sequence[int]]
Box = Union[str, Sequence[Sequence[int]]]
Extension = Union[None, int, str, Tuple[str, int]]


def listed(lengths: Optional[Lengths]) -> Optional[str]:
    """Lengths as the program takes them: `64,64`. Text may also have the form that `fz list` prints, `64x64`."""
    if lengths is None:
        return None
    return lengths.replace("x", ",") if isinstance(lengths, str) else ",".join(map(str, lengths))


def boxed(box: Box) -> str:
    """A box as the program takes it: `41:72,17:48`."""
    return box if isinstance(box, str) else ",".join(":".join(map(str, it)) for it in box)


def numbers(text: Optional[str]) -> Optional[Tuple[int, ...]]:
    """The numbers of a list of lengths, or None if it is none."""
    parts = text.split(",") if text else []
    return tuple(map(int, parts)) if parts and all(it.isascii() and it.isdigit() for it in parts) else None


def options_of(given: Mapping[str, object]) -> Tuple[str, ...]:
    """Options as the program takes them; those that are None or False are left out."""
    return tuple(f"--{name}" if value is True else f"--{name}={value}" for name, value in given.items() if value is not None and value is not False)


def facts_of(given: Mapping[str, Any]) -> Mapping[str, Any]:
    """Those of the options on which advice depends."""
    return {"tile": numbers(given.get("tile")), "workers": given.get("workers") or 1, "hdu": given.get("hdu")}


def called(call: diagnose.Call, words: Sequence[programs.Word], program: Optional[Name], timeout: Optional[float]) -> Outcome:
    """Calls the program, and raises its error if it has one."""
    outcome = programs.run(words, program=program, timeout=timeout)
    error = diagnose.error_of(outcome, call)
    if error is not None:
        raise error
    return outcome


def made(command: str, path: Name, out: Name, given: Mapping[str, object], program: Optional[Name], timeout: Optional[float]) -> Made:
    """A command that makes OUT of IN."""
    source = bytes_of(path)
    with output(out) as file, links() as second:
        call = diagnose.Call(command, path, file, **facts_of(given))
        words: List[programs.Word] = [command, *options_of(given), "--", second.to(source), os.path.join(second.to(file.folder), os.path.basename(file.unfinished))]
        called(call, words, program, timeout)
        size = os.path.getsize(file.unfinished)
        file.finish()
    return Made(shown(out), shown(path), size, os.path.getsize(source))


def pack(
    path: Name,
    out: Name,
    *,
    codec: Optional[str] = None,
    tile: Optional[Lengths] = None,
    block: Optional[int] = None,
    sums: bool = False,
    workers: Optional[int] = None,
    memory: Optional[int] = None,
    program: Optional[Name] = None,
    timeout: Optional[float] = None,
) -> Made:
    """Packs the integer images of `path` into the new file `out`; all other HDUs are copied.

    `codec` is rice (the default), plio or none; `tile` the lengths of a tile along the first axes (the default is a row);
    `block` the pixels of a block of a Rice code; `sums` adds DATASUM and CHECKSUM, so that `verify` can notice any damage.
    """
    given = {"codec": codec, "tile": listed(tile), "block": block, "sums": sums, "workers": workers, "memory": memory}
    return made("pack", path, out, given, program, timeout)


def unpack(
    path: Name,
    out: Name,
    *,
    workers: Optional[int] = None,
    memory: Optional[int] = None,
    program: Optional[Name] = None,
    timeout: Optional[float] = None,
) -> Made:
    """Restores the file that `path` was packed from as the new file `out`, byte for byte. Checksums are not looked at."""
    return made("unpack", path, out, {"workers": workers, "memory": memory}, program, timeout)


def retile(
    path: Name,
    out: Name,
    *,
    codec: Optional[str] = None,
    tile: Optional[Lengths] = None,
    block: Optional[int] = None,
    sums: bool = False,
    workers: Optional[int] = None,
    memory: Optional[int] = None,
    program: Optional[Name] = None,
    timeout: Optional[float] = None,
) -> Made:
    """Packs the packed file `path` anew with these options as `out`, without a plain file between.

    Raises `Usage` if the program has no command retile.
    """
    given = {"codec": codec, "tile": listed(tile), "block": block, "sums": sums, "workers": workers, "memory": memory}
    return made("retile", path, out, given, program, timeout)


def cut(
    path: Name,
    out: Name,
    box: Box,
    *,
    hdu: Extension = None,
    workers: Optional[int] = None,
    memory: Optional[int] = None,
    program: Optional[Name] = None,
    timeout: Optional[float] = None,
) -> Made:
    """Cuts a box out of a packed image of `path` as the new file `out` with one primary image.

    `box` is text, `"41:72,17:48:2"`, or a sequence of (first, last) or (first, last, step) for each axis, axis 1 first, counted
    from 1, with both ends inside. `hdu` is the number of the HDU, its EXTNAME, or (EXTNAME, EXTVER); without it the first packed
    image is taken. Along an axis with a step the world coordinates of the cutout are wrong (see `man fz`).
    """
    given = {"hdu": number_of(path, hdu), "box": boxed(box), "workers": workers, "memory": memory}
    return made("cut", path, out, given, program, timeout)


def number_of(path: Name, extension: Extension) -> Optional[int]:
    """The number of an HDU that is named by number, EXTNAME or (EXTNAME, EXTVER); only headers are read.

    Raises `NoSuchHdu` if the file has none of that name. Names are compared without regard to case. A name without a version
    means the first HDU of that name; PRIMARY also means the packed table that stands for the primary image.
    """
    if extension is None or isinstance(extension, int):
        return extension
    name, version = (extension, None) if isinstance(extension, str) else extension
    wanted = name.strip().upper()
    names = []
    try:
        for it in headers(path):
            names.append(it.name)
            is_primary = wanted == "PRIMARY" and not it.name and it.value("ZSIMPLE") is True
            if (it.name.upper() == wanted and wanted or is_primary) and version in (None, it.version):
                return it.number
    except OSError:
        raise diagnose.read_fault(diagnose.Call("cut", path), {"path": path, "command": "cut"}) from None
    asked = name if version is None else f"{name},{version}"
    raise NoSuchHdu(asked, [it for it in names if it], path=path, command="cut")


def verify(
    path: Name,
    *,
    strict: bool = False,
    memory: Optional[int] = None,
    program: Optional[Name] = None,
    timeout: Optional[float] = None,
) -> Report:
    """Decodes every tile of `path`, plain or packed, and compares its checksums.

    A wrong checksum is no error: look at `Report.is_right`. `strict` also asks whether the file is byte for byte what `pack`
    writes; it raises `Usage` if the program does not have that option.
    """
    with links() as second:
        words: List[programs.Word] = ["verify", *options_of({"strict": strict, "memory": memory}), "--", second.to(bytes_of(path))]
        outcome = called(diagnose.Call("verify", path), words, program, timeout)
    verdicts = tuple(it for it in map(verdict_of, outcome.lines) if it)
    return Report(shown(path), verdicts, {"strict yes": True, "strict no": False}.get(outcome.line))


def hdus(path: Name, program: Optional[Name], timeout: Optional[float]) -> Iterator[Hdu]:
    """The lines of `fz list`, with EXTNAME and EXTVER from the headers."""
    with links() as second:
        outcome = called(diagnose.Call("list", path), ["list", "--", second.to(bytes_of(path))], program, timeout)
    named = {it.number: it for it in headers(path)}
    for it in filter(None, map(hdu_of, outcome.lines)):
        header = named.get(it.number)
        yield it if header is None else dataclasses.replace(it, name=header.name, version=header.version)


def list(path: Name, *, program: Optional[Name] = None, timeout: Optional[float] = None) -> Tuple[Hdu, ...]:  # pylint: disable=redefined-builtin
    """The HDUs of a file by their headers; no data are read."""
    return tuple(hdus(path, program, timeout))


def drill(rows: int, *, program: Optional[Name] = None, timeout: Optional[float] = None) -> Tuple[Drill, ...]:
    """Lets the program pack, unpack and cut an image of so many rows in memory with each codec; no file is touched."""
    outcome = called(diagnose.Call("drill"), ["drill", "--", str(rows)], program, timeout)
    return tuple(it for it in map(drill_of, outcome.lines) if it)


def patch(
    path: Name,
    patch: Name,
    at: Lengths,
    *,
    hdu: Extension = None,
    memory: Optional[int] = None,
    program: Optional[Name] = None,
    timeout: Optional[float] = None,
) -> None:
    """Puts the pixels of the primary image of `patch` into a packed image of `path`, in place.

    `at` is the place of its first pixel, axis 1 first, counted from 1. Raises `Usage` if the program has no command patch. This is
    the one function that changes a file: verify `path` before, since a checksum that was wrong is replaced.
    """
    number = number_of(path, hdu)
    given = {"hdu": number, "at": listed(at), "memory": memory}
    with links() as second:
        words: List[programs.Word] = ["patch", *options_of(given), "--", second.to(bytes_of(patch)), second.to(bytes_of(path))]
        called(diagnose.Call("patch", path, hdu=number, patch=patch), words, program, timeout)
