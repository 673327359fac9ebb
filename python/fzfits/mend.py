"""Mends what keeps a file from being taken and can be mended without a guess: each fault only if it is asked for, into another file."""
from __future__ import annotations

import os
import re
from dataclasses import dataclass, field
from typing import IO, FrozenSet, Iterator, List, Optional, Tuple

from . import commands, sums
from .advice import counted
from .checks import sums_of
from .errors import Unexpected, Usage, shown
from .headers import BLOCK, CARD, END, Header, Name, headers
from .names import bytes_of, output, write_fault

PIECE = 1 << 20
TEXT = re.compile(rb"(.{8}= ) *'(?:[^']|'')*'(.*)", re.DOTALL)
OPTIONS = ("header_fill", "data_fill", "pad", "trailing", "part_hdu", "zsimple")


@dataclass(frozen=True)
class Change:
    """One thing that was changed: the HDU, the option that asked for it, and what was done."""

    hdu: int
    option: str
    what: str

    def __str__(self) -> str:
        return f"HDU {self.hdu}: {self.what}"


@dataclass(frozen=True)
class Mended:
    """What `mend` changed. Without a change no file is made, and it counts as false.

    `stale` are the changed HDUs that have DATASUM or CHECKSUM, which were not made anew (`sums`).
    """

    path: str
    source: str
    changes: Tuple[Change, ...] = ()
    stale: Tuple[int, ...] = ()

    def __bool__(self) -> bool:
        return bool(self.changes)


@dataclass
class Plan:
    """One HDU as it will be: its header, the bytes of its data that stay, and zeros after them."""

    header: Header
    raw: bytes
    kept: int
    zeros: int
    changes: List[Change] = field(default_factory=list)

    def changed(self, option: str, what: str) -> None:
        """Notes a change."""
        self.changes.append(Change(self.header.number, option, what))


def wanted_of(length: int, header: Header, asked: FrozenSet[str], file: IO[bytes]) -> Plan:
    """How an HDU that begins in the file is to be."""
    there = min(length, header.end) - header.data
    plan = Plan(header, header.raw, there, 0)
    if "zsimple" in asked and header.is_packed and header.card("ZSIMPLE") and header.card("ZTENSION"):
        plan.raw = without(plan.raw, "ZSIMPLE")
        plan.changed("zsimple", "ZSIMPLE beside ZTENSION removed")
    if "header_fill" in asked:
        end = next(at for at in range(0, len(plan.raw), CARD) if plan.raw[at : at + 8] == END) + 3
        if plan.raw[end:].strip(b" "):
            plan.raw = plan.raw[:end].ljust(len(plan.raw), b" ")
            plan.changed("header_fill", "padding of the header made blanks")
    if "data_fill" in asked and there > header.size:
        file.seek(header.data + header.size)
        found = file.read(there - header.size)
        if found.strip(b"\0"):
            plan.kept, plan.zeros = header.size, len(found)
            plan.changed("data_fill", f"{counted(sum(1 for it in found if it))} of the padding of the data made zero")
    if "pad" in asked and header.size <= there < header.end - header.data:
        plan.zeros += header.end - header.data - there
        plan.changed("pad", f"{counted(header.end - header.data - there)} of zeros added to fill the last block")
    return plan


def without(raw: bytes, keyword: str) -> bytes:
    """A header without the first card of this keyword; a block that is then not needed any more goes too."""
    cards = [raw[at : at + CARD] for at in range(0, len(raw), CARD)]
    del cards[next(at for at, it in enumerate(cards) if it[:8] == keyword.ljust(8).encode())]
    end = next(at for at, it in enumerate(cards) if it[:8] == END)
    blocks = -(-(end + 1) * CARD // BLOCK)
    return b"".join(cards)[: blocks * BLOCK].ljust(blocks * BLOCK, b" ")


def plans_of(file: IO[bytes], path: Name, length: int, asked: FrozenSet[str]) -> List[Plan]:
    """The HDUs of the file as they will be, and among their changes what is cut off the end."""
    plans = [wanted_of(length, it, asked, file) for it in headers(path)]
    if not plans:
        return plans
    last = plans[-1]
    whole = last.kept + last.zeros >= last.header.end - last.header.data
    if "part_hdu" in asked and not whole and len(plans) > 1:
        plans.pop()
        plans[-1].changed("part_hdu", f"HDU {last.header.number}, which is not whole, cut off at byte {last.header.start}")
    elif whole and length > last.header.end:
        file.seek(last.header.end)
        option = "part_hdu" if file.read(8) == b"XTENSION" else "trailing"
        if option in asked:
            last.changed(option, f"{counted(length - last.header.end)} after it cut off at byte {last.header.end}")
        else:
            plans.append(Plan(Header(len(plans), last.header.end, b"", ()), b"", length - last.header.end, 0))
    return plans


def data_of(file: IO[bytes], plan: Plan) -> Iterator[bytes]:
    """The data of an HDU, in pieces of whole words."""
    file.seek(plan.header.data)
    left = plan.kept
    while left > 0:
        piece = file.read(min(left, PIECE))
        if not piece:
            raise Unexpected(4, ("the file became shorter while it was read",))
        left -= len(piece)
        # The pieces before the last one have whole words, and zeros may follow that one.
        if left == 0:
            piece += bytes(plan.zeros)
        yield piece
    if plan.kept == 0 and plan.zeros:
        yield bytes(plan.zeros)


def with_text(raw: bytes, keyword: str, text: str) -> bytes:
    """A header with another text in the first card of this keyword; its comment stays."""
    for at in range(0, len(raw), CARD):
        found = TEXT.fullmatch(raw[at : at + CARD])
        if found and raw[at : at + 8] == keyword.ljust(8).encode():
            card = found[1] + f"'{text:<8}'".encode() + found[2]
            return raw[:at] + card[:CARD].ljust(CARD, b" ") + raw[at + CARD :]
    return raw


def summed(file: IO[bytes], plan: Plan) -> bytes:
    """The header of a changed HDU with DATASUM and CHECKSUM made anew, if it has them."""
    of_data = sums.sum_of(data_of(file, plan))
    raw = with_text(plan.raw, "DATASUM", str(of_data))
    if plan.header.card("CHECKSUM") is None:
        return raw
    raw = with_text(raw, "CHECKSUM", "0" * 16)
    return with_text(raw, "CHECKSUM", sums.text_of(sums.added(of_data, raw)))


def in_bytes(plan: Plan) -> bool:
    """Whether the bytes of the HDU itself change, and not only what follows it."""
    return any(it.option not in ("trailing", "part_hdu") for it in plan.changes)


def mend_sums(file: IO[bytes], path: Name, plans: List[Plan]) -> None:
    """Notes the HDUs that stay as they are but for a wrong checksum, and gives them a right one. Raises `Usage` if a card has no room for it."""
    for it in plans:
        if in_bytes(it) or not it.raw or it.kept + it.zeros != it.header.end - it.header.data:
            continue
        datasum, checksum = sums_of(path, it.header)
        if "wrong" not in (datasum, checksum):
            continue
        it.raw = summed(file, it)
        of_data = sums.sum_of(data_of(file, it))
        if checksum != "none" and sums.added(of_data, it.raw) != 0xFFFFFFFF:
            raise Usage(f"the checksum cards of HDU {it.header.number} have no room for right values", path=path)
        if datasum == "wrong":
            it.changed("sums", f"checksums made anew, though its data are not those that DATASUM was made of (it was {it.header.value('DATASUM')}, and is {of_data})")
        else:
            it.changed("sums", "CHECKSUM made anew; " + ("its data are as DATASUM says" if datasum == "ok" else "there is no DATASUM"))


def mend(
    path: Name,
    out: Name,
    *,
    header_fill: bool = False,
    data_fill: bool = False,
    pad: bool = False,
    trailing: bool = False,
    part_hdu: bool = False,
    zsimple: bool = False,
    sums: bool = False,  # pylint: disable=redefined-outer-name
    program: Optional[Name] = None,
) -> Mended:
    """Writes `path` anew as `out`, with the faults that are asked for mended. `path` is not changed.

    - `header_fill` makes what follows END in a header blanks (6 HeaderFill).
    - `data_fill` makes what follows the data in their last block zeros, such as blanks that were put there (7 DataFill).
    - `pad` adds the zeros that the last block lacks, if nothing else is missing (2 Truncated).
    - `trailing` cuts the file at the byte that 8 TrailingBytes names.
    - `part_hdu` cuts off the last HDU if it is not whole (2 Truncated); what is there of it is lost.
    - `zsimple` removes ZSIMPLE where ZTENSION says that the packed image is an extension (5 Duplicate).
    - `sums` makes DATASUM and CHECKSUM anew, if they are there, of the HDUs that the other options change and of those in which one
      is wrong. Verify the file before: damage in such an HDU is not noticed any more.

    What was changed is in the result. If there is nothing to change, no file is made. A file in which no header can be followed is
    `Refused`, as by `list`.
    """
    given = (header_fill, data_fill, pad, trailing, part_hdu, zsimple)
    asked = frozenset(name for name, value in zip(OPTIONS, given) if value)
    source = bytes_of(path)
    try:
        file = open(source, "rb")  # pylint: disable=consider-using-with
    except OSError:
        commands.list(path, program=program)  # which says why
        raise
    with file:
        plans = plans_of(file, source, os.fstat(file.fileno()).st_size, asked)
        if not plans:
            commands.list(path, program=program)
        if sums:
            mend_sums(file, source, plans)
        changes = tuple(change for plan in plans for change in plan.changes)
        if changes:
            write(file, plans, out, sums)
    has_sums = (it.header.number for it in plans if in_bytes(it) and (it.header.card("DATASUM") or it.header.card("CHECKSUM")))
    return Mended(shown(out), shown(path), changes, () if sums else tuple(has_sums))


def write(file: IO[bytes], plans: List[Plan], out: Name, anew: bool) -> None:
    """Writes the HDUs as they will be."""
    with output(out) as made:
        try:
            with open(made.unfinished, "xb") as target:
                for it in plans:
                    target.write(summed(file, it) if anew and in_bytes(it) else it.raw)
                    for piece in data_of(file, it):
                        target.write(piece)
                target.flush()
                os.fsync(target.fileno())
        except OSError as error:
            raise write_fault(out, error.errno or 0) from error
        made.finish()
