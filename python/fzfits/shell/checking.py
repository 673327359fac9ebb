"""`fzfits verify`: every HDU of every file, past those that `fz` does not decode."""
from __future__ import annotations

import argparse
from typing import List, Sequence

from .. import commands
from ..checks import Checked, check
from ..errors import shown
from . import told


def line_of(it: Checked) -> str:
    """What was found of one HDU."""
    wrong = [name for name, verdict in it.sums.items() if verdict == "wrong"]
    right = [name for name, verdict in it.sums.items() if verdict == "ok"]
    said: List[str] = []
    if it.fault:
        said.append(f"FAULT: {it.fault}")
    if wrong:
        said.append(f"WRONG: {', '.join(wrong)}")
    if it.undecoded:
        said.append(f"not decoded: {it.undecoded}")
    if it.tiles is not None:
        said.append(f"{it.tiles} tile{'' if it.tiles == 1 else 's'} decoded")
    said.append(f"ok: {', '.join(right)}" if right else "no checksum" if not wrong else "")
    return f"    HDU {it.hdu}{f' ({it.name})' if it.name else ''}: {'; '.join(filter(None, said))}"


def verdict_of(found: Sequence[Checked]) -> str:
    """The verdict on a file."""
    if not all(it.is_right for it in found):
        return "WRONG"
    tiles = sum(it.tiles or 0 for it in found)
    passed = sum(bool(it.undecoded) for it in found)
    said = f"ok, {len(found)} HDU{'' if len(found) == 1 else 's'}, {tiles} tile{'' if tiles == 1 else 's'} decoded"
    said += f", {passed} HDU{'' if passed == 1 else 's'} not decoded" if passed else ""
    if not any("ok" in it.sums.values() for it in found):
        said += "; no checksums, so damage that still decodes is not noticed"
    return said


def verify_file(path: str, asked: argparse.Namespace) -> int:
    """Verifies one file."""
    found = check(path, images=not asked.no_images)
    right = all(it.is_right for it in found)
    if not (asked.quiet and right):
        print(f"{shown(path)}: {verdict_of(found)}")
        for it in found:
            if asked.verbose or not it.is_right or it.undecoded:
                print(line_of(it))
        if any(it.fault for it in found):
            print(f"    fzfits why {told.name(path)} says what to do")
    if asked.strict and right:
        strict = commands.verify(path, strict=True).strict
        print(f"    strict: {'yes, it is what fz pack writes' if strict else 'no, something else wrote or changed it'}")
        return 0 if strict else 1
    return 0 if right else 1
