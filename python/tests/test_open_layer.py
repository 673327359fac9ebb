"""The layers of fzfits.open: the structs of the one over the library are those of fz.h, and both say the same of the same headers and rows."""
import ctypes
import random
import re
import unittest
from pathlib import Path

from support import TOP, InAFolder, needs_library, needs_program, refused_files
from making import damage
from making.fits import hdus_of

import fzfits
from fzfits import library
from fzfits.opening import by_library, by_python, plans
from fzfits.opening.faults import Fault

HEADER = (TOP / "include" / "fz.h").read_text(encoding="utf-8")
NAMES = {"uint32_t": ctypes.c_uint32, "uint64_t": ctypes.c_uint64, "int32_t": ctypes.c_int32}
STRUCTS = {"fz_at": by_library.FzAt, "fz_hdu": by_library.FzHdu, "fz_fault": by_library.FzFault, "fz_arrays": by_library.FzArrays, "fz_plan": by_library.FzPlan, "fz_record": by_library.FzRecord}
CALLS = len(by_library.CALLS)
try:
    OVER_LIBRARY = by_library.ByLibrary(library.load())
except (AttributeError, fzfits.errors.NoLibrary):
    OVER_LIBRARY = None
FILES = 300


def fields_of(text):
    """The fields of a struct of C, as ctypes has them."""
    found = []
    for kind, name, many in re.findall(r"^ *(?:struct )?(\w+) (\w+)(?:\[(\d+)\])?;", text, re.M):
        one = NAMES.get(kind) or STRUCTS[kind]
        found.append((name, one * int(many) if many else one))
    return found


@unittest.skipUnless("fz_plan(" in HEADER, "include/fz.h has no calls for packed images")
class Structs(unittest.TestCase):
    def test_structs_are_those_of_the_header(self):
        for name, struct in STRUCTS.items():
            text = re.search(rf"^struct {name} \{{(.*?)^\}};", HEADER, re.M | re.S)[1]
            self.assertEqual([(it, kind._type_ if hasattr(kind, "_length_") else kind) for it, kind in fields_of(text)], [(it, kind._type_ if hasattr(kind, "_length_") else kind) for it, kind in struct._fields_])
            self.assertEqual(ctypes.sizeof(struct), ctypes.sizeof(type(name, (ctypes.Structure,), {"_fields_": fields_of(text)})))

    def test_calls_have_the_arguments_of_the_header(self):
        for name, arguments in by_library.CALLS.items():
            words = re.search(rf"^int32_t {name}\((.*?)\);", HEADER, re.M | re.S)[1].split(",")
            self.assertEqual(len(words), len(arguments), name)
            for word, kind in zip(words, arguments):
                self.assertEqual("*" in word, kind not in (ctypes.c_uint32, ctypes.c_size_t), f"{name}: {word}")


class Constants(unittest.TestCase):
    def test_sorts_and_calls(self):
        self.assertEqual((len(plans.SORTS), CALLS), (4, 5))


def told(layer, file, hdu):
    """What a layer says of an HDU of a file: what its header says, its plan and where its tiles are, or its fault."""
    found, at = [], plans.At(0, len(file), 0)
    try:
        while True:
            front = file[at.start : at.start + 2880]
            more = layer.more(front, at)
            while more:
                front = file[at.start : at.start + len(front) + more]
                more = layer.more(front, at)
            said = layer.said(front, at)
            found.append((said.header_len, said.data_at, said.data_len, said.next_at, said.sort, said.is_packed, said.bitpix, said.lengths))
            if at.hdu == hdu or said.next_at == at.length:
                break
            at = plans.At(said.next_at, at.length, at.hdu + 1, at.hdu == 0 and not said.lengths)
        plan = layer.plan(front, at, said)
        found.append([getattr(plan, it) for it in plan.__dataclass_fields__ if it != "own"])
        tiles = list(range(min(plan.rows, 40)))
        pixels = [pixels_of(plan, it) for it in tiles]
        records, fault = layer.records(plan, tiles, pixels, file[plan.rows_at : plan.rows_at + plan.rows * plan.row_bytes], 0)
        found += [tuple(it[:4]) for it in records] + ([(fault.kind, fault.unit, fault.place)] if fault else [])
    except Fault as fault:
        found.append((fault.kind, fault.unit, fault.place))
    return found


def pixels_of(plan, tile):
    """How many pixels a tile has."""
    many = 1
    for length, it in zip(plan.lengths, plan.tile):
        tile, at = divmod(tile, -(-length // it))
        many *= min(it, length - at * it)
    return many


@needs_program
@needs_library
@unittest.skipUnless(OVER_LIBRARY, "this libfz has no calls for packed images")
class Bodies(InAFolder):
    def test_both_say_the_same(self):
        rng = random.Random(8)
        files = [it.read_bytes() for it in refused_files(self.folder).values()]
        fzfits.pack(TOP / "samples" / "several.fits", "several.fits", tile=(9, 7))
        files += [Path("several.fits").read_bytes()] * 20
        python, refused = by_python.ByPython(), 0
        for number in range(FILES):
            file = files[number] if number < len(files) else rng.choice(files)
            for _ in range(0 if number < len(files) else rng.choice((1, 1, 2))):
                hdus = list(hdus_of(file))
                if hdus:
                    change = rng.choice((damage.change_cards, damage.change_image_card, damage.change_header_byte, damage.change_descriptor, damage.cut_file))
                    file = change(rng, file, rng.choice(hdus))[0]
            hdu = rng.choice((0, 1, 1, 2, 3))
            with self.subTest(number=number, hdu=hdu):
                said = told(python, file, hdu)
                self.assertEqual(said, told(OVER_LIBRARY, file, hdu))
            refused += isinstance(said[-1], tuple) and len(said[-1]) == 3
        self.assertGreater(refused, FILES // 4)


if __name__ == "__main__":
    unittest.main()
