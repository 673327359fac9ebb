"""Boxes of packed images by the calls of libfz, beside `fz cut`: what is read for them, their pixels, and the first row that is refused."""
import ctypes
import random
import unittest
import warnings
from pathlib import Path

from support import InAFolder, needs_astropy, needs_library, needs_program, np
from test_open_parts import Packers, bodies, by_cut

import fzfits
from fzfits import arrays, library
from fzfits.opening.by_library import FzPlan, FzRecord

U32, U64, SIZE, POINTER = ctypes.c_uint32, ctypes.c_uint64, ctypes.c_size_t, ctypes.c_void_p
BOXES = 400


class FzBox(ctypes.Structure):
    """`struct fz_box`."""

    _fields_ = [("axes", U32), ("first", U32 * 9), ("last", U32 * 9), ("step", U32 * 9)]


class FzNeeds(ctypes.Structure):
    """`struct fz_needs`."""

    _fields_ = [("rows_at", U64), ("rows_len", U64), ("numbers", U64), ("tiles", U32), ("places", U32)]


CALLS = {
    "fz_box_needs": [ctypes.POINTER(FzPlan), ctypes.POINTER(FzBox), ctypes.POINTER(FzNeeds)],
    "fz_box_reads": [ctypes.POINTER(FzPlan), ctypes.POINTER(FzBox), U64, POINTER, SIZE, POINTER, SIZE, ctypes.POINTER(U32)],
    "fz_box": [ctypes.POINTER(FzPlan), ctypes.POINTER(FzBox), U64, POINTER, SIZE, U64, POINTER, SIZE, POINTER, SIZE, POINTER, SIZE, ctypes.POINTER(U32)],
}


def has_boxes():
    """Whether the libfz that is found has these calls."""
    return bool(bodies().get("library")) and all(hasattr(library.load(), it) for it in CALLS)


def ranges_of(rng, axes):
    """A first pixel, a last one and a step for each axis, from 0."""
    found = []
    for length in axes:
        first = rng.randrange(length)
        found.append((first, rng.randrange(first, length), rng.choice((1, 1, 1, 2, 3, 7, 40))))
    return found


class Reader:
    """Boxes of one packed image, whose file is in memory. Only what the library asks for is shown to it."""

    def __init__(self, plan, data):
        self.plan, self.data = plan, data
        self.calls = {}
        for name, arguments in CALLS.items():
            call = getattr(library.load(), name)
            call.argtypes, call.restype = arguments, ctypes.c_int32
            self.calls[name] = call

    def read(self, ranges):
        """The numbers of a box, axis 1 fastest; or the number of the kind and the row that is refused."""
        needs, tile, axes = FzNeeds(), U32(), len(ranges)
        box = FzBox(axes, *((U32 * 9)(*it) for it in zip(*ranges)))
        assert self.calls["fz_box_needs"](self.plan, box, needs) == 0
        rows = self.data[needs.rows_at : needs.rows_at + needs.rows_len]
        reads = (FzRecord * needs.tiles)()
        answer = self.calls["fz_box_reads"](self.plan, box, needs.rows_at, rows, len(rows), reads, len(reads), tile)
        known = [it for it in reads if it.read]
        at = min((it.start for it in known), default=0)
        codes = bytearray(max((it.start + it.read for it in known), default=0) - at)
        for it in known:
            codes[it.start - at : it.start - at + it.read] = self.data[it.start : it.start + it.read]
        stop = (-answer, tile.value) if answer else None
        out, numbers = np.empty(needs.numbers, "i4"), np.empty(needs.places, "i4")
        answer = self.calls["fz_box"](self.plan, box, needs.rows_at, rows, len(rows), at, bytes(codes), len(codes), numbers.ctypes.data, len(numbers), out.ctypes.data, len(out), tile)
        assert answer or stop is None
        if answer:
            assert stop is None or tile.value <= stop[1]
            return -answer, tile.value
        shape = [(last - first) // step + 1 for first, last, step in ranges[::-1]]
        if self.plan.bitpix == 64:
            pairs = out.reshape(-1, 2)
            out = (pairs[:, 0].astype("i8") << 32) | pairs[:, 1].view("u4")
        return out.astype(arrays.STORED[self.plan.bitpix][1:]).reshape(shape)


@needs_program
@needs_astropy
@needs_library
@unittest.skipUnless(has_boxes(), "this libfz has no calls of boxes")
class Boxes(InAFolder):
    def readers(self, rng):
        """The files of each packer, with the plan and the axes of the image."""
        with warnings.catch_warnings():
            warnings.simplefilter("ignore")
            files = list(Packers(rng).files())
        for path, hdu in files:
            with fzfits.open(path) as file:
                yield path, hdu, file[hdu].pixels.plan.own, file[hdu].axes

    def wanted(self, path, hdu, ranges, axes):
        """What `fz cut` gives for a box, as `Reader.read` does."""
        found = by_cut(path, hdu, tuple(slice(first, last + 1, step) for first, last, step in ranges[::-1]), axes)
        return (found[1], int(found[3].split()[-1])) if isinstance(found, tuple) else found

    def test_boxes_are_those_of_cut(self):
        rng = random.Random(1)
        readers = list(self.readers(rng))
        for number in range(BOXES):
            path, hdu, plan, axes = readers[number % len(readers)]
            ranges = ranges_of(rng, axes)
            with self.subTest(path=path, ranges=ranges):
                found = Reader(plan, Path(path).read_bytes()).read(ranges)
                self.assertTrue(np.array_equal(found, self.wanted(path, hdu, ranges, axes)))

    def test_the_first_row_that_is_refused_is_that_of_cut(self):
        rng = random.Random(2)
        refused = 0
        for path, hdu, plan, axes in self.readers(rng):
            whole = Path(path).read_bytes()
            for _ in range(20):
                data = bytearray(whole)
                for _ in range(3):
                    data[rng.choice((rng.randrange(plan.rows_at, plan.heap_at), rng.randrange(plan.heap_at, plan.heap_at + plan.heap_len)))] ^= 1 << rng.randrange(8)
                Path("damaged.fits").write_bytes(data)
                ranges = ranges_of(rng, axes)
                with self.subTest(path=path, ranges=ranges):
                    found, wanted = Reader(plan, bytes(data)).read(ranges), self.wanted("damaged.fits", hdu, ranges, axes)
                    self.assertEqual(isinstance(found, tuple), isinstance(wanted, tuple))
                    self.assertTrue(found == wanted if isinstance(found, tuple) else np.array_equal(found, wanted), (found, wanted))
                refused += isinstance(found, tuple)
        self.assertGreater(refused, 20)


if __name__ == "__main__":
    unittest.main()
