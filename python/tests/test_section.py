"""Parts of images: the box of a key, and the pixels beside those that numpy, astropy and imcopy find in the plain file."""
import os
import random
import shutil
import subprocess
import unittest
from pathlib import Path

from support import SAMPLES, InAFolder, fits, needs_astropy, needs_numpy, needs_program, np
from making.fits import card
from making.plain import Image, image_hdu

import fzfits
from fzfits import boxes


def parts(pieces):
    return [(it.first, it.last, it.step, it.count, it.back, it.drop) for it in pieces]


class Boxes(unittest.TestCase):
    def test_keys_of_numpy(self):
        s = slice
        for key, wanted in (
            ((s(100, 200), s(None, None, 4)), [(1, 1997, 4, 500, False, False), (101, 200, 1, 100, False, False)]),
            (..., [(1, 2000, 1, 2000, False, False), (1, 300, 1, 300, False, False)]),
            (7, [(1, 2000, 1, 2000, False, False), (8, 8, 1, 1, False, True)]),
            ((..., -1), [(2000, 2000, 1, 1, False, True), (1, 300, 1, 300, False, False)]),
            ((s(-3, None), s(5, 1, -2)), [(4, 6, 2, 2, True, False), (298, 300, 1, 3, False, False)]),
            ((s(0, 9, 50), s(10, 5)), [(1, 0, 1, 0, False, False), (1, 1, 1, 1, False, False)]),
        ):
            with self.subTest(key=key):
                self.assertEqual(parts(boxes.of_numpy(key, (2000, 300))), wanted)

    def test_keys_that_are_none(self):
        for key, error in (((1, 2, 3), IndexError), (300, IndexError), ((..., ...), IndexError), (None, TypeError), ([1, 2], TypeError), (True, TypeError), ("SCI", TypeError), (1.5, TypeError)):
            with self.subTest(key=key), self.assertRaises(error):
                boxes.of_numpy(key, (2000, 300))

    def test_names_of_cfitsio(self):
        for name, wanted in (
            ("f.fz[SCI][1:100,*]", ("f.fz", "SCI", "1:100,*")),
            ("f.fz[SCI,2]", ("f.fz", "SCI,2", "")),
            ("a[1]/f.fz[3][-*, 2:3]", ("a[1]/f.fz", "3", "-*, 2:3")),
            ("f.fz[*,*]", ("f.fz", "", "*,*")),
            ("f.fz", ("f.fz", "", "")),
        ):
            self.assertEqual(boxes.split(name), wanted)

    def test_sections_that_are_none(self):
        for text in ("5,*", "0:3,*", "1:2:0,*", "a:b", "1:2,", "1-2"):
            with self.subTest(text=text), self.assertRaises(ValueError):
                boxes.of_cfitsio(text, (64, 8))
        with self.assertRaises(IndexError):
            boxes.of_cfitsio("*,*,*", (64, 8))


@needs_program
@needs_numpy
class Pixels(InAFolder):
    def image(self, bits, axes, cards=(), seed=1):
        """A packed image with noise in it, and the array that it has."""
        rng, count = random.Random(seed), int(np.prod(axes))
        low, high = (0, 255) if bits == 8 else (-(1 << min(bits - 1, 40)), (1 << min(bits - 1, 40)) - 1)
        pixels = [rng.choice((0, it % 11, rng.randint(low, high))) for it in range(count)]
        Path("plain").write_bytes(image_hdu(Image(bits, list(axes), pixels), True, list(cards)))
        fzfits.pack("plain", "packed", tile=(5, 3))
        return np.array(pixels).reshape(axes[::-1])

    def test_keys_give_what_numpy_gives(self):
        rng = random.Random(2)
        for bits, kind, axes in ((8, "u1", (13, 9)), (16, "i2", (7, 6, 5)), (32, "i4", (20,)), (64, "i8", (8, 4))):
            whole = self.image(bits, axes)
            for _ in range(4):
                key = tuple(self.index(rng, length) for length in whole.shape)[: rng.randint(1, len(axes))]
                with self.subTest(bits=bits, key=key):
                    found = fzfits.section("packed", None, key)
                    self.assertEqual((found.dtype, found.shape), (np.dtype(kind), whole[key].shape))
                    self.assertTrue(np.array_equal(found, whole[key]))
            os.unlink("packed")

    def index(self, rng, length):
        """An index of numpy, of any kind."""
        low, high = rng.randint(-length - 2, length + 2), rng.randint(-length - 2, length + 2)
        return rng.choice((slice(None), slice(low, high), slice(low, high, rng.choice((2, 3, -1, -2))), rng.randrange(-length, length), slice(None, None, -3)))

    def test_numbers_that_the_stored_ones_stand_for(self):
        for bits, cards, kind, wanted in (
            (16, [card("BZERO", 32768)], "u2", lambda it: it + 32768),
            (8, [card("BZERO", -128), card("BSCALE", 1)], "i1", lambda it: it - 128),
            (32, [card("BZERO", 2147483648)], "u4", lambda it: it + 2147483648),
            (16, [], "i2", lambda it: it),
            (16, [card("BZERO", 100), card("BSCALE", 2)], "f4", lambda it: 100.0 + 2.0 * it),
            (32, [card("BZERO", 100), card("BSCALE", 2)], "f8", lambda it: 100.0 + 2.0 * it),
            (16, [card("BLANK", 0)], "f4", lambda it: np.where(it == 0, np.nan, it.astype("f8"))),
            (16, [card("BZERO", 32768), card("BLANK", 0)], "u2", lambda it: it + 32768),
        ):
            with self.subTest(bits=bits, kind=kind, cards=cards):
                whole = self.image(bits, (6, 4), cards)
                found = fzfits.section("packed", 1, np.s_[1:3])
                self.assertEqual(found.dtype, np.dtype(kind))
                self.assertTrue(np.array_equal(found.astype("f8"), wanted(whole[1:3]).astype("f8"), equal_nan=True))
                self.assertEqual(fzfits.section("packed", 1, np.s_[1:1]).dtype, np.dtype(kind))
                self.assertTrue(np.array_equal(fzfits.section("plain", 0, np.s_[1:3]), found, equal_nan=found.dtype.kind == "f"))
                raw = fzfits.section("packed", 1, np.s_[1:3], raw=True)
                self.assertEqual(raw.dtype, np.dtype("u1" if bits == 8 else f"i{bits // 8}"))
                self.assertTrue(np.array_equal(raw, whole[1:3]))
                os.unlink("packed")

    def test_what_is_no_part(self):
        self.image(16, (6, 4))
        Path("none").write_bytes(Path("packed").read_bytes()[:2880])
        for name, extension, error in (("none", None, "NotPacked"), ("packed", 7, "NotPacked"), ("packed", 0, "NotPacked")):
            with self.assertRaises(fzfits.Refused) as caught:
                fzfits.section(name, extension)
            self.assertEqual(caught.exception.kind, error)
        with self.assertRaises(fzfits.NoSuchHdu):
            fzfits.section("packed", "SCI")
        with self.assertRaises(fzfits.ReadFault):
            fzfits.section("missing", None)
        with self.assertRaises(fzfits.Refused) as caught:
            fzfits.section_cfitsio("packed[1:7,*]")
        self.assertEqual(caught.exception.kind, "OutOfBox")

    @unittest.skipUnless(shutil.which("imcopy"), "imcopy is not installed")
    def test_sections_give_what_imcopy_gives(self):
        self.image(16, (16, 8))
        for text in ("[2:11,*]", "[10:1:3,*]", "[-*:2,5:5]", "[1:8:3,8:1]", "[10:2:3,*]", "[1:1,-*:3]", "[*]"):
            with self.subTest(text=text):
                subprocess.run(["imcopy", f"packed{text}", "out"], check=True, capture_output=True)
                raw, found = Path("out").read_bytes(), fzfits.section_cfitsio(f"packed{text}")
                self.assertEqual(raw[2880 : 2880 + found.nbytes], found.astype(">i2").tobytes())
                os.unlink("out")

    @needs_astropy
    def test_hdus(self):
        whole = self.image(16, (16, 8), [card("BZERO", 32768), card("CRPIX1", 5)])
        found = fzfits.section("packed", "PRIMARY", np.s_[2, 3:9], as_hdu=True)
        self.assertEqual((found.header["NAXIS1"], found.header["NAXIS2"], found.header["CRPIX1"]), (6, 1, 2))
        self.assertTrue(np.array_equal(found.data, whole[2:3, 3:9] + 32768))
        self.assertEqual(found.data.dtype, np.dtype("u2"))
        for key in (np.s_[::-1], np.s_[3:3]):
            with self.assertRaises(ValueError):
                fzfits.section("packed", None, key, as_hdu=True)

    @needs_astropy
    def test_names_of_hdus_and_astropy(self):
        fzfits.pack(SAMPLES / "several.fits", "several")
        for raw in (False, True):
            with fits.open(SAMPLES / "several.fits", do_not_scale_image_data=raw) as file:
                for it in file:
                    if it.is_image and it.data is not None:
                        part = fzfits.section("several", it.name, np.s_[3:20, ::5], raw=raw)
                        self.assertTrue(np.array_equal(part, it.data[3:20, ::5]))
                        self.assertEqual(part.dtype, it.data.dtype.newbyteorder("="))


class Missing(InAFolder):
    @unittest.skipIf(np, "numpy is installed")
    def test_without_numpy_the_error_says_so(self):
        with self.assertRaisesRegex(ImportError, "needs numpy"):
            fzfits.section("any", None)

    @unittest.skipIf(fits, "astropy is installed")
    def test_without_astropy_the_error_says_so(self):
        with self.assertRaisesRegex(ImportError, "needs astropy"):
            fzfits.section("any", None, as_hdu=True)


if __name__ == "__main__":
    unittest.main()
