"""Arrays into packed files, and back."""
import os
import unittest

from support import PACKED, SAMPLES, InAFolder, fits, needs_astropy, needs_numpy, needs_program, np

import fzfits

KINDS = ("u1", "i1", "i2", "u2", "i4", "u4", "i8", "u8")


@needs_program
@needs_numpy
class Writing(InAFolder):
    def test_all_types_come_back(self):
        for kind in KINDS:
            info = np.iinfo(kind)
            array = np.array([[info.min, info.max, 0], [1, 7, info.max // 2]], kind)
            for order in ("=", ">"):
                made = fzfits.write("a.fz", array.astype(np.dtype(kind).newbyteorder(order)), tile=(2, 2))
                found = fzfits.section(made.path, None)
                self.assertEqual(found.dtype, np.dtype(kind))
                self.assertTrue(np.array_equal(found, array))
                self.assertTrue(fzfits.verify("a.fz").is_right)
                os.unlink("a.fz")

    def test_headers(self):
        fzfits.write("a.fz", np.arange(6, dtype="i2").reshape(2, 3), header={"OBJECT": "M 31's", "exptime": (300.5, "seconds"), "FLAG": True, "BZERO": 5, "NAXIS1": 9, "N": np.int32(4)})
        fzfits.unpack("a.fz", "a")
        header = next(fzfits.headers.headers("a"))
        self.assertEqual([header.value(it) for it in ("OBJECT", "EXPTIME", "FLAG", "BZERO", "NAXIS1", "N")], ["M 31's", 300.5, True, None, 3, 4])
        fzfits.write("b.fz", np.arange(6, dtype="i2"), header=[("BSCALE", 2), ("BZERO", 100, "zero"), ("HISTORY", "made")], raw=True)
        self.assertEqual(list(fzfits.section("b.fz", None)), [100 + 2 * it for it in range(6)])
        for bad in ({"TOO LONG A NAME": 1}, {"A": "x" * 80}, {"A": float("nan")}, {"A": "\u00e9"}):
            with self.assertRaises(ValueError):
                fzfits.write("c.fz", np.arange(6), header=bad)
        self.assertEqual(self.left(), [b"a", b"a.fz", b"b.fz"])

    @needs_astropy
    def test_headers_of_astropy(self):
        with fits.open(SAMPLES / "several.fits") as file:
            sci = file["SCI"]
            fzfits.write("a.fz", sci.data, header=sci.header, tile=(16, 16))
            self.assertTrue(np.array_equal(fzfits.section("a.fz", "SCI"), sci.data))
            fzfits.unpack("a.fz", "a")
            with fits.open("a") as again:
                again.verify("exception")
                self.assertEqual(again[0].data.dtype.newbyteorder("="), sci.data.dtype.newbyteorder("="))
                self.assertTrue(np.array_equal(again[0].data, sci.data))

    def test_what_is_not_written(self):
        for array, error in ((np.zeros(3), TypeError), (np.zeros(3, "?"), TypeError), (np.zeros((0, 3), "i2"), ValueError), (np.int16(3), ValueError), (np.zeros((1,) * 10, "i2"), ValueError)):
            with self.assertRaises(error):
                fzfits.write("a.fz", array)
        with self.assertRaises(TypeError):
            fzfits.write("a.fz", np.zeros(3, "u2"), raw=True)
        fzfits.write("a.fz", np.zeros(3, "i2"))
        with self.assertRaises(fzfits.WriteFault):
            fzfits.write("a.fz", np.zeros(3, "i2"))
        self.assertEqual(self.left(), [b"a.fz"])


@needs_program
@needs_numpy
class Patching(InAFolder):
    def test_arrays_of_all_types(self):
        for kind in KINDS:
            whole = np.arange(48).reshape(6, 8).astype(kind)
            fzfits.write("a.fz", whole, tile=(3, 2))
            part = np.array([[9, 8, np.iinfo(kind).max]], kind)
            fzfits.patch("a.fz", None, (4, 5), part)
            whole[4:5, 5:8] = part
            self.assertTrue(np.array_equal(fzfits.section("a.fz", 1), whole), kind)
            self.assertTrue(fzfits.verify("a.fz").is_right)
            os.unlink("a.fz")

    def test_scaled_images(self):
        fzfits.write("a.fz", np.arange(12, dtype="i2").reshape(3, 4), header={"BSCALE": 0.5, "BZERO": 10, "BLANK": -1}, raw=True)
        fzfits.patch("a.fz", 1, (0, 0), np.array([[12.5, np.nan]]))
        self.assertEqual(list(fzfits.section("a.fz", 1, np.s_[0], raw=True)), [5, -1, 2, 3])
        fzfits.patch("a.fz", 1, (2, 3), np.array([[77]], "i2"), raw=True)
        self.assertEqual(fzfits.section("a.fz", 1, np.s_[2, 3]), 48.5)
        for array in (np.array([[10.3]]), np.array([[1e9]])):
            with self.assertRaises(ValueError):
                fzfits.patch("a.fz", 1, (0, 0), array)

    def test_what_is_not_put_in(self):
        fzfits.write("a.fz", np.arange(12, dtype="u2").reshape(3, 4))
        before = open("a.fz", "rb").read()
        for at, array, error in (((2, 3), np.zeros((1, 2), "u2"), IndexError), ((0,), np.zeros((1, 2), "u2"), ValueError), ((0, 0), np.array([[-1]]), ValueError), ((0, 0), np.array([[0.5]]), TypeError), ((-1, 0), np.zeros((1, 1), "u2"), IndexError)):
            with self.assertRaises(error):
                fzfits.patch("a.fz", None, at, array)
        with self.assertRaises(fzfits.Refused) as caught:
            fzfits.patch("a.fz", 0, (0, 0), np.zeros((1, 1), "u2"))
        self.assertEqual(caught.exception.kind, "NotPacked")
        with self.assertRaises(fzfits.NoSuchHdu):
            fzfits.patch("a.fz", "SCI", (0, 0), np.zeros((1, 1), "u2"))
        self.assertEqual(open("a.fz", "rb").read(), before)

    def test_the_form_with_a_file(self):
        fzfits.retile(PACKED / "grid.2x2.fits", "grid.fz", codec="none", tile=(2, 2))
        fzfits.cut("grid.fz", "part", "1:2,1:1")
        fzfits.patch("grid.fz", "part", (4, 3), hdu=1)
        self.assertEqual(fzfits.section("grid.fz", 1).ravel().tolist(), [*range(1, 14), 1, 2])


if __name__ == "__main__":
    unittest.main()
