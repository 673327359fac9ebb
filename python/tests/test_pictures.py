"""Pictures and charts: which pixels are shown, where they are in the sky, and what others wrote in headers and names."""
from __future__ import annotations

import sys
import unittest
from pathlib import Path
from unittest import mock
from xml.etree import ElementTree

from support import FZ, SAMPLES, InAFolder, fits, imported, needs_program, np

import fzfits
from fzfits import pictures
from fzfits.batch import report, safe
from fzfits.batch.manifest import Row
from fzfits.batch.scan import Found, Left, Scan
from fzfits.batch.survey import Finding, Survey
from fzfits.pictures import NoPicture, charts, drawing, images, page

draws = unittest.skipUnless(np and fits and imported("matplotlib") and imported("astropy.wcs"), "matplotlib or astropy is not installed")
TANGENT = {"CTYPE1": "RA---TAN", "CTYPE2": "DEC--TAN", "CRPIX1": 21.0, "CRPIX2": 11.0, "CRVAL1": 10.68, "CRVAL2": 41.27, "CD1_1": -0.001, "CD1_2": 0.0002, "CD2_1": 0.0002, "CD2_2": 0.001}


def written(name, data, **cards):
    """A FITS file with one image and these cards."""
    header = fits.Header()
    for keyword, value in cards.items():
        header[keyword] = value
    fits.PrimaryHDU(data, header).writeto(name)
    return name


@draws
class Bins(InAFolder):
    def bins(self, name, size, exact=False, box=""):
        header = images.of_file(name)[0]
        part = images.part_of(header, box, size, exact)
        return part, images.bins(name, header, part)

    def test_averages_leave_out_undefined_pixels(self):
        nan = float("nan")
        written("a.fits", np.array([[1, 3, nan, nan, 9], [5, 7, nan, nan, 11], [2, 4, 6, 8, 10]], "f4"))
        part, found = self.bins("a.fits", 2)
        self.assertEqual((part.bin, part.step, part.count), (2, 1, (3, 2)))
        self.assertEqual(np.nan_to_num(found, nan=-1).tolist(), [[4, -1, 10], [3, 7, 10]])

    def test_a_large_image_takes_four_pixels_of_each_bin(self):
        data = np.arange(60 * 40, dtype="i4").reshape(40, 60)
        written("a.fits", data)
        part, found = self.bins("a.fits", 7)
        self.assertEqual((part.bin, part.step, part.count), (8, 4, (8, 5)))
        self.assertEqual(found[1, 2], np.mean([data[y, x] for y in (8, 12) for x in (16, 20)]))
        part, found = self.bins("a.fits", 7, exact=True)
        self.assertEqual((part.bin, part.step), (8, 1))
        self.assertEqual(found[1, 2], data[8:16, 16:24].mean())
        self.assertEqual(found[4, 7], data[32:, 56:].mean())

    def test_strips_make_no_difference(self):
        written("a.fits", np.arange(50 * 30, dtype="i2").reshape(30, 50))
        _, whole = self.bins("a.fits", 5, exact=True)
        with mock.patch.object(images, "STRIP", 100):
            _, strips = self.bins("a.fits", 5, exact=True)
        self.assertEqual(whole.tolist(), strips.tolist())

    @needs_program
    def test_a_packed_image_is_that_of_the_plain_one(self):
        fzfits.pack(SAMPLES / "star_field.fits", "a.fz", tile=(32, 32))
        self.copy(SAMPLES / "star_field.fits", "a.fits")
        for exact in (False, True):
            self.assertEqual(self.bins("a.fz", 20, exact)[1].tolist(), self.bins("a.fits", 20, exact)[1].tolist())
        self.assertEqual(self.bins("a.fz", 20, False, "41:72,17:48")[1].tolist(), self.bins("a.fits", 20, False, "41:72,17:48")[1].tolist())

    def test_boxes(self):
        written("a.fits", np.zeros((5, 60, 100), "i2"))
        part, found = self.bins("a.fits", 5, box="11:20,1:60,4")
        self.assertEqual((part.spans, part.plane, found.shape), (((11, 20), (1, 60)), (4,), (5, 1)))
        for box in ("1:101,1:1", "5:4,1:1", "x", "1:1,1:1,1:1,1:1"):
            with self.assertRaises(NoPicture):
                self.bins("a.fits", 50, box=box)

    def test_an_image_by_its_name(self):
        hdus = [fits.PrimaryHDU(), fits.ImageHDU(np.zeros((3, 4), "i2"), name="SCI"), fits.ImageHDU(np.zeros((5, 4), "f4"), name="ERR")]
        fits.HDUList(hdus).writeto("a.fits")
        self.assertEqual([it.number for it in images.of_file("a.fits")], [1, 2])
        self.assertEqual([it.number for it in images.of_file("a.fits", "ERR")], [2])
        with self.assertRaisesRegex(NoPicture, "images are: 1 SCI, 2 ERR"):
            images.of_file("a.fits", 0)

    @needs_program
    def test_a_file_with_a_fault_is_not_given_to_another_reader(self):
        raw = bytearray((SAMPLES / "packed" / "grid.2x2.fits").read_bytes())
        raw[160:240] = b"NAXIS   =          99999999999".ljust(80)
        Path("a.fz").write_bytes(raw)
        header = fzfits.headers.header_of(SAMPLES / "packed" / "grid.2x2.fits", 1)
        with mock.patch.object(images, "_by_astropy", side_effect=AssertionError), self.assertRaises(fzfits.Refused):
            images.bins("a.fz", header, images.part_of(header, "", 9, False))

    def test_a_header_that_claims_more_than_the_file_has(self):
        raw = "".join(it.ljust(80) for it in ("SIMPLE  = T", "BITPIX  = 16", "NAXIS   = 2", "NAXIS1  = 99999999999", "NAXIS2  = 99999999999", "END"))
        Path("a.fits").write_bytes(raw.ljust(2880).encode())
        with self.assertRaisesRegex(NoPicture, "ends before its data"):
            images.of_file("a.fits")


@draws
class Drawn(InAFolder):
    def test_bins_are_where_their_pixels_are(self):
        header = images.of_file(written("a.fits", np.zeros((40, 60), "i2"), **TANGENT))[0]
        part = images.part_of(header, "5:60,3:40", 10, True)
        found, why = drawing.wcs_of(header, part)
        self.assertEqual((part.bin, part.count, why), (5, (12, 8), ""))
        # the middle of pixel (21, 11), which astropy counts from 0, is where CRVALi says
        for it, wanted in zip(found.pixel_to_world_values(20, 10), (10.68, 41.27)):
            self.assertAlmostEqual(float(it), wanted, 9)
        # the first bin has pixels 5 to 9, which astropy counts as 4 to 8; it begins half a pixel before the first
        left, right, bottom, top = drawing.extent_of(part, 0)
        self.assertEqual((left, (right - left) / 12, bottom, (top - bottom) / 8), (3.5, 5, 1.5, 5))
        self.assertEqual(drawing.extent_of(part, 1)[0], 4.5)

    def test_without_a_sky_there_is_a_reason(self):
        header = images.of_file(written("a.fits", np.zeros((4, 6), "i2")))[0]
        self.assertEqual(drawing.wcs_of(header, images.part_of(header, "", 10, True)), (None, "there are no celestial coordinates"))
        header = images.of_file(written("b.fits", np.zeros((4, 6), "i2"), **{**TANGENT, "CD1_1": 0.0, "CD1_2": 0.0, "CD2_1": 0.0, "CD2_2": 0.0}))[0]
        found, why = drawing.wcs_of(header, images.part_of(header, "", 10, True))
        self.assertIsNone(found)
        self.assertTrue(why)

    def test_pictures_with_words_of_others(self):
        written("a $\\frac{.fits", np.arange(24, dtype="i2").reshape(4, 6), BUNIT="$\\int <b>", **TANGENT)
        for stretch in drawing.STRETCHES:
            said = drawing.look("a $\\frac{.fits", "a $\\frac{.fits\x1b[31m", f"{stretch}.png", images.of_file("a $\\frac{.fits"), drawing.Look(size=60, stretch=stretch))
            self.assertIn("axes of RA and DEC", said)
            self.assertEqual(Path(f"{stretch}.png").read_bytes()[:4], b"\x89PNG")
        with self.assertRaises(FileExistsError):
            drawing.look("a $\\frac{.fits", "a", "log.png", images.of_file("a $\\frac{.fits"), drawing.Look())

    def test_a_sheet_goes_past_an_image_that_cannot_be_shown(self):
        good, bad = fits.ImageHDU(np.zeros((3, 4), "i2"), name="SCI"), fits.ImageHDU(np.zeros((3, 4), "i2"), name="BAD")
        fits.HDUList([fits.PrimaryHDU(), good, bad]).writeto("a.fits")
        with mock.patch.object(images, "bins", side_effect=[np.zeros((3, 4)), NoPicture("no pixels")]):
            self.assertIn("2 images", drawing.look("a.fits", "a.fits", "a.png", images.of_file("a.fits"), drawing.Look(size=60)))

    def test_a_page_of_a_folder(self):
        Path("f").mkdir()
        written("f/<b>.fits", np.arange(24, dtype="i2").reshape(4, 6))
        Path("f/bad.fits").write_text("nothing", encoding="ascii")
        text, count, bad = page.page(b"f", drawing.Look())
        self.assertEqual((count, bad, "<b>&lt;b&gt;.fits</b>" in text, "it is no FITS file" in text), (2, 1, True, True))
        self.assertNotIn("<script", text)


@draws
class Charts(unittest.TestCase):
    def test_they_are_xml_in_the_colour_of_the_text(self):
        for made in (charts.bars("states", [("compressed", 3, "3"), ("<a> & $x$", 1, "1")]), charts.ratios("ratios", [1.0, 2.0, 2.0, 40.0], "x"), charts.ratios("one", [2.0], "x")):
            self.assertTrue(ElementTree.fromstring(made).tag.endswith("svg"))
            self.assertIn("currentColor", made)
            self.assertNotIn(charts.INK, made)
            self.assertNotIn("<script", made)
        self.assertEqual((charts.bars("b", []), charts.ratios("r", [], "x")), ("", ""))

    def test_twice_the_same(self):
        self.assertEqual(charts.ratios("r", [1.0, 2.0], "x"), charts.ratios("r", [1.0, 2.0], "x"))


class Missing(unittest.TestCase):
    def test_without_matplotlib_one_sentence_says_what_to_install(self):
        with mock.patch.dict(sys.modules, {"matplotlib": None}), self.assertRaisesRegex(NoPicture, r"matplotlib is not there: install them by pip install 'fzfits\[pictures\]'"):
            pictures.library("matplotlib")

    def test_a_report_has_the_sentence_in_place_of_a_chart(self):
        with mock.patch.dict(sys.modules, {"matplotlib": None}):
            self.assertIn("A chart is left out: matplotlib is not there. Install them by pip install", report._chart(charts.bars, "a", [("packed", 1, "1")]))


class Verdicts(unittest.TestCase):
    """The line whether the originals may be deleted."""

    def verdict(self, *rows, **more):
        return safe.verdict_of(Survey(list(rows), found=Scan(b"/plain", {it.path: Found(it.path, 1, 1) for it in rows}), **more))

    def test_yes_only_if_all_were_compared(self):
        same, right = Row(b"a.fits", status="packed", check_line="same"), Row(b"b.fits", status="packed", check_line="right")
        self.assertEqual((self.verdict(same).safe, self.verdict(same).line), (True, "Safe to delete the originals: yes, all 1 file"))
        self.assertEqual((self.verdict(same, right).safe, self.verdict(same, right).line), (False, "Safe to delete the originals: no, 1 file"))

    def test_no_for_findings_and_for_what_was_left_out(self):
        same = Row(b"a.fits", status="packed", check_line="same")
        for more in ({"findings": [Finding(b"c.fits", "cause", "line", "advice")]}, {"left": [Left(b"d.fits.gz", "why", "advice", "")]}):
            found = self.verdict(same, **more)
            self.assertEqual((found.safe, found.line, len(found.why)), (False, "Safe to delete the originals: no, 1 file", 1))

    def test_not_known_without_the_originals(self):
        self.assertEqual(safe.verdict_of(Survey([Row(b"a.fits", status="packed", check_line="same")])).safe, False)
        self.assertEqual(self.verdict(lost="the folder has no FITS file").line, "Safe to delete the originals: not known")
        rows = [Row(it, status="packed", check_line="same") for it in (b"a.fits", b"b.fits")]
        none, one = Scan(b"/plain"), Scan(b"/plain", {b"a.fits": Found(b"a.fits", 1, 1)})
        self.assertEqual(safe.verdict_of(Survey(rows, found=none)).line, "Safe to delete the originals: not known")
        self.assertEqual(safe.verdict_of(Survey(rows, found=one)).line, "Safe to delete the originals: yes, all 1 file; not 1 file that is not there")


if __name__ == "__main__":
    unittest.main()
