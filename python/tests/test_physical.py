"""Physical values: those that astropy gives, of the samples and of made files of all types; and plain images as packed ones."""
import itertools
import os
import random
import unittest
from pathlib import Path

from support import SAMPLES, InAFolder, fits, imported, needs_astropy, needs_program, np
from making.fits import card, words
from making.plain import Image, image_hdu

import fzfits
from fzfits import boxes, plain
from fzfits.headers import headers
from fzfits.section import box_of

fitsio = imported("fitsio")
# BSCALE, BZERO and BLANK as cards, None for no card.
SCALES = ((), (2, 100), (1, 0), ("0.25", "-7.5"), (1, 32768), (1, -128), (1, 2147483648), (1, 9223372036854775808), ("1.5E-3", 0), (-1, 5))
BLANKS = (None, 7, -3)


def cards_of(scale, blank):
    """Cards of a scaled image; numbers in text are written as they are."""
    made = [words(name, f"= {value:>20}") if isinstance(value, str) else card(name, value) for name, value in zip(("BSCALE", "BZERO"), scale)]
    return made + ([] if blank is None else [card("BLANK", blank)])


@needs_program
@needs_astropy
class AsAstropy(InAFolder):
    def same(self, found, wanted, about):
        """The same numbers, type and shape, and NaN in the same places."""
        self.assertEqual((found.dtype, found.shape), (wanted.dtype.newbyteorder("="), wanted.shape), about)
        self.assertTrue(np.array_equal(found, wanted, equal_nan=wanted.dtype.kind == "f"), about)

    def test_samples(self):
        count = 0
        for path in sorted(SAMPLES.glob("*.fits")):
            fzfits.pack(path, path.name)
            images = [it for it in fzfits.list(path.name) if it.is_packed]
            with fits.open(path) as file:
                wanted = [it.data for it in file if it.is_image and it.data is not None]
                for hdu, data in zip(images, wanted):
                    self.same(fzfits.section(path.name, hdu.number), data, path.name)
                    count += 1
        self.assertGreaterEqual(count, 9)

    def test_made_files_of_all_types(self):
        rng, count = random.Random(5), 0
        for bits, scale, blank in itertools.product((8, 16, 32, 64), SCALES, BLANKS):
            low, high = (0, 255) if bits == 8 else (-(1 << min(bits - 1, 50)), (1 << min(bits - 1, 50)) - 1)
            pixels = [rng.choice((7, -3 if bits > 8 else 3, 0, low, high, rng.randint(low, high))) for _ in range(35)]
            Path("plain").write_bytes(image_hdu(Image(bits, [7, 5], pixels), True, cards_of(scale, blank)))
            if bits == 8 and scale == (1, -128) and blank is not None:
                continue  # astropy 5.2 reads no int8 with a BLANK
            with fits.open("plain") as file:
                wanted = file[0].data.copy()
            for name in ("plain", "packed"):
                if name == "packed" and count % 4 == 0:
                    fzfits.pack("plain", "packed", tile=(4, 3))
                if Path(name).exists():
                    self.same(fzfits.section(name, None), wanted, (name, bits, scale, blank))
            if Path("packed").exists():
                os.unlink("packed")
            count += 1
        self.assertEqual(count, 118)

    def test_a_blank_of_zero_is_undefined_too(self):
        # astropy leaves these pixels 0, against the standard
        Path("plain").write_bytes(image_hdu(Image(16, [3, 1], [0, 1, 2]), True, [card("BLANK", 0)]))
        self.assertTrue(np.array_equal(fzfits.section("plain", 0), np.array([[np.nan, 1, 2]], "f4"), equal_nan=True))

    def test_images_of_floating_point_numbers(self):
        for kind, scale in itertools.product(("f4", "f8"), ((), ("2.5", "-1"), (1, 0), (1, 32768))):
            data = np.array([[1.5, -2.25, np.nan], [1e30, 0, 7]], ">" + kind)
            head = fits.PrimaryHDU(data).header
            raw = head.tostring(sep="", endcard=False, padding=False).encode() + b"".join(cards_of(scale, None)) + b"END".ljust(80)
            Path("plain").write_bytes(raw.ljust(2880) + data.tobytes().ljust(2880, b"\0"))
            with fits.open("plain") as file:
                self.same(fzfits.section("plain", None), file[0].data, (kind, scale))
                self.same(fzfits.section("plain", 0, np.s_[::-1, 1]), file[0].data[::-1, 1], (kind, scale))


@needs_program
@unittest.skipUnless(np and fitsio, "fitsio is not installed")
class AsFitsio(InAFolder):
    def test_integers_have_its_types_and_others_its_values(self):
        rng, count = random.Random(6), 0
        for bits, scale in itertools.product((8, 16, 32, 64), SCALES):
            low, high = (0, 255) if bits == 8 else (-(1 << min(bits - 1, 50)), (1 << min(bits - 1, 50)) - 1)
            pixels = [rng.choice((0, low, high, rng.randint(low, high))) for _ in range(35)]
            Path("plain").write_bytes(image_hdu(Image(bits, [7, 5], pixels), True, cards_of(scale, None)))
            fzfits.pack("plain", "packed", tile=(4, 3))
            try:
                wanted = fitsio.read("plain")
            except OSError:
                continue  # it reads no 64 bits with this BZERO
            finally:
                found = fzfits.section("packed", None)
                os.unlink("packed")
            if found.dtype.kind in "iu":
                self.assertEqual(found.dtype, wanted.dtype.newbyteorder("="), (bits, scale))
                self.assertTrue(np.array_equal(found, wanted), (bits, scale))
            elif bits < 64:  # of scaled images of 64 bits fitsio gives whole numbers
                self.assertTrue(np.allclose(found, wanted, rtol=1e-6, atol=1e-3), (bits, scale))
            count += 1
        self.assertGreaterEqual(count, 30)


@needs_program
class Plain(InAFolder):
    def test_a_part_of_a_plain_image_is_the_cutout_of_the_packed_one(self):
        cards = [card("CRPIX1", 5), words("CRPIX2", "=   -3.50E0 / where"), words("CRPIX3", "= 1.25D1"), card("EXTEND", True), card("CRPIX1A", 2), card("OBJECT", "M 31")]
        Path("made.fits").write_bytes(image_hdu(Image(16, [9, 7, 4], list(range(252))), True, cards))
        count = 0
        for path in [Path("made.fits"), *sorted(SAMPLES.glob("*.fits"))]:
            fzfits.pack(path, "packed", tile=(5, 3))
            images = [it for it in headers(path) if plain.is_image(it)]
            for header, it in zip(images, [it for it in headers("packed") if it.is_packed]):
                key = (slice(1, 3), slice(2, 4)) if header.number else (..., slice(1, 3), slice(1, 4, 2))
                pieces = boxes.of_numpy(key, header.axes)
                plain.cut(path, header, pieces, "one")
                fzfits.cut("packed", "other", box_of(pieces), hdu=it.number)
                self.assertEqual(Path("one").read_bytes(), Path("other").read_bytes(), path.name)
                os.unlink("one")
                os.unlink("other")
                count += 1
            os.unlink("packed")
        self.assertGreaterEqual(count, 10)

    def test_cutouts_by_the_words_of_cfitsio(self):
        fzfits.pack(SAMPLES / "several.fits", "packed")
        fzfits.cutout("packed[SCI][1:10,*:2]", "one")
        fzfits.cutout(f"{SAMPLES / 'several.fits'}[SCI][1:10,*:2]", "other")
        self.assertEqual(Path("one").read_bytes(), Path("other").read_bytes())
        with self.assertRaisesRegex(ValueError, "runs down"):
            fzfits.cutout("packed[SCI][10:1,*]", "none")
        with self.assertRaisesRegex(IndexError, "has 64"):
            fzfits.cutout(f"{SAMPLES / 'several.fits'}[SCI][1:65,*]", "none")
        self.assertEqual(self.left(), [b"one", b"other", b"packed"])

    def test_a_plain_image_that_ends_early(self):
        Path("short").write_bytes((SAMPLES / "star_field.fits").read_bytes()[:10000])
        with self.assertRaisesRegex(fzfits.ReadFault, "ends before"):
            fzfits.cutout("short[*,*]", "none")
        self.assertEqual(self.left(), [b"short"])


if __name__ == "__main__":
    unittest.main()
