"""Who reads a packed file: what is said of it, held against what was seen, and against the astropy that is installed."""
import random
import unittest
import warnings
from pathlib import Path

from support import SAMPLES, InAFolder, fits, needs_astropy, needs_program, np
from making.fits import card
from making.plain import Image, image_hdu

import fzfits
from fzfits.readers import READERS
from fzfits.rows import Tiles

RNG = random.Random(1)
NOISE = [RNG.randrange(-32768, 32768) for _ in range(512)]
CALM = [it % 7 for it in range(512)]
ZERO = [card("BZERO", 32768)]
# Images of 512 pixels, options of pack, tiles that are coded and stored, and who does not find the pixels, as it was seen.
SEEN = (
    ("calm", 16, [64, 8], CALM, [], {}, (8, 0), ()),
    ("calm, offset", 16, [64, 8], CALM, ZERO, {}, (8, 0), ()),
    ("noise", 16, [64, 8], NOISE, [], {}, (0, 8), ("astropy 7",)),
    ("half of it noise", 16, [64, 8], NOISE[:256] + CALM[:256], [], {}, (4, 4), ("astropy 7",)),
    ("half of it noise, offset", 16, [64, 8], NOISE[:256] + CALM[:256], ZERO, {}, (4, 4), ("fitsio", "astropy 7")),
    ("none", 16, [64, 8], CALM, [], {"codec": "none"}, (0, 8), ("astropy 5", "astropy 7")),
    ("none, offset", 16, [64, 8], CALM, ZERO, {"codec": "none"}, (0, 8), ("fitsio", "astropy 5", "astropy 7")),
    ("four axes", 16, [8, 8, 4, 2], CALM, [], {}, (64, 0), ("imcopy", "fitsio", "astropy 5")),
    ("64 bits", 64, [64, 8], CALM, [], {}, (0, 8), ("funpack", "imcopy", "fitsio", "astropy 5", "astropy 7")),
    ("flags that plio makes longer", 16, [64, 8], CALM, [], {"codec": "plio"}, (0, 8), ("astropy 7",)),
)


@needs_program
class Readers(InAFolder):
    def packed(self, bits, axes, pixels, cards, options):
        Path("plain").write_bytes(image_hdu(Image(bits, axes, pixels), True, cards))
        Path("packed").unlink(missing_ok=True)
        fzfits.pack("plain", "packed", **options)
        return fzfits.readable("packed")

    def test_what_was_seen(self):
        for title, bits, axes, pixels, cards, options, tiles, unread in SEEN:
            with self.subTest(title=title):
                (found,) = self.packed(bits, axes, pixels, cards, options)
                self.assertEqual(found.tiles, Tiles(*tiles))
                self.assertEqual(set(found.unread), set(unread))
                self.assertEqual((found.by, bool(found)), (tuple(it for it in READERS if it not in unread), not unread))

    @needs_astropy
    def test_the_astropy_that_is_installed(self):
        import astropy

        version = int(astropy.__version__.split(".")[0])
        if version not in (5, 7):
            self.skipTest(f"astropy {astropy.__version__}: nothing is said of it")
        for title, bits, axes, pixels, cards, options, _, _ in SEEN:
            (found,) = self.packed(bits, axes, pixels, cards, options)
            with self.subTest(title=title):
                self.assertEqual(self.reads(), f"astropy {version}" in found.by)

    def reads(self):
        """Whether astropy finds the pixels."""
        with warnings.catch_warnings():
            warnings.simplefilter("ignore")
            with fits.open("plain") as file:
                wanted = file[0].data.copy()
            try:
                with fits.open("packed") as file:
                    return bool(np.array_equal(file[1].data, wanted))
            except (KeyError, ValueError, RuntimeError):
                return False

    def test_lengths_that_leave_no_tile_stored(self):
        self.packed(16, [64, 8], NOISE[:256] + CALM[:256], [], {})
        wanted = {(): 4, (64, 8): 0}
        self.assertEqual(fzfits.stored_tiles("plain", (None, (64, 8))), wanted)
        self.assertEqual(fzfits.stored_tiles("packed", (None, (64, 8))), wanted)

    def test_files_without_a_packed_image(self):
        self.assertEqual(fzfits.readable(SAMPLES / "several.fits"), ())
        with self.assertRaises(fzfits.ReadFault):
            fzfits.readable("missing")


if __name__ == "__main__":
    unittest.main()
