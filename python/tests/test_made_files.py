"""Parts of 200 made files of all kinds, beside those of the arrays that astropy gives: plain, packed by fz, by fpack and by astropy."""
import random
import shutil
import subprocess
import unittest
import warnings
from pathlib import Path

from support import InAFolder, fits, needs_astropy, needs_program, np

import fzfits

COUNT = 200
KINDS = ("u1", "i1", "i2", "u2", "i4", "u4", "i8")
# What packs the file; fpack and astropy do not pack all types.
PACKERS = {"plain": KINDS, "fz": KINDS, "fpack": ("u1", "i2", "u2", "i4"), "astropy": ("u1", "i2", "i4")}


class Made:
    """A file: an image of a type, with some axes, in the primary HDU or in an extension, scaled or not, packed or not."""

    def __init__(self, rng, packer):
        self.rng, self.packer = rng, packer
        self.kind = rng.choice(PACKERS[packer])
        self.shape = tuple(rng.randint(1, 9) for _ in range(rng.randint(0, 3 if packer in ("plain", "fz") else 2))) + (rng.randint(1, 40),)
        self.name = rng.choice((None, "SCI", "DQ"))
        self.blank = rng.choice((None, None, 5)) if self.kind in ("i2", "i4") and packer in ("plain", "fz") else None
        self.scale = rng.choice(((1, 0), (1, 0), (2, 100), (0.25, -7.5))) if self.kind in ("u1", "i2", "i4") and packer in ("plain", "fz") else (1, 0)

    def __str__(self):
        return f"{self.packer} {self.kind} {self.shape} {self.name} BLANK {self.blank} scale {self.scale}"

    def array(self):
        info = np.iinfo(self.kind)
        low, high = max(info.min, -(1 << 40)), min(info.max, 1 << 40)
        near = [self.rng.choice((low, high, 5, self.rng.randint(max(low, -50), min(high, 300)), self.rng.randint(low, high))) for _ in range(int(np.prod(self.shape)))]
        return np.array(near, self.kind).reshape(self.shape)

    def write(self, path):
        """Writes the plain file, or the packed one of astropy."""
        if self.packer == "astropy":
            fits.CompImageHDU(self.array(), name=self.name or "").writeto(path)
            return
        made = fits.ImageHDU(self.array(), name=self.name) if self.name else fits.PrimaryHDU(self.array())
        made.writeto(path)
        with fits.open(path, mode="update", do_not_scale_image_data=True) as file:
            head = file[-1].header
            if self.scale != (1, 0):
                head["BSCALE"], head["BZERO"] = self.scale
            if self.blank is not None:
                head["BLANK"] = self.blank

    def packed(self, path):
        """Packs it, if it is to be, and gives the file to look into."""
        if self.packer == "fz":
            tile = [self.rng.randint(1, 12) for _ in self.shape]
            fzfits.pack(path, "packed.fz", tile=tile, codec=self.rng.choice(("rice", "rice", "none")))
            return "packed.fz"
        if self.packer == "fpack":
            subprocess.run(["fpack", "-O", "packed.fz", path], check=True, capture_output=True)
            return "packed.fz"
        return path

    def key(self):
        """Slices with steps, also backwards, and numbers, some axes left out."""
        keys = []
        for length in self.shape[: self.rng.randint(0, len(self.shape))]:
            if self.rng.random() < 0.2:
                keys.append(self.rng.randrange(-length, length))
                continue
            ends = sorted(self.rng.randint(0, length) for _ in range(2))
            step = self.rng.choice((None, 1, 2, 3, 7))
            keys.append(slice(*ends, step) if self.rng.random() < 0.8 else slice(None, None, -(step or 1)))
        return tuple(keys)


@needs_program
@needs_astropy
class AsAstropy(InAFolder):
    def test_sections_of_made_files(self):
        rng, counts = random.Random(11), dict.fromkeys(PACKERS, 0)
        for number in range(COUNT):
            packer = rng.choice(list(PACKERS))
            if packer == "fpack" and not shutil.which("fpack"):
                packer = "fz"
            made = Made(rng, packer)
            with warnings.catch_warnings():
                warnings.simplefilter("ignore")
                made.write("made.fits")
                path = made.packed("made.fits")
                with fits.open("made.fits") as file:
                    wanted = next(it.data for it in file if it.data is not None).copy()
            for key in (made.key(), made.key(), (...,)):
                with self.subTest(number=number, made=str(made), key=key):
                    found = fzfits.section(path, made.name, key)
                    part = wanted[key]
                    self.assertEqual((found.dtype, found.shape), (part.dtype.newbyteorder("="), part.shape))
                    self.assertTrue(np.array_equal(found, part, equal_nan=part.dtype.kind == "f"))
            for it in ("made.fits", "packed.fz"):
                Path(it).unlink(missing_ok=True)
            counts[packer] += 1
        self.assertEqual(sum(counts.values()), COUNT)
        self.assertGreater(min(count for packer, count in counts.items() if packer != "fpack" or shutil.which("fpack")), 30, counts)


if __name__ == "__main__":
    unittest.main()
