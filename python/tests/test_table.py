"""The table of docs/GUIDE.md: what you type with fpack, funpack, imcopy and fitsverify, and what with fzfits.

Each row is a test for each source of files: the samples, files of fpack, and files of astropy. Both commands make files of the same
names with the same pixels, or none.
"""
import os
import re
import shlex
import shutil
import subprocess
import unittest
from pathlib import Path

from support import SAMPLES, TOP, InAFolder, fits, needs_numpy, needs_program, np

import fzfits
from fzfits.shell import cli

TOOLS = ("fpack", "funpack", "imcopy", "fitsverify")
SOURCES = ("samples", "fpack", "astropy")


def rows_of_guide():
    """The commands of the table: those of cfitsio, and ours."""
    page = (TOP / "docs" / "GUIDE.md").read_text(encoding="utf-8")
    table = page.partition("| You type | Here |\n")[2].partition("\n\n")[0]
    return re.findall(r"^\| `([^`]+)` \| `([^`]+)` \|", table, re.MULTILINE)


class Sources(InAFolder):
    """A folder with a.fits, b.fits and mask.fits, which are plain, and p.fits.fz."""

    def samples(self, folder):
        for name, source in (("a", "star_field"), ("mask", "flags"), ("b", "depths")):
            shutil.copy(SAMPLES / f"{source}.fits", f"{folder}/{name}.fits")
        fzfits.pack(SAMPLES / "depths.fits", f"{folder}/p.fits.fz", sums=True)

    def fpack(self, folder):
        if not shutil.which("fpack"):
            self.skipTest("fpack is not installed")
        self.samples(folder)
        os.unlink(f"{folder}/p.fits.fz")
        shutil.copy(SAMPLES / "several.fits", f"{folder}/p.fits")
        subprocess.run(["fpack", "-D", "-Y", "p.fits"], cwd=folder, check=True, capture_output=True)

    def astropy(self, folder):
        if not fits:
            self.skipTest("astropy is not installed")
        rng = np.random.default_rng(7)
        counts = rng.poisson(300, (40, 50)).astype("u2")
        fits.PrimaryHDU(counts).writeto(f"{folder}/a.fits")
        fits.HDUList([fits.PrimaryHDU(), fits.ImageHDU(counts.astype("i4"), name="SCI")]).writeto(f"{folder}/b.fits")
        fits.PrimaryHDU((counts > 310).astype("u1")).writeto(f"{folder}/mask.fits")
        fits.CompImageHDU(counts.astype("i2"), name="SCI").writeto(f"{folder}/p.fits.fz")


@needs_program
@needs_numpy
class Table(Sources):
    def call(self, words, folder):
        """Our command, with the names that a shell would give it."""
        os.chdir(folder)
        try:
            self.assertEqual(cli.main([name for it in words for name in (sorted(map(str, Path(".").glob(it))) if it == "*.fits" else [it])]), 0)
        finally:
            os.chdir(self.folder)

    def made(self, folder):
        return {str(it.relative_to(folder)): it for it in sorted(Path(folder).rglob("*")) if it.is_file() and it.suffix in (".fits", ".fz")}

    def row(self, theirs, ours, source):
        words = shlex.split(ours)
        self.assertEqual(words[0], "fzfits")
        for folder in ("ours", "theirs"):
            os.makedirs(f"{folder}/out")
            getattr(self, source)(folder)
        before = set(self.made("ours"))
        self.call(words[1:], "ours")
        if not shutil.which(theirs.split()[0]):
            self.skipTest(f"{theirs.split()[0]} is not installed")
        subprocess.run(theirs, shell=True, cwd="theirs", check=True, capture_output=True, stdin=subprocess.DEVNULL)
        one, other = self.made("ours"), self.made("theirs")
        self.assertEqual(set(one), set(other))
        self.assertEqual(set(one) != before, words[1] in ("pack", "unpack", "cut"))
        for name in one:
            self.assertTrue(np.array_equal(fzfits.section(one[name], None), fzfits.section(other[name], None)), name)


def _of_row(theirs, ours, source):
    return lambda self: self.row(theirs, ours, source)


for _number, (_theirs, _ours) in enumerate(rows_of_guide()):
    for _source in SOURCES:
        setattr(Table, f"test_row_{_number:02}_{re.sub(r'[^a-z]+', '_', _theirs)}_of_{_source}", _of_row(_theirs, _ours, _source))


class WholeTable(unittest.TestCase):
    def test_the_table_has_rows(self):
        self.assertGreaterEqual(len(rows_of_guide()), 12)
        self.assertEqual({it.split()[0] for it, _ in rows_of_guide()}, set(TOOLS))

    @unittest.skipUnless(all(map(shutil.which, TOOLS)), "a tool of cfitsio is not installed")
    def test_all_tools_were_there(self):
        self.assertTrue(TOOLS)


if __name__ == "__main__":
    unittest.main()
