"""What the manifest of an adopted folder knows of a file stays known when the file gets another name, or is packed or restored. Each class is one find."""
from __future__ import annotations

import sys
import unittest
from pathlib import Path

sys.path[:0] = [str(Path(__file__).resolve().parents[1])]

from batch.test_adopted_called_well import Whole  # noqa: E402
from batch.test_adopted_kept import write  # noqa: E402
from batch.test_finds import flip  # noqa: E402
from batch.two_files import image  # noqa: E402


class NewName(Whole):
    """Under a new name a file keeps what only its row knows: a wrong checksum that was accepted, the plain file, and its first name."""

    def setUp(self) -> None:
        super().setUp()
        self.plain, self.packed, self.other = (self.night / it for it in ("x.fits", "x.fits.fz", "y.fits.fz"))

    def test_a_wrong_checksum_that_was_accepted(self) -> None:
        data = bytearray(image(3, sums_too=True))
        # a comment of BITPIX: the packed file does not show it
        data[120:124] = b"/ by"
        write(self.plain, bytes(data))
        self.assertEqual(self.run_it("pack", "--beside", "--delete", "--accept-wrong-sums", self.night)[0], 0)
        self.packed.rename(self.other)
        for words in (("adopt",), ("missing",), ("adopt", "--update"), ("missing",), ("verify",), ("adopt", "--reread", "0")):
            self.named("y.fits.fz: the plain file had a wrong checksum, which was accepted" if "--update" in words else "which was accepted", *words, self.night)

    def test_the_plain_file(self) -> None:
        write(self.plain, image(3))
        kept = self.plain.read_bytes()
        self.assertEqual(self.run_it("pack", "--beside", "--delete", self.night)[0], 0)
        self.packed.rename(self.other)
        self.named("y.fits.fz: it was x.fits.fz", "adopt", self.night)
        self.assertEqual(self.run_it("adopt", "--update", self.night)[0], 0)
        self.named("restored", "restore", "--beside", self.night, status=0)
        self.assertEqual((self.night / "y.fits").read_bytes(), kept)

    def test_a_name_that_is_none_of_a_packed_file(self) -> None:
        write(self.plain, image(3))
        self.assertEqual(self.run_it("pack", "--beside", "--delete", self.night)[0], 0)
        self.packed.rename(self.night / "y.fits")
        self.assertEqual(self.run_it("adopt", "--update", self.night)[0], 0)
        before = {*self.night.iterdir()}
        self.named("1 well (1 restored)", "restore", "--beside", self.night, status=0)
        self.assertEqual({*self.night.iterdir()} - before, {self.night / "small.fits"})

    def test_the_first_name_again(self) -> None:
        path, names = self.night / "small.fits", (self.night / "p.fits", self.night / "q.fits")
        path.rename(names[0])
        self.named("p.fits: it was small.fits", "adopt", self.night)
        names[0].rename(names[1])
        self.named("q.fits: it was small.fits", "adopt", self.night)
        names[1].unlink()
        self.named("q.fits", "adopt", self.night)
        write(path, image(3))
        self.assertEqual(self.run_it("adopt", self.night)[0], 1)
        path.unlink()

    def test_it_is_well_again(self) -> None:
        path, other = self.night / "small.fits", self.night / "p.fits"
        path.rename(other)
        self.named("p.fits: it was small.fits", "adopt", self.night)
        other.rename(path)
        self.assertEqual(self.run_it("adopt", self.night)[0], 0)
        self.assertEqual(self.run_it("missing", self.night), (0, ""))


class Restored(Whole):
    """A plain file that was restored is known by its SHA-256, also after its packed file was removed."""

    def setUp(self) -> None:
        super().setUp()
        self.path = self.night / "small.fits"
        self.assertEqual(self.run_it("pack", "--beside", "--delete", self.night)[0], 0)
        self.assertEqual(self.run_it("restore", "--beside", "--delete", self.night)[0], 0)
        self.assertTrue(self.path.exists())

    def test_rot_is_found(self) -> None:
        flip(self.path)
        self.named("small.fits: it was restored, and", "missing", self.night)
        self.named("small.fits: it has the length and the time that it had, and other bytes", "adopt", self.night)

    def test_another_file(self) -> None:
        write(self.path, image(9))
        for words in (("pack", "--beside", "--delete"), ("verify",), ("adopt",)):
            self.named("small.fits", *words, self.night)
        self.assertTrue(self.path.exists())

    def test_it_is_adopted_or_packed_again(self) -> None:
        self.assertEqual(self.run_it("pack", "--beside", self.night)[0], 0)
        self.assertEqual(self.run_it("restore", "--beside", "--delete", self.night)[0], 0)
        self.assertEqual(self.run_it("adopt", self.night)[0], 0)
        self.assertEqual(self.run_it("missing", self.night), (0, ""))


if __name__ == "__main__":
    unittest.main()
