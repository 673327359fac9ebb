"""Archives that are not well, and that a command once called well. Each class is one find."""
from __future__ import annotations

import hashlib
import os
import re
import shutil
import sys
import unittest
from pathlib import Path

sys.path[:0] = [str(Path(__file__).resolve().parents[1])]

from batch.test_finds import flip  # noqa: E402
from batch.two_files import Archive, image, zipped  # noqa: E402


class EmptyManifest(Archive):
    """A manifest of no bytes, as a full disk or a loss of power leaves it, is not begun anew beside its second copy."""

    def test_it_is_damaged(self) -> None:
        self.packs()
        copy = (self.packed / "fzbatch.sqlite.copy").read_bytes()
        (self.plain / "a.fits").unlink()
        (self.packed / "a.fits.fz").unlink()
        (self.packed / "fzbatch.sqlite").write_bytes(b"")
        status, said = self.run_it("pack", self.plain)
        self.assertEqual((status, "is empty" in said), (2, True), said)
        self.assertEqual((self.packed / "fzbatch.sqlite.copy").read_bytes(), copy)
        self.named("a.fits", "rebuild", self.packed)
        self.looks("a.fits")

    def test_one_of_a_first_run_that_was_killed_is_none(self) -> None:
        self.packed.mkdir()
        (self.packed / "fzbatch.sqlite").write_bytes(b"")
        self.packs()


class RebuiltOverAKnownFault(Archive):
    """A packed file that does not restore its plain file is not certified by a new manifest."""

    def test_what_comes_back_otherwise(self) -> None:
        self.packs()
        self.put(b"a.fits", sha256=hashlib.sha256(b"the plain file").hexdigest())
        (self.plain / "a.fits").unlink()
        self.named("unpacked file differs from the original", "compare", "--without-plain", self.packed)
        for _ in range(2):
            self.named("unpacked file differs from the original", "rebuild", "--again", self.packed)
            self.looks("differs from the one that was packed")


class NoTimeInTheManifest(Archive):
    """After a rebuild without a copy no time of a plain file is known: it is read."""

    def test_another_plain_file_of_the_same_length(self) -> None:
        self.packs()
        (self.packed / "fzbatch.sqlite").unlink()
        self.assertEqual(self.run_it("rebuild", "--ignore-copy", self.packed)[0], 0)
        for words in (("restore", self.room / "back", self.packed), ("compare", self.plain, self.packed)):
            self.assertEqual(self.run_it(*words)[0], 0)
        self.assertEqual(self.run_it("missing", self.plain, self.packed)[0], 0)
        self.write("a.fits", image(7))
        self.looks("the plain file is another than the one that was packed")


class PlainFileGone(Archive):
    """`pack` says what is not well with the packed file of a plain file that is gone."""

    def test_its_packed_file_is_no_more_what_it_was(self) -> None:
        def put(make) -> None:
            (self.packed / "a.fits.fz").unlink()
            make(self.packed / "a.fits.fz")

        states = {
            "is empty": lambda: (self.packed / "a.fits.fz").write_bytes(b""),
            "a folder": lambda: put(os.mkdir),
            "a pipe": lambda: put(os.mkfifo),
            "a link": lambda: put(lambda it: os.symlink("/dev/null", it)),
            "is another than the one": lambda: flip(self.packed / "a.fits.fz") or self.run_it("verify", self.packed),
        }
        for said, does in states.items():
            with self.subTest(said=said):
                self.write("a.fits", image(1))
                self.packs()
                (self.plain / "a.fits").unlink()
                self.packs()
                does()
                for _ in range(2):
                    self.named(said, "pack", self.plain)
                shutil.rmtree(self.packed)


class SafeToDelete(Archive):
    """A report says that originals may be deleted only if nothing was left out."""

    def test_files_that_were_skipped(self) -> None:
        zipped(self.plain / "raw.fits.gz")
        self.packs("--skip-compressed")
        self.assertEqual(self.run_it("compare", self.plain)[0], 0)
        status, said = self.run_it("report", self.plain, "-o", self.room / "r.html")
        self.assertEqual((status, "Safe to delete the originals: no, 1 file" in said), (0, True), said)
        page = re.sub("<[^>]*>", "", (self.room / "r.html").read_text())
        self.assertIn("1 file was left out, as --skip-compressed says, and is in no packed file", page)
        (self.plain / "raw.fits.gz").unlink()
        self.assertIn("Safe to delete the originals: yes", self.run_it("report", self.plain, "-o", self.room / "r.html")[1])


    def test_originals_that_are_not_there(self) -> None:
        self.packs()
        self.assertEqual(self.run_it("compare", self.plain)[0], 0)
        report = ("report", self.plain, "-o", self.room / "r.html")
        self.assertIn("Safe to delete the originals: yes, all 2 files\n", self.run_it(*report)[1])
        (self.plain / "n" / "b.fits").rename(self.victim / "b.fits")
        status, said = self.run_it(*report)
        self.assertEqual((status, "yes, all 1 file; not 1 file that is not there" in said), (0, True), said)
        self.assertIn("1 file has no original here any more, so whether that changed was not looked at.", (self.room / "r.html").read_text())
        (self.plain / "a.fits").unlink()
        status, said = self.run_it(*report, "--without-plain")
        self.assertEqual((status, "Safe to delete the originals: not known" in said), (0, True), said)


class SlurmArrays(Archive):
    """A run with --engine slurm names what needs no task and is not well; so does `collect`."""

    def test_nothing_to_submit(self) -> None:
        self.write("bad.fits", b"")
        self.named("bad.fits", "pack", self.plain)
        shutil.copy(self.packed / "a.fits.fz", self.packed / "x.fits.fz")
        for it in ("bad.fits", "x.fits.fz"):
            self.named(it, "pack", self.plain, "--engine", "slurm")

    def test_collect(self) -> None:
        self.write("bad.fits", b"")
        self.named("bad.fits", "pack", self.plain)
        shutil.copy(self.packed / "a.fits.fz", self.packed / "x.fits.fz")
        self.write("new.fits", image(5))
        self.assertEqual(self.run_it("pack", self.plain, "--engine", "slurm")[0], 0)
        self.assertEqual(self.run_it("share", self.plain, self.packed)[0], 0)
        status, said = self.run_it("collect", self.packed)
        self.assertEqual((status, "bad.fits" in said, "x.fits.fz" in said), (1, True, True), said)


class FarTimes(Archive):
    """A file whose time no manifest has room for stops no run."""

    def test_a_time_after_2262(self) -> None:
        os.utime(self.plain / "a.fits", (10_000_000_000, 10_000_000_000))
        if (self.plain / "a.fits").stat().st_mtime_ns < 1 << 63:
            self.skipTest("this disk has no such time")
        for verb in ("pack", "missing"):
            self.named("a.fits: has a time after the year 2262", verb, self.plain)
        self.assertTrue((self.packed / "n" / "b.fits.fz").exists())


if __name__ == "__main__":
    unittest.main()
