"""What a run did not look at is named: behind a pattern, a link, a shut folder, in a Slurm array, or under a name that means two files."""
from __future__ import annotations

import bz2
import gzip
import lzma
import os
import shutil
import subprocess
import sys
import unittest
from pathlib import Path

sys.path[:0] = [str(Path(__file__).resolve().parents[1])]

from batch.two_files import FZ, FZBATCH, Archive, image, tree  # noqa: E402


class FoldersAndPatterns(Archive):
    """A folder that was not looked into is left out of a run of a part, unless the patterns leave it out."""

    def test_a_link_to_a_folder(self) -> None:
        (self.victim / "x.fits").write_bytes(image(5))
        os.symlink(self.victim, self.plain / "sub")
        for more in (("--include", "*.fits"), *(("--include", "a.fits", "--include", it) for it in ("sub/*.fits", "*/x.fits", "s*/x.fits", "x*")), ("--exclude", "a.fits")):
            self.named("sub: is a symbolic link", "pack", self.plain, *more)
        for more in (("--include", "n/*"), ("--exclude", "sub/*"), ("--exclude", "sub"), ("--include", "*.fits", "--skip-links")):
            status, said = self.run_it("pack", self.plain, *more)
            self.assertEqual((status, "sub: is" in said), (0, False), f"{more}: {said}")

    def test_a_link_to_a_file_that_is_not_wanted(self) -> None:
        os.symlink(self.victim / "precious", self.plain / "x.fits")
        self.assertEqual(self.run_it("pack", self.plain, "--include", "a*")[0], 0)
        self.named("x.fits", "pack", self.plain, "--include", "*.fits")

    def test_a_list(self) -> None:
        os.symlink(self.victim, self.plain / "sub")
        (self.room / "list").write_text("a.fits\n")
        self.assertEqual(self.run_it("pack", self.plain, "--from-list", self.room / "list")[0], 0)


@unittest.skipUnless(os.geteuid() == 0 and shutil.which("setpriv"), "needs root and setpriv, to be nobody")
class ShutFolder(Archive):
    """A folder of packed files that cannot be read is named by all commands, also if the manifest has none of its files."""

    def nobody(self, *words: object) -> "tuple[int, str]":
        line = ["setpriv", "--reuid=65534", "--regid=65534", "--clear-groups", sys.executable, str(FZBATCH), *map(str, words)]
        ended = subprocess.run(line, env={**os.environ, "FZ": FZ}, capture_output=True, text=True, timeout=60, check=False, cwd="/")
        return ended.returncode, ended.stdout + ended.stderr

    def test_after_a_rebuild(self) -> None:
        self.packs()
        for it in ("fzbatch.sqlite", "fzbatch.sqlite.copy", "SHA256SUMS"):
            (self.packed / it).unlink()
        for folder, folders, here in os.walk(self.room):
            for name in (".", *folders, *here):
                os.chown(os.path.join(folder, name), 65534, 65534)
        (self.packed / "n").chmod(0)
        self.addCleanup((self.packed / "n").chmod, 0o700)
        status, said = self.nobody("rebuild", self.packed)
        if "setpriv" in said or "No module" in said or "Permission denied: '/" in said:
            self.skipTest("nobody cannot run this Python or fz")
        self.assertEqual((status, "n: cannot be read" in said), (1, True), said)
        for verb in (("verify", self.packed), ("compare", self.plain, self.packed), ("missing", self.plain, self.packed)):
            status, said = self.nobody(*verb)
            self.assertEqual((status, "n: cannot be read" in said), (1, True), said)


class LinkInPacked(Archive):
    """A link among the packed files that the manifest does not know is named by all commands."""

    def test_it_is_named(self) -> None:
        self.packs()
        os.symlink(self.victim, self.packed / "more")
        for verb in (("verify", self.packed), ("compare", self.plain), ("pack", self.plain), ("restore", self.room / "back", self.packed), ("rebuild", self.packed, "--again")):
            self.named("more: is a symbolic link", *verb)
        self.assertEqual(self.run_it("verify", self.packed, "a.fits")[0], 0)


class NothingLeft(Archive):
    """`collect` names what no task of the array was for, and of which nothing is left."""

    def test_both_files_are_gone(self) -> None:
        self.packs()
        (self.plain / "a.fits").unlink()
        (self.packed / "a.fits.fz").unlink()
        self.write("c.fits", image(5))
        self.assertEqual(self.run_it("pack", self.plain, "--engine", "slurm")[0], 0)
        self.assertEqual(self.run_it("share", self.plain, self.packed)[0], 0)
        self.named("a.fits", "collect", self.packed)

    def test_a_packed_file_is_gone_after_its_task(self) -> None:
        self.assertEqual(self.run_it("pack", self.plain, "--engine", "slurm")[0], 0)
        self.assertEqual(self.run_it("share", self.plain, self.packed)[0], 0)
        (self.packed / "a.fits.fz").unlink()
        self.named("a.fits", "collect", self.packed)


class CompressedByItsFirstBytes(Archive):
    """A FITS file that another program compressed has more after that in its name, as wget and browsers give it: it is in no archive."""

    def test_it_is_named(self) -> None:
        data = image(9)
        made = {"raw.fits.gz.1": gzip.compress(data), "raw.fits.1.gz": gzip.compress(data), "raw.fits (1).bz2": bz2.compress(data), "raw.fits.xz~": lzma.compress(data), "raw.fits.zst.part": b"\x28\xb5\x2f\xfd"}
        damaged = bytearray(made["raw.fits.gz.1"])
        damaged[3] ^= 255
        made["raw.fits.gz.old"] = bytes(damaged)
        for name, it in made.items():
            (self.plain / name).write_bytes(it)
        (self.plain / "raw.fits.log.gz").write_bytes(gzip.compress(b"10:00 exposure begins\n"))
        for words in (("pack", self.plain, "--all"), ("missing", self.plain)):
            status, said = self.run_it(*words)
            self.assertEqual((status, said.count("another program compressed, by its first bytes")), (1, len(made)), said)
            self.assertIn("1 file with other names, which fzbatch does not touch: 1 .log.gz.", said)
        self.assertEqual(self.run_it("compare", self.plain)[0], 0)
        self.assertIn("Safe to delete the originals: no, 6 files", self.run_it("report", self.plain, "-o", self.room / "r.html")[1])
        self.packs("--skip-compressed")
        self.assertEqual(self.run_it("missing", self.plain)[0], 0)


class OnlyALink(Archive):
    """A folder of plain files that has a link and no FITS file is one that may not be mounted."""

    def test_it_is_named(self) -> None:
        self.packs("--skip-links")
        for it in ("a.fits", "n/b.fits"):
            (self.plain / it).unlink()
        self.looks("")
        os.symlink("/nowhere/x.fits", self.plain / "x.fits")
        for verb in ("missing", "status"):
            self.named("has no FITS file", verb, self.plain, self.packed)
        self.assertIn("Safe to delete the originals: not known", self.run_it("report", self.plain, "-o", self.room / "s.html")[1])
        self.assertEqual(self.run_it("missing", "--without-plain", self.plain, self.packed)[0], 0)


class OnlyByALink(Archive):
    """A link to a file of the same folder whose name is not that of a FITS file: with the folder goes what it leads to."""

    def test_it_is_not_left_out(self) -> None:
        store = self.plain / ".store"
        store.mkdir()
        self.write(".store/0001", image(5))
        os.symlink(".store/0001", self.plain / "c.fits")
        os.symlink("c.fits", self.plain / "d.fits")
        self.named("c.fits: is a symbolic link to .store/0001, a file of this folder whose name is not", "pack", self.plain, "--skip-links")
        self.assertEqual(self.run_it("compare", self.plain)[0], 0)
        self.looks("a file of this folder whose name is not that of a FITS file")
        self.assertIn("Safe to delete the originals: no, 2 files", self.run_it("report", self.plain, "-o", self.room / "s.html")[1])

    def test_links_that_lose_nothing(self) -> None:
        (self.victim / "0001").write_bytes(image(5))
        for name, target in (("c.fits", "n/b.fits"), ("d.fits", self.victim / "0001"), ("e.fits", "/nowhere"), ("f", "n")):
            os.symlink(target, self.plain / name)
        self.packs("--skip-links")
        self.assertEqual(self.run_it("compare", self.plain)[0], 0)
        self.assertEqual(self.run_it("missing", self.plain)[0], 0)
        self.assertIn("Safe to delete the originals: yes, all 2 files\n", self.run_it("report", self.plain, "-o", self.room / "s.html")[1])


class LinkToDir(Archive):
    """The folder of packed files is not in that of plain files, also if a link leads there."""

    def test_only_dir_is_named(self) -> None:
        before = tree(self.plain)
        for it in ("plain", "plain/n"):
            os.symlink(it, self.packed)
            status, said = self.run_it("pack", self.plain)
            self.assertEqual((status, "have to be apart" in said), (2, True), said)
            self.assertEqual(tree(self.plain), before)
            self.packed.unlink()
        os.symlink(self.victim / "away", self.packed)
        self.assertEqual(self.run_it("pack", self.plain)[0], 2)
        self.assertFalse((self.victim / "away").exists())


class NameOfTwoFiles(Archive):
    """A name that means one file below the current folder and another one in the archive is rejected."""

    def test_in_a_folder_of_the_archive(self) -> None:
        self.write("n/a.fits", image(9))
        self.packs()
        path = self.packed / "n" / "a.fits.fz"
        path.write_bytes(path.read_bytes()[:-1] + b"\1")
        self.addCleanup(os.chdir, os.getcwd())
        os.chdir(self.packed / "n")
        for name in ("a.fits.fz", "a.fits"):
            status, said = self.run_it("verify", self.packed, name)
            self.assertEqual((status, "n/a.fits" in said and "start this in another folder" in said), (2, True), said)
        self.named("n/a.fits", "verify", self.packed, "n/a.fits")
        self.named("n/a.fits", "verify", self.packed, str(path))
        self.assertEqual(self.run_it("verify", self.packed, "b.fits")[0], 0)
        os.chdir(self.packed)
        self.assertEqual(self.run_it("verify", self.packed, "a.fits.fz")[0], 0)


if __name__ == "__main__":
    unittest.main()
