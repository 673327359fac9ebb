"""Nothing is hidden: what is not well on either side is named, and each state has its outcome."""
from __future__ import annotations

import os
import shutil
import sqlite3
import sys
import unittest
from pathlib import Path

sys.path[:0] = [str(Path(__file__).resolve().parents[1])]

from batch.two_files import Archive, image  # noqa: E402
from making.fits import BLOCK  # noqa: E402


class BothSidesAreLookedAt(Archive):
    """`missing`, `status` and `report` look at type, size and time of both sides."""

    def test_an_empty_packed_file(self) -> None:
        self.packs()
        (self.packed / "a.fits.fz").write_bytes(b"")
        self.looks("its packed file is empty")

    def test_a_packed_file_of_another_size(self) -> None:
        self.packs()
        with open(self.packed / "a.fits.fz", "ab") as it:
            it.write(b"x")
        self.looks("its packed file has another size or time")

    def test_a_folder_in_the_place_of_a_packed_file(self) -> None:
        self.packs()
        (self.packed / "a.fits.fz").unlink()
        (self.packed / "a.fits.fz").mkdir()
        self.looks("its packed file is a link, a folder or a pipe")

    def test_a_link_in_the_place_of_a_packed_file(self) -> None:
        self.packs()
        (self.packed / "a.fits.fz").unlink()
        os.symlink("/dev/null", self.packed / "a.fits.fz")
        self.looks("its packed file is a link, a folder or a pipe")

    def test_a_folder_of_packed_files_is_a_link(self) -> None:
        self.packs()
        shutil.move(self.packed / "n", self.room / "elsewhere")
        os.symlink(self.room / "elsewhere", self.packed / "n")
        self.looks("its packed file is in a folder that is a link")

    def test_a_plain_file_that_changed(self) -> None:
        self.packs()
        self.write("a.fits", image(5, high=31))
        self.looks("the plain file has another size or time")

    def test_a_plain_file_that_is_a_link_by_now(self) -> None:
        self.packs()
        shutil.move(self.plain / "a.fits", self.room / "a")
        os.symlink(self.room / "a", self.plain / "a.fits")
        self.looks("the plain file is a link, a pipe or unreadable")


class EachStateHasItsOutcome(Archive):
    """An outcome and a status for each thing that is not well."""

    def test_compare_without_plain_files(self) -> None:
        self.packs()
        (self.plain / "a.fits").unlink()
        status, said = self.run_it("compare", self.plain)
        self.assertEqual((status, said.splitlines()[-1]), (1, "compare: 2 files, 1 done (1 identical), 1 failed, 0 skipped"))
        self.assertIn("the plain file is gone", said)
        status, said = self.run_it("compare", self.plain, "--without-plain")
        self.assertEqual((status, said.splitlines()[-1]), (0, "compare: 2 files, 2 done (1 identical, 1 identical by SHA-256), 0 failed, 0 skipped"))
        shutil.rmtree(self.plain)
        self.assertEqual(self.run_it("compare", self.plain)[0], 1)
        self.assertEqual(self.run_it("compare", self.packed, "--without-plain")[0], 0)

    def test_files_that_were_never_packed(self) -> None:
        self.write("bad.fits", b"")
        self.assertEqual(self.run_it("pack", self.plain)[0], 1)
        for verb in ("verify", "compare"):
            self.named("never packed: 1 file", verb, self.plain)
        self.named("never packed: 1 file", "restore", self.room / "back", self.packed)

    def test_packed_files_that_the_manifest_does_not_know(self) -> None:
        self.packs()
        shutil.copy(self.packed / "a.fits.fz", self.packed / "n" / "stranger.fits.fz")
        for verb in ("verify", "compare", "pack"):
            self.named("packed file is not in the manifest", verb, self.plain)
        self.named("packed file is not in the manifest", "restore", self.room / "back", self.packed)
        self.looks("the manifest does not know it")

    def test_a_row_that_was_deleted(self) -> None:
        self.packs()
        sql = sqlite3.connect(self.packed / "fzbatch.sqlite")
        sql.execute("DELETE FROM files WHERE path = CAST('a.fits' AS BLOB)")
        sql.commit()
        sql.close()
        for verb in ("report", "status", "missing", "verify", "pack"):
            status, said = self.run_it(verb, self.plain, self.packed, *(("-o", self.room / "r.html") if verb == "report" else ()))
            self.assertEqual(status, 2, said)
            self.assertIn("rows are gone or changed", said)


class PackedFilesOfOtherRows(Archive):
    """A packed file that another row owns is never replaced."""

    def test_one_packed_file_of_two_names(self) -> None:
        # as a disk that ignores case has it: two names lead to one file
        self.packs()
        self.write("A.fits", image(7))
        os.link(self.packed / "a.fits.fz", self.packed / "A.fits.fz")
        before = (self.packed / "A.fits.fz").stat()
        self.named("packed name is taken", "pack", self.plain, "--update")
        self.assertEqual((self.packed / "A.fits.fz").stat().st_ino, before.st_ino)
        self.assertEqual(self.run_it("restore", self.room / "back", self.packed)[0], 1)
        self.assertEqual((self.room / "back" / "a.fits").read_bytes(), image(1))


class ChangesWithinTheClocksGrain(Archive):
    """A plain file that is changed within the clock's grain is read again."""

    def test_a_change_that_leaves_the_time(self) -> None:
        path = self.write("a.fits", image(1), age=0.0)
        self.packs()
        it = path.stat()
        data = bytearray(path.read_bytes())
        data[BLOCK + 7] ^= 1
        with open(path, "r+b") as to:
            to.write(data)
        os.utime(path, ns=(it.st_atime_ns, it.st_mtime_ns))
        self.looks("the plain file is another than the one that was packed")
        self.named("plain file changed", "pack", self.plain)

    def test_an_old_file_is_not_read_again(self) -> None:
        path = self.write("a.fits", image(1))
        self.packs()
        os.chmod(path, 0)
        self.addCleanup(os.chmod, path, 0o600)
        self.assertEqual(self.run_it("pack", self.plain)[0], 0)


if __name__ == "__main__":
    unittest.main()
