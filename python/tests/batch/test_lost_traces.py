"""What was known of an archive is not lost by an older manifest, a new one, or a clock. Each class is one find."""
from __future__ import annotations

import os
import shutil
import sys
import unittest
from pathlib import Path
from unittest import mock

sys.path[:0] = [str(Path(__file__).resolve().parents[1])]

from batch.test_finds import flip  # noqa: E402
from batch.two_files import Archive, image  # noqa: E402
from fzfits.batch import keep, manifest  # noqa: E402


class OlderManifest(Archive):
    """A manifest whose second copy knows later runs is an older one, or that of another archive: nothing is called well by it."""

    def lose(self, *names: str) -> None:
        for it in names:
            (self.plain / it).unlink()
            (self.packed / f"{it}.fz").unlink()

    def rejected(self) -> None:
        """Each command ends with 2 and names the copy, and `rebuild` reads that one."""
        before = (self.packed / "fzbatch.sqlite.copy").read_bytes()
        for verb in ("missing", "status", "verify", "compare", "pack", "report"):
            status, said = self.run_it(verb, self.plain, self.packed, *(("-o", self.room / "r.html") if verb == "report" else ()))
            self.assertEqual((status, "fzbatch.sqlite.copy" in said, "fzbatch rebuild" in said), (2, True, True), f"{verb}: {said}")
        self.assertEqual((self.packed / "fzbatch.sqlite.copy").read_bytes(), before)
        self.named("c.fits", "rebuild", self.packed)
        self.looks("c.fits")
        self.named("c.fits", "verify", self.packed)

    def test_from_a_backup(self) -> None:
        self.packs()
        shutil.copy(self.packed / "fzbatch.sqlite", self.room / "backup")
        self.write("c.fits", image(5))
        self.packs()
        self.lose("c.fits")
        shutil.copy(self.room / "backup", self.packed / "fzbatch.sqlite")
        self.rejected()

    def test_of_the_same_run_before_its_end(self) -> None:
        """A backup that was made while the run was at work: what that run found later is not in it."""
        self.packs()
        self.assertEqual(self.run_it("verify", self.packed, "--engine", "slurm")[0], 0)
        shutil.copy(self.packed / "fzbatch.sqlite", self.room / "backup")
        flip(self.packed / "a.fits.fz")
        self.assertEqual(self.run_it("share", self.plain, self.packed)[0], 1)
        self.named("a.fits", "collect", self.packed)
        self.looks("a.fits")
        shutil.copy(self.room / "backup", self.packed / "fzbatch.sqlite")
        for verb in ("missing", "status", "pack"):
            status, said = self.run_it(verb, self.plain, self.packed)
            self.assertEqual((status, "knows later runs" in said), (2, True), f"{verb}: {said}")
        self.named("a.fits", "rebuild", self.packed)
        self.looks("a.fits")

    def test_of_another_archive(self) -> None:
        self.write("c.fits", image(5))
        self.packs()
        self.lose("c.fits")
        other = self.room / "other"
        other.mkdir()
        self.assertEqual(self.run_it("pack", other, "--allow-empty")[0], 0)
        shutil.copy(self.room / "other.fz" / "fzbatch.sqlite", self.packed / "fzbatch.sqlite")
        self.rejected()

    def older(self, *words: object, status: int) -> None:
        """After a command the manifest from before it is an older one."""
        shutil.copy(self.packed / "fzbatch.sqlite", self.room / "backup")
        found, said = self.run_it(*words)
        self.assertEqual(found, status, said)
        after = (self.packed / "fzbatch.sqlite").read_bytes()
        shutil.copy(self.room / "backup", self.packed / "fzbatch.sqlite")
        for verb in ("missing", "status", "verify", "pack"):
            found, said = self.run_it(verb, self.plain, self.packed)
            self.assertEqual((found, "knows later runs" in said), (2, True), f"{words}, then {verb}: {said}")
        (self.packed / "fzbatch.sqlite").write_bytes(after)

    def test_from_before_a_rebuild(self) -> None:
        """What the rebuild found is not forgotten by a backup of the manifest from before it."""
        self.packs()
        flip(self.packed / "a.fits.fz")
        self.older("rebuild", self.packed, "--again", status=1)
        self.looks("a.fits")

    def test_from_before_a_forget(self) -> None:
        self.packs()
        self.lose("a.fits")
        status, said = self.run_it("forget", self.packed, "--name", "a.fits", "--name", "n/b.fits")
        self.assertEqual((status, "n/b.fits has a packed file" in said), (2, True), said)
        self.looks("a.fits")
        self.older("forget", self.packed, "--name", "a.fits", status=0)
        self.assertEqual(self.run_it("missing", self.plain)[0], 0)

    def test_from_before_a_part_was_collected(self) -> None:
        self.packs()
        self.assertEqual(self.run_it("verify", self.packed, "--engine", "slurm")[0], 0)
        flip(self.packed / "a.fits.fz")
        with mock.patch.dict(os.environ, {"SLURM_ARRAY_TASK_ID": "0", "SLURM_ARRAY_TASK_COUNT": "2"}):
            self.assertEqual(self.run_it("share", self.plain, self.packed)[0], 1)
        shutil.copy(self.packed / "fzbatch.sqlite", self.room / "backup")
        self.named("a.fits", "collect", self.packed)
        shutil.copy(self.room / "backup", self.packed / "fzbatch.sqlite")
        self.assertEqual(self.run_it("missing", self.packed)[0], 2)

    def test_a_rebuild_that_was_killed_is_not_older(self) -> None:
        """It is killed after the new manifest got its name, and before the second copy is written."""
        self.packs()
        (self.packed / "fzbatch.sqlite").unlink()
        with mock.patch.object(keep, "keep", side_effect=KeyboardInterrupt), self.assertRaises(KeyboardInterrupt):
            self.run_it("rebuild", self.packed)
        self.assertEqual(self.run_it("verify", self.packed)[0], 0)
        self.packs()

    def test_a_copy_of_an_earlier_run_is_none(self) -> None:
        """A run that was killed leaves an older copy, and a copy that is damaged says nothing."""
        self.packs()
        copy = self.packed / "fzbatch.sqlite.copy"
        before = copy.read_bytes()
        self.write("c.fits", image(5))
        self.packs()
        for it in (before, before[:3000], b"SQLite format 3\0", b""):
            copy.write_bytes(it)
            self.assertEqual(self.run_it("missing", self.plain, self.packed)[0], 0)
        copy.unlink()
        self.assertEqual(self.run_it("verify", self.packed)[0], 0)


class BegunAnew(Archive):
    """`pack` without a manifest and a second copy names what SHA256SUMS says was there, and keeps its line."""

    def test_a_lost_file(self) -> None:
        self.write("c.fits", image(5))
        self.packs()
        line = next(it for it in (self.packed / "SHA256SUMS").read_text().splitlines() if it.endswith("a.fits.fz"))
        for it in ("fzbatch.sqlite", "fzbatch.sqlite.copy", "a.fits.fz", "c.fits.fz"):
            (self.packed / it).unlink()
        (self.plain / "a.fits").unlink()
        for _ in range(2):
            self.named("a.fits", "pack", self.plain)
            self.looks("a.fits")
            self.assertIn(line, (self.packed / "SHA256SUMS").read_text())
        self.assertTrue((self.packed / "c.fits.fz").exists())
        self.assertEqual(self.run_it("forget", self.packed, "--name", "a.fits")[0], 0)
        self.packs()


class DamagedSums(Archive):
    """A line of SHA256SUMS that is damaged hides no packed file that is lost."""

    def test_rebuild_and_pack(self) -> None:
        self.packs()
        path = self.packed / "SHA256SUMS"
        data = path.read_bytes()
        at = data.index(b"  a.fits.fz")
        for it in ("fzbatch.sqlite", "fzbatch.sqlite.copy", "a.fits.fz"):
            (self.packed / it).unlink()
        for bad in (data[: at - 1] + b"g" + data[at:], data[:at] + b"\xa0 " + data[at + 2 :], data[:-1]):
            path.write_bytes(bad)
            for words in (("rebuild", self.packed), ("pack", self.plain), ("rebuild", self.packed)):
                status, said = self.run_it(*words)
                self.assertEqual((status, "SHA256SUMS is none that fzbatch wrote" in said), (2, True), said)
                self.assertEqual((path.read_bytes(), (self.packed / "fzbatch.sqlite").exists()), (bad, False))
        path.write_bytes(data)
        self.named("a.fits", "rebuild", self.packed)

    def test_the_second_copy_says_the_same(self) -> None:
        self.packs()
        path = self.packed / "SHA256SUMS"
        path.write_bytes(path.read_bytes()[:-1])
        for it in ("fzbatch.sqlite", "a.fits.fz"):
            (self.packed / it).unlink()
        self.named("a.fits", "rebuild", self.packed)
        self.assertTrue(path.read_bytes().endswith(b"\n"))


class CertifiedAnew(Archive):
    """A packed file that SHA256SUMS names as another one is not certified after `pack` looked at it."""

    def test_rebuild_pack_rebuild(self) -> None:
        self.packs()
        other = self.room / "other"
        other.mkdir()
        (other / "a.fits").write_bytes(image(77))
        self.assertEqual(self.run_it("pack", other)[0], 0)
        for it in ("fzbatch.sqlite", "fzbatch.sqlite.copy"):
            (self.packed / it).unlink()
        shutil.copy2(self.room / "other.fz" / "a.fits.fz", self.packed / "a.fits.fz")
        self.named("a.fits", "rebuild", self.packed)
        self.named("a.fits", "pack", self.plain)
        (self.plain / "a.fits").unlink()
        self.named("a.fits", "rebuild", self.packed, "--again")
        self.looks("a.fits")


class ClockThatGoesBack(Archive):
    """An update that was killed is over when a later run of `pack` ends, whatever the clock says."""

    def test_both_files_replaced(self) -> None:
        self.packs()
        with mock.patch.object(manifest, "now", lambda: "2999-01-01T00:00:00Z"), manifest.Manifest(os.fsencode(self.packed / "fzbatch.sqlite")) as it:
            it.begin("0123456789abcdef", "pack --update", "here", 1)
        self.write("c.fits", image(5))
        self.packs()
        other = self.room / "other"
        other.mkdir()
        (other / "a.fits").write_bytes(image(77))
        self.assertEqual(self.run_it("pack", other)[0], 0)
        shutil.copy2(other / "a.fits", self.plain / "a.fits")
        shutil.copy2(self.room / "other.fz" / "a.fits.fz", self.packed / "a.fits.fz")
        self.named("plain file changed", "pack", self.plain)
        self.looks("a.fits")


if __name__ == "__main__":
    unittest.main()
