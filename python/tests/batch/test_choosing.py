"""Parts of an archive: files by patterns, by a list, and by name."""
from __future__ import annotations

import os
import subprocess
import sys
import unittest
from pathlib import Path

sys.path[:0] = [str(Path(__file__).resolve().parents[1])]

from batch.two_files import FZ, FZBATCH, Archive, image  # noqa: E402
from fzfits.batch.chosen import Chosen  # noqa: E402


class Patterns(Archive):
    """--include, --exclude and --from-list."""

    def setUp(self) -> None:
        super().setUp()
        self.write("n/flat_1.fits", image(3))
        self.write("flat_2.fits", image(4))

    def packed_names(self) -> "list[str]":
        return sorted(str(it.relative_to(self.packed)) for it in self.packed.rglob("*.fz"))

    def test_which_paths_fit(self) -> None:
        for include, exclude, path, wanted in (
            ((), (), b"n/a.fits", True),
            ((b"a*.fits",), (), b"n/a1.fits", True),
            ((b"n/*",), (), b"n/a.fits", True),
            ((b"n/*",), (), b"a.fits", False),
            ((), (b"n/*",), b"n/m/a.fits", False),
            ((b"*.fits",), (b"flat_*",), b"n/flat_1.fits", False),
            ((b"[ab].fits", b"c.fits"), (), b"c.fits", True),
            ((b"\xe9*",), (), b"\xe9t\xe9.fits", True),
        ):
            self.assertEqual(Chosen(include, exclude).has(path), wanted, (include, exclude, path))

    def test_pack_some_and_then_the_rest(self) -> None:
        status, said = self.run_it("pack", self.plain, "--include", "flat_*")
        self.assertEqual((status, said.splitlines()[-1]), (0, "pack: 2 files, 2 done (2 compressed), 0 failed, 0 skipped"))
        self.assertEqual(self.packed_names(), ["flat_2.fits.fz", "n/flat_1.fits.fz"])
        status, said = self.run_it("pack", self.plain, "--exclude", "n/*")
        self.assertEqual((status, said.splitlines()[-1]), (0, "pack: 2 files, 2 done (1 compressed, 1 up to date), 0 failed, 0 skipped"))
        status, said = self.run_it("pack", self.plain)
        self.assertEqual((status, said.splitlines()[-1]), (0, "pack: 4 files, 4 done (1 compressed, 3 up to date), 0 failed, 0 skipped"))

    def test_what_is_not_chosen_is_not_forgotten(self) -> None:
        self.packs()
        (self.packed / "a.fits.fz").unlink()
        self.assertEqual(self.run_it("pack", self.plain, "--include", "flat_*")[0], 0)
        self.looks("its packed file is not there")
        self.named("a.fits: the packed file is not there", "verify", self.packed, "--include", "a.fits")
        self.assertEqual(self.run_it("verify", self.packed, "--exclude", "a.fits")[0], 0)

    def test_patterns_that_fit_nothing_are_a_mistake(self) -> None:
        for words in (("pack", self.plain, "--include", "flats_*"), ("pack", self.plain, "--exclude", "*")):
            status, said = self.run_it(*words)
            self.assertEqual((status, "leave no file of" in said), (2, True), said)
            self.assertFalse(self.packed.exists())
        self.packs()
        self.assertEqual(self.run_it("verify", self.packed, "--include", "x")[0], 2)
        back = self.room / "back"
        self.assertEqual(self.run_it("restore", back, self.packed, "--include", "x")[0], 2)
        self.assertFalse(back.exists())

    def test_a_list(self) -> None:
        for data in (b"a.fits\nn/flat_1.fits\n", b"a.fits\0n/flat_1.fits\0"):
            listed = self.room / "list"
            listed.write_bytes(data)
            status, said = self.run_it("pack", self.plain, "--from-list", listed)
            self.assertEqual((status, self.packed_names()), (0, ["a.fits.fz", "n/flat_1.fits.fz"]), said)

    def test_a_list_with_a_name_that_is_not_there_does_nothing(self) -> None:
        (self.room / "list").write_text("a.fits\nb.fits\n")
        status, said = self.run_it("pack", self.plain, "--from-list", self.room / "list")
        self.assertEqual((status, f"b.fits is not in {self.plain}" in said, self.packed.exists()), (2, True, False), said)
        self.assertEqual(self.run_it("pack", self.plain, "--from-list", self.room / "none")[0], 2)

    def test_what_missing_prints_is_a_list_for_pack(self) -> None:
        """As in a shell: fzbatch missing -0 | fzbatch pack --from-list -."""
        odd = os.path.join(os.fsencode(self.plain), b"line\nfeed \xe9.fits")
        with open(odd, "wb") as it:
            it.write(image(5))
        self.run_it("pack", self.plain, "--include", "flat_*")
        line = f"{sys.executable} {FZBATCH} missing -0 {self.plain} | {sys.executable} {FZBATCH} pack --from-list - {self.plain}"
        for done in ("3 done (3 compressed)", "0 done"):
            ended = subprocess.run(["sh", "-c", line], env={**os.environ, "FZ": FZ}, capture_output=True, text=True, check=False)
            self.assertEqual((ended.returncode, done in ended.stdout), (0, True), ended)
        self.assertEqual(self.run_it("missing", self.plain)[0], 0)


class SingleFiles(Archive):
    """`restore` and `verify` of one file."""

    def test_restore_one(self) -> None:
        self.packs()
        back = self.room / "back"
        for name in ("n/b.fits", "n/b.fits.fz", self.packed / "n" / "b.fits.fz", back / "n" / "b.fits"):
            status, said = self.run_it("restore", back, self.packed, name)
            self.assertEqual(status, 0, said)
            self.assertEqual((back / "n" / "b.fits").read_bytes(), image(2))
            self.assertFalse((back / "a.fits").exists())
            (back / "n" / "b.fits").unlink()
        status, said = self.run_it("restore", back, self.packed, "n/b.fits", "a.fits")
        self.assertEqual((status, said.splitlines()[-1]), (0, "restore: 2 files, 2 done (2 restored), 0 failed, 0 skipped"))

    def test_verify_one(self) -> None:
        self.packs()
        with open(self.packed / "a.fits.fz", "r+b") as it:
            it.write(b"T")
        for words, status in (((self.packed, "n/b.fits"), 0), ((self.plain, self.packed, "n/b.fits.fz"), 0), ((self.packed, "--jobs", "1", "a.fits"), 1), ((self.packed, "a.fits", "n/b.fits"), 1), ((self.packed,), 1)):
            found, said = self.run_it("verify", *words)
            self.assertEqual(found, status, f"{words}: {said}")
        self.assertEqual(self.run_it("compare", self.packed, "n/b.fits")[0], 0)

    def test_a_name_that_the_archive_does_not_have(self) -> None:
        self.packs()
        for words in (("verify", self.packed, "x.fits"), ("restore", self.room / "back", self.packed, "x.fits"), ("verify", self.packed, "../plain.fz/x.fits")):
            status, said = self.run_it(*words)
            self.assertEqual((status, f"x.fits is not in {self.packed}" in said), (2, True), said)
        self.assertFalse((self.room / "back").exists())

    def test_folders_may_come_after_options(self) -> None:
        other = self.room / "other"
        self.assertEqual(self.run_it("pack", self.plain, "--jobs", "1", other)[0], 0)
        self.assertTrue((other / "a.fits.fz").exists())
        status, said = self.run_it("pack", self.plain, other, "a.fits")
        self.assertEqual((status, "pack takes two folders, and was given a.fits too" in said), (2, True), said)


if __name__ == "__main__":
    unittest.main()
