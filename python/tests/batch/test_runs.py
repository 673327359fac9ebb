"""Whole runs of fzbatch on small folders, by the program fz; and pictures."""
from __future__ import annotations

import contextlib
import importlib.util
import io
import json
import os
import shutil
import sys
import tempfile
import unittest
from pathlib import Path

TOP = Path(__file__).resolve().parents[3]
sys.path.insert(0, str(TOP / "python"))

from fzfits import program  # noqa: E402
from fzfits.batch import cli, lock  # noqa: E402
from fzfits.errors import NoProgram  # noqa: E402

SAMPLES = TOP / "samples"
DRAWS = all(importlib.util.find_spec(it) for it in ("numpy", "matplotlib", "astropy"))
try:
    FZ = program.find()
except NoProgram:
    FZ = ""


@unittest.skipUnless(FZ, "the program fz is not there: rt ci builds it, and FZ names another one")
class Runs(unittest.TestCase):
    """Each test has a folder `plain` with an image of counts and one of flags."""

    def setUp(self) -> None:
        room = tempfile.TemporaryDirectory()
        self.addCleanup(room.cleanup)
        self.room = Path(room.name)
        self.plain, self.packed = self.room / "plain", self.room / "plain.fz"
        (self.plain / "n").mkdir(parents=True)
        shutil.copy(SAMPLES / "small.fits", self.plain / "a.fits")
        shutil.copy(SAMPLES / "flags.fits", self.plain / "n" / "b.fits")

    def run_it(self, *words: object) -> "tuple[int, str]":
        """The status of fzbatch, and what it printed."""
        said = io.StringIO()
        with contextlib.redirect_stdout(said), contextlib.redirect_stderr(said):
            more = ["--fz", FZ] if words[0] in ("pack", "verify", "compare", "restore", "look", "rebuild") else []
            status = cli.main([*map(str, words), *more])
        return status, said.getvalue()

    def last(self, *words: object) -> "tuple[int, str]":
        status, said = self.run_it(*words)
        return status, said.splitlines()[-1]

    def test_there_and_back(self) -> None:
        self.assertEqual(self.last("pack", self.plain), (0, "pack: 2 files, 2 done (2 compressed), 0 failed, 0 skipped"))
        self.assertIn(f"The packed files are in {self.packed}.\n", self.run_it("pack", self.plain)[1])
        self.assertEqual(self.last("pack", self.plain), (0, "pack: 2 files, 2 done (2 up to date), 0 failed, 0 skipped"))
        self.assertEqual(self.last("verify", self.packed), (0, "verify: 2 files, 2 done (2 verified), 0 failed, 0 skipped"))
        self.assertEqual(self.last("compare", self.plain), (0, "compare: 2 files, 2 done (2 identical), 0 failed, 0 skipped"))
        back = self.room / "back"
        self.assertEqual(self.last("restore", back, self.packed), (0, "restore: 2 files, 2 done (2 restored), 0 failed, 0 skipped"))
        for name in ("a.fits", "n/b.fits"):
            self.assertEqual((back / name).read_bytes(), (self.plain / name).read_bytes())
            self.assertEqual((back / name).stat().st_mtime_ns, (self.plain / name).stat().st_mtime_ns)
        self.assertEqual(self.last("restore", back, self.packed)[1], "restore: 2 files, 2 done (2 up to date), 0 failed, 0 skipped")
        self.assertEqual(self.run_it("missing", self.plain), (0, ""))
        self.assertEqual(self.last("status", self.packed)[0], 0)
        rows = [json.loads(it) for it in self.run_it("status", self.packed, "--json")[1].splitlines()]
        self.assertEqual([it["path"] for it in rows], ["a.fits", "n/b.fits"])

    def test_a_lost_manifest(self) -> None:
        self.run_it("pack", self.plain)
        before = (self.packed / "a.fits.fz").stat()
        (self.packed / "fzbatch.sqlite").unlink()
        self.assertEqual(self.last("verify", self.plain)[0], 2)
        self.assertEqual(self.last("pack", self.plain)[0], 2)
        (self.packed / "fzbatch.sqlite.copy").unlink()
        self.assertEqual(self.last("pack", self.plain), (0, "pack: 2 files, 2 done (2 compressed), 0 failed, 0 skipped"))
        self.assertEqual((self.packed / "a.fits.fz").stat().st_ino, before.st_ino)

    def test_a_packed_name_that_is_taken(self) -> None:
        self.packed.mkdir()
        taken = self.packed / "a.fits.fz"
        taken.write_bytes(b"mine")
        status, said = self.run_it("pack", self.plain)
        self.assertEqual(status, 1)
        self.assertIn("packed name is taken", said)
        self.assertEqual(taken.read_bytes(), b"mine")
        self.assertEqual(self.last("pack", self.plain, "--update")[0], 0)
        self.assertEqual(self.last("compare", self.plain)[0], 0)

    def test_a_plain_file_that_is_there_stays(self) -> None:
        self.run_it("pack", self.plain)
        (self.room / "back").mkdir()
        kept = self.room / "back" / "a.fits"
        kept.write_bytes(b"mine")
        status, said = self.run_it("restore", self.room / "back", self.packed)
        self.assertEqual(status, 1)
        self.assertIn("another plain file is there", said)
        self.assertEqual(kept.read_bytes(), b"mine")
        self.assertEqual(self.last("status", self.packed)[0], 0)

    def test_wrong_sums_are_packed_when_asked(self) -> None:
        shutil.copy(SAMPLES / "sums.fits", self.plain)
        status, said = self.run_it("pack", self.plain)
        self.assertEqual(status, 1)
        self.assertIn("wrong checksum in the plain file", said)
        self.assertEqual(self.last("pack", self.plain, "--accept-wrong-sums")[0], 0)
        self.assertEqual(self.last("verify", self.plain)[0], 0)

    def test_what_to_do_is_made_of_sentences(self) -> None:
        raw = (SAMPLES / "star_field.fits").read_bytes()
        (self.plain / "fill.fits").write_bytes(raw[:2879] + b"A" + raw[2880:])
        (self.plain / "short.fits").write_bytes(raw[:-50])
        said = self.run_it("pack", self.plain)[1]
        self.assertIn("What to do: 1 byte of the padding of the header of HDU 0 is not blank. fzfits mend --header-fill ", said)
        self.assertIn("COPY; or fzfits mend --pad ", said)

    def test_sources_that_may_be_another_disk(self) -> None:
        self.run_it("pack", self.plain)
        other = self.room / "other"
        other.mkdir()
        shutil.copy(SAMPLES / "small.fits", other / "c.fits")
        status, said = self.run_it("pack", other, self.packed)
        self.assertEqual(status, 2)
        self.assertIn("has none of the 2 files of the manifest", said)
        self.assertEqual(self.last("pack", other, self.packed, "--allow-empty")[0], 0)
        for words in (("pack", self.plain, self.plain), ("pack", self.plain, self.plain / "n"), ("pack", self.plain / "n", self.plain)):
            self.assertIn("one is in the other", self.run_it(*words)[1])

    def test_missing_names_a_packed_file_that_was_found_wrong(self) -> None:
        self.run_it("pack", self.plain)
        (self.packed / "a.fits.fz").write_bytes(b"no more")
        self.assertEqual(self.last("verify", self.packed)[0], 1)
        status, said = self.run_it("missing", self.plain)
        self.assertEqual((status, said.splitlines()[0][:8], len(said.splitlines())), (1, "a.fits: ", 1))
        self.assertEqual(self.last("pack", self.plain, "--update")[0], 0)
        self.assertEqual(self.run_it("missing", self.plain), (0, ""))

    def test_missing_says_that_the_plain_files_are_not_there(self) -> None:
        self.run_it("pack", self.plain)
        shutil.rmtree(self.plain)
        status, said = self.run_it("missing", self.plain, self.packed)
        self.assertEqual((status, "is not there: only files of the manifest" in said), (1, True))
        self.plain.mkdir()
        status, said = self.run_it("missing", self.plain, self.packed)
        self.assertEqual((status, "has no FITS file: only files of the manifest" in said), (1, True))

    def test_what_the_system_says_is_told_with_the_name_as_it_is(self) -> None:
        status, said = self.run_it("look", self.room / "no where")
        self.assertEqual((status, said), (2, f"fzbatch: {self.room}/no where: No such file or directory\n"))

    def test_a_damaged_manifest(self) -> None:
        self.run_it("pack", self.plain)
        (self.packed / "fzbatch.sqlite").write_bytes(b"garbage" * 999)
        for verb in ("pack", "verify", "status"):
            status, said = self.run_it(verb, self.plain)
            self.assertEqual((status, "move it away, and fzbatch pack makes a new one" in said), (2, True), said)
        (self.packed / "fzbatch.sqlite").rename(self.room / "damaged")
        self.assertEqual(self.last("pack", self.plain)[0], 2)
        self.assertEqual(self.last("rebuild", self.packed), (0, "rebuild: 2 files, 2 done (2 compressed), 0 failed, 0 skipped"))
        self.assertEqual(self.last("pack", self.plain), (0, "pack: 2 files, 2 done (2 up to date), 0 failed, 0 skipped"))
        for it in ("fzbatch.sqlite", "fzbatch.sqlite.copy"):
            (self.packed / it).unlink()
        self.assertEqual(self.last("pack", self.plain), (0, "pack: 2 files, 2 done (2 compressed), 0 failed, 0 skipped"))

    def test_another_run(self) -> None:
        self.run_it("pack", self.plain)
        with lock.held(os.fsencode(self.packed / "fzbatch.lock")):
            status, said = self.run_it("verify", self.plain)
        self.assertEqual(status, 2)
        self.assertIn(f"another run is at work in {self.packed}: process {os.getpid()}", said)

    def test_what_is_gone(self) -> None:
        (self.plain / "bad.fits").write_bytes(b"")
        self.run_it("pack", self.plain)
        (self.plain / "bad.fits").unlink()
        (self.plain / "a.fits").unlink()
        status, said = self.run_it("pack", self.plain)
        self.assertEqual(status, 1)
        self.assertIn("gone, and never packed: 1 file", said)
        self.assertIn("plain files were packed by earlier runs", said)
        self.assertEqual(self.last("forget", self.plain, "--name", "a.fits")[0], 2)
        self.assertEqual(self.last("forget", self.plain, "--name", "bad.fits"), (0, "forgotten: bad.fits"))
        self.assertEqual(self.last("pack", self.plain)[0], 0)

    def test_the_page(self) -> None:
        (self.plain / "<b>.fits").write_bytes(b"")
        self.run_it("pack", self.plain)
        out = self.room / "r.html"
        self.assertEqual(self.run_it("report", self.plain, "-o", out), (1, f"{out}\nSafe to delete the originals: no, 3 files\n"))
        page = out.read_text()
        self.assertIn("Safe to delete the originals: no, 3 files<", page)
        self.assertIn("1 file is not well: see below.", page)
        self.assertIn("2 files were not compared with their originals yet", page)
        self.assertIn("<h3>Truncated (kind 2): 1 file</h3>", page)
        self.assertIn("&lt;b&gt;.fits", page)
        self.assertNotIn("<b>.fits", page)
        out.write_bytes(b"mine")
        self.assertEqual(self.last("report", self.plain, "-o", out)[0], 2)

    @unittest.skipUnless(DRAWS, "matplotlib or astropy is not installed")
    def test_a_picture(self) -> None:
        self.run_it("pack", self.plain)
        out = self.room / "a.png"
        status, said = self.run_it("look", self.packed / "n" / "b.fits.fz", "-o", out, "--size", 20)
        self.assertEqual(status, 0)
        self.assertIn("axes of pixels: there are no celestial coordinates", said)
        self.assertIn("averages of ", said)
        drawn = out.read_bytes()
        self.assertEqual(drawn[:4], b"\x89PNG")
        # never over a file
        status, said = self.run_it("look", self.plain / "a.fits", "-o", out)
        self.assertEqual((status, "is there: give another name" in said, out.read_bytes()), (2, True, drawn))
        # a plain file, and a folder
        self.assertEqual(self.run_it("look", self.plain / "a.fits", "-o", self.room / "b.png")[0], 0)
        status, said = self.run_it("look", self.plain, "-o", self.room / "all.html")
        page = (self.room / "all.html").read_text()
        self.assertEqual((status, "<b>n/b.fits</b>" in page, ": 2 files, 0 of them not shown" in said), (0, True, True))
        self.assertIn("Content-Security-Policy\" content=\"default-src 'none'; style-src 'unsafe-inline'; img-src data:\"", page)


if __name__ == "__main__":
    unittest.main()
