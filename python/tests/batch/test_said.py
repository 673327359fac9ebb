"""What a run says: words that need no legend, each failure once, and nothing if it is asked to be quiet."""
from __future__ import annotations

import contextlib
import io
import os
import pty
import select
import subprocess
import sys
import time
import unittest
from pathlib import Path
from unittest import mock

sys.path[:0] = [str(Path(__file__).resolve().parents[1])]

from batch.two_files import FZ, FZBATCH, SAMPLES, Archive, image, tree  # noqa: E402
from fzfits.batch import progress  # noqa: E402


class Summary(Archive):
    """The summary of a run."""

    def test_the_words_of_each_command(self) -> None:
        for words, wanted in (
            (("pack", self.plain), "compressed"),
            (("pack", self.plain), "up to date"),
            (("verify", self.packed), "verified"),
            (("compare", self.plain), "identical"),
            (("restore", self.room / "back", self.packed), "restored"),
        ):
            status, said = self.run_it(*words)
            self.assertEqual(status, 0, said)
            self.assertRegex(said.splitlines()[-1], rf"^\w+: (\d+) files, \1 done \(\d+ {wanted}\), 0 failed, 0 skipped$")

    def test_each_failure_once_with_its_own_hint(self) -> None:
        whole = image(1)
        self.write("more.fits", whole + b"more")
        self.write("less.fits", whole[:-5])
        self.write("empty.fits", b"")
        status, said = self.run_it("pack", self.plain)
        self.assertEqual(status, 1)
        for name in ("more.fits", "less.fits", "empty.fits"):
            self.assertEqual(said.count(f" {name}: "), 1, said)
        self.assertIn("Truncated (kind 2): 2 files\n", said)
        self.assertIn("TrailingBytes (kind 8): 1 file\n", said)
        flowed = " ".join(said.split())
        self.assertIn("empty.fits: fz pack: refused: 2 Truncated, HDU 0, byte 0 What to do: It is empty: fetch it again.", flowed)
        self.assertRegex(flowed, r"less.fits: fz pack: refused: 2 Truncated, HDU 0, byte \d+ What to do: Only padding is missing, 5 bytes.")
        self.assertRegex(flowed, r"What to do: There are 4 bytes after the last HDU..*; or fzfits mend --trailing \S+/more.fits OUT makes a copy without this fault.")
        self.assertNotIn("means", flowed.split("Truncated")[0])

    def test_the_same_hint_is_said_once(self) -> None:
        for it in range(3):
            self.write(f"{it}.fits", b"")
        said = self.run_it("pack", self.plain)[1]
        self.assertEqual((said.count("It is empty"), said.count("What to do:")), (1, 1), said)

    def test_a_packed_file_among_the_plain_ones(self) -> None:
        self.write("a.fits.fz", (SAMPLES / "packed" / "small.rice.fits").read_bytes())
        said = self.run_it("pack", self.plain)[1]
        self.assertIn("AlreadyPacked (kind 10): 1 file\n", said)
        self.assertIn("a.fits.fz: fz pack: already compressed with RICE_1 (10 AlreadyPacked, HDU 1)\n", said)


class Quiet(Archive):
    """--quiet, --log and --dry-run."""

    def test_quiet(self) -> None:
        self.assertEqual(self.run_it("pack", self.plain, "--quiet"), (0, ""))
        self.assertEqual(self.run_it("verify", self.packed, "-q"), (0, ""))
        self.write("bad.fits", b"")
        status, said = self.run_it("pack", self.plain, "-q")
        self.assertEqual((status, said.count("bad.fits"), said.splitlines()[-1]), (1, 1, "pack: 3 files, 2 done (2 up to date), 1 failed, 0 skipped"))

    def test_log(self) -> None:
        self.write("bad\n.fits", b"")
        log = self.room / "log"
        self.run_it("pack", self.plain, "-q", "--log", log)
        self.run_it("verify", self.packed, "--log", log)
        lines = log.read_text().splitlines()
        self.assertTrue(all(it[:20].endswith("Z") and it[10] == "T" for it in lines), lines)
        said = [it[21:] for it in lines]
        self.assertEqual(said[0], f"pack begins: {self.plain}, {self.packed}: 3 files to do")
        self.assertEqual(sorted(said[1:4])[1:], ["a.fits: compressed", "n/b.fits: compressed"])
        self.assertIn("$'bad\\n.fits': failed: fz pack: refused: 2 Truncated, HDU 0, byte 0", said[1:4])
        self.assertEqual(said[4], "pack: 3 files, 2 done (2 compressed), 1 failed, 0 skipped")
        self.assertEqual(said[-1], "verify: 3 files, 2 done (2 verified), 1 failed, 0 skipped")

    def test_dry_run_writes_nothing(self) -> None:
        before = tree(self.room)
        status, said = self.run_it("pack", self.plain, "--dry-run")
        self.assertEqual((status, tree(self.room)), (0, before))
        self.assertEqual(said.splitlines()[:2], ["would pack a.fits", "would pack n/b.fits"])
        self.assertRegex(said.splitlines()[-1], r"^pack --dry-run: 2 files to do \(.*\), 0 up to date, 0 failed before, 0 skipped; nothing was written$")
        self.packs()
        self.write("new.fits", image(5))
        self.write("raw.fits.gz", b"")
        back = self.room / "back"
        (back / "n").mkdir(parents=True)
        (back / "n" / "b.fits").write_bytes(image(2))
        before = tree(self.room)
        for words, wanted in (
            (("pack", self.plain), ["would pack new.fits"]),
            (("verify", self.packed), ["would verify a.fits", "would verify n/b.fits"]),
            (("verify", self.packed, "a.fits"), ["would verify a.fits"]),
            (("restore", back, self.packed), ["would restore a.fits"]),
            (("compare", self.plain), ["would compare a.fits", "would compare n/b.fits"]),
        ):
            status, said = self.run_it(*words, "-n")
            self.assertEqual((status, [it for it in said.splitlines() if it.startswith("would ")]), (0, wanted), said)
            self.assertEqual(tree(self.room), before)


class OnATerminal(Archive):
    """A line each second, if neither tqdm nor rich is there."""

    def test_the_lines(self) -> None:
        to = io.StringIO()
        to.isatty = lambda: True  # type: ignore[method-assign]
        with mock.patch.dict(sys.modules, {"tqdm": None, "rich": None, "rich.progress": None}):
            bar = progress.progress("pack", 3, 300, to)
        assert isinstance(bar, progress.Lines)
        bar.step(100)
        began = time.monotonic()
        while not to.getvalue() and time.monotonic() - began < 20:
            time.sleep(0.02)
        bar.close()
        self.assertRegex(to.getvalue(), r"^\rpack: 1 of 3 files, 100 bytes of 300 bytes, ")
        self.assertTrue(to.getvalue().endswith("\r"))
        self.assertIsInstance(progress.progress("pack", 3, 300, to, quiet=True), progress.Silent)

    def test_a_run_whose_files_take_long(self) -> None:
        slow = self.room / "slow"
        slow.write_text(f'#!/bin/sh\nsleep 2.5\nexec {FZ} "$@"\n')
        slow.chmod(0o755)
        # as if neither was installed
        code = f"import sys; sys.modules['tqdm'] = sys.modules['rich'] = None; sys.argv[0] = 'fzbatch'; import runpy; runpy.run_path({str(FZBATCH)!r}, run_name='__main__')"
        ours, theirs = pty.openpty()
        it = subprocess.Popen([sys.executable, "-c", code, "pack", str(self.plain), "--jobs", "2"], stdin=theirs, stdout=subprocess.DEVNULL, stderr=theirs, env={**os.environ, "FZ": str(slow)})
        os.close(theirs)
        said = b""
        while it.poll() is None:
            if select.select([ours], [], [], 0.1)[0]:
                # the last one that has the other end may close it meanwhile
                with contextlib.suppress(OSError):
                    said += os.read(ours, 4096)
        os.close(ours)
        self.assertEqual(it.wait(), 0, said)
        self.assertGreaterEqual(said.count(b"\rpack: 0 of 2 files, 0 bytes of "), 2, said)


if __name__ == "__main__":
    unittest.main()
