"""What a file with holes costs, what the parser prints, and what --dry-run and the first line of a report promise. Each class is one find."""
from __future__ import annotations

import os
import shutil
import signal
import subprocess
import sys
import time
import unittest
from pathlib import Path

sys.path[:0] = [str(Path(__file__).resolve().parents[1])]

from batch.two_files import FZ, FZBATCH, Archive, tree  # noqa: E402
from fzfits.batch import wanted  # noqa: E402

# A file with holes of this length takes minutes to be read.
HUGE = 1 << 40


class FileWithHoles(Archive):
    """A packed file that is far longer than the one that was made is named at once, and is not read."""

    def test_it_is_not_read(self) -> None:
        self.packs()
        path = self.packed / "a.fits.fz"
        try:
            os.truncate(path, HUGE)
        except OSError:
            self.skipTest("this disk has no files with holes")
        for words in (("verify", self.packed), ("verify", "--sha256-only", self.packed), ("compare", self.plain), ("restore", self.room / "back", self.packed), ("pack", self.plain)):
            status, said = self.starts(*words, seconds=40)
            self.assertEqual((status, "a.fits" in said), (1, True), f"{words}: {said}")

    def test_the_second_signal_ends_a_run(self) -> None:
        """The first waits for the files that are being done."""
        self.packs()
        path = self.packed / "a.fits.fz"
        os.truncate(path, HUGE)
        self.put(b"a.fits", packed_size=HUGE, packed_mtime=path.stat().st_mtime_ns)
        log = self.room / "log"
        with subprocess.Popen([sys.executable, str(FZBATCH), "verify", str(self.packed), "--log", str(log)], env={**os.environ, "FZ": FZ}, stdout=subprocess.DEVNULL, stderr=subprocess.DEVNULL) as run:
            self.addCleanup(run.kill)
            end = time.monotonic() + 120
            while not (log.exists() and b"n/b.fits" in log.read_bytes()) and time.monotonic() < end:
                time.sleep(0.1)
            for _ in range(2):
                self.assertIsNone(run.poll())
                run.send_signal(signal.SIGTERM)
                time.sleep(3)
            ended = run.poll()
            run.kill()
        self.assertEqual(ended, -signal.SIGTERM)

    def test_signals_as_they_were(self) -> None:
        before = signal.getsignal(signal.SIGTERM)
        found = []
        with wanted.signals(found.append):
            os.kill(os.getpid(), signal.SIGTERM)
            self.assertEqual((found, signal.getsignal(signal.SIGTERM)), ([signal.SIGTERM], signal.SIG_DFL))
        self.assertEqual(signal.getsignal(signal.SIGTERM), before)


class Parser(Archive):
    """What the parser says of a word has nothing that controls a terminal: a pattern of the shell gives names of files."""

    def test_words(self) -> None:
        self.packs()
        for words in (("verify", self.packed, "-\x1b]0;title\x07"), ("status", self.packed, "--all\x1b[31m"), ("verify", self.packed, "--jobs", "\x1b[31m"), ("nothing\x1b[31m",)):
            status, said = self.starts(*words)
            self.assertEqual((status, "\x1b" in said, "\x07" in said), (2, False, False), repr(said))


class SwappedFolders(Archive):
    """`pack` of a folder of packed files into that of the plain ones is a slip: nothing is written among the originals."""

    def test_it_is_rejected(self) -> None:
        self.packs()
        before = tree(self.plain)
        status, said = self.run_it("pack", self.packed, self.plain)
        self.assertEqual((status, "is a folder of packed files" in said), (2, True), said)
        self.assertEqual(tree(self.plain), before)
        self.packs()


class DryRun(Archive):
    """--dry-run that names what is not well does not end with 0."""

    def test_both_files_are_gone(self) -> None:
        self.packs()
        self.assertEqual(self.run_it("pack", "--dry-run", self.plain)[0], 0)
        (self.plain / "a.fits").unlink()
        (self.packed / "a.fits.fz").unlink()
        self.named("a.fits", "pack", "--dry-run", self.plain)


class OtherNames(Archive):
    """That the originals may be deleted is not said without the files that are in no packed file."""

    def test_the_page_and_the_line(self) -> None:
        for it in ("night.dat", "m31.fz", "raw.fits.zstd"):
            shutil.copy(self.plain / "a.fits", self.plain / it)
        (self.plain / "raw.fits.zstd").write_bytes(b"\x28\xb5\x2f\xfd")
        self.packs("--skip-compressed")
        self.assertEqual(self.run_it("compare", self.plain)[0], 0)
        page = self.room / "r.html"
        said = self.run_it("report", self.plain, "-o", page)[1]
        self.assertIn("Safe to delete the originals: no, 1 file", said)
        self.assertIn("2 files of other names are in no packed file", page.read_text())
        (self.plain / "raw.fits.zstd").unlink()
        said = self.run_it("report", self.plain, "-o", page)[1]
        self.assertIn("Safe to delete the originals: yes, all 2 files; not 2 files of other names", said)


class EmptyName(Archive):
    """A name that is empty, as that of a variable without a value, does not mean the folder in which fzbatch is called."""

    def test_it_is_an_error(self) -> None:
        self.packs()
        before = tree(self.room)
        here = os.getcwd()
        self.addCleanup(os.chdir, here)
        os.chdir(self.plain)
        calls = [(verb, "") for verb in ("adopt", "retile", "pack", "verify", "compare", "restore", "status", "missing", "report", "look")]
        calls += [("pack", "--beside", "--delete", ""), ("restore", "", str(self.packed)), ("pack", str(self.plain), ""), ("status", str(self.plain), "--manifest", "")]
        for words in calls:
            status, said = self.starts(*words)
            self.assertEqual((status, "a name is empty" in said), (2, True), f"{words}: {said}")
        self.assertEqual(tree(self.room), before)


if __name__ == "__main__":
    unittest.main()
