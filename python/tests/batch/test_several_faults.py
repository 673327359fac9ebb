"""A file with more than one fault: none of them is forgotten by a look that could not have found it. Each class is one find."""
from __future__ import annotations

import hashlib
import os
import shutil
import subprocess
import sys
import unittest
from pathlib import Path

sys.path[:0] = [str(Path(__file__).resolve().parents[1])]

from batch.two_files import FZ, FZBATCH, Archive, image  # noqa: E402


class TwoFaults(Archive):
    """A fault that takes a stronger test stays when a weaker one is found after it."""

    def another_inside(self) -> None:
        """The packed file of a.fits has the SHA-256 of the manifest, and restores another file."""
        other = self.room / "other"
        other.mkdir()
        (other / "a.fits").write_bytes(image(77))
        self.assertEqual(self.run_it("pack", other)[0], 0)
        path = self.packed / "a.fits.fz"
        shutil.copy2(self.room / "other.fz" / "a.fits.fz", path)
        found = path.stat()
        self.put(b"a.fits", packed_sha256=hashlib.sha256(path.read_bytes()).hexdigest(), packed_size=found.st_size, packed_mtime=found.st_mtime_ns)

    def away_for_a_verify(self) -> None:
        """The packed file of a.fits is away while `verify` looks for it."""
        os.rename(self.packed / "a.fits.fz", self.room / "away")
        self.named("a.fits", "verify", self.packed)
        self.looks("a.fits")
        os.rename(self.room / "away", self.packed / "a.fits.fz")

    def test_what_comes_back_otherwise(self) -> None:
        self.packs()
        self.another_inside()
        self.named("a.fits", "compare", self.plain)
        self.away_for_a_verify()
        for verb in (("verify", "--sha256-only", self.packed), ("verify", self.packed), ("pack", self.plain)):
            self.named("a.fits", *verb)
            self.looks("a.fits")
        self.named("a.fits", "compare", self.plain)

    def test_restore_over_another_plain_file(self) -> None:
        """What `restore` says of another plain file does not take the place of what is known of the packed one."""
        self.packs()
        self.put(b"a.fits", fault="failed", cause="fz verify", line="fz verify: refused: 20 BadTile, HDU 2, tile 1", advice="fetch it from another copy")
        self.write("a.fits", image(5))
        self.named("a.fits", "restore", self.plain, self.packed)
        self.named("a.fits", "verify", "--sha256-only", self.packed)
        self.assertEqual(self.run_it("verify", self.packed)[0], 0)

    def test_the_stronger_test_forgets_both(self) -> None:
        self.packs()
        self.another_inside()
        self.named("a.fits", "compare", self.plain)
        self.away_for_a_verify()
        (self.packed / "a.fits.fz").unlink()
        self.packs()
        self.assertEqual(self.run_it("compare", self.plain)[0], 0)
        self.assertEqual(self.run_it("missing", self.plain, self.packed)[0], 0)


class PlainFileAndPackedFile(Archive):
    """A fault of the plain file is forgotten only by what reads the plain file."""

    def changed(self) -> None:
        """A bit of a.fits changes, and not its time; `compare` finds it."""
        path = self.plain / "a.fits"
        before, data = path.stat(), bytearray(path.read_bytes())
        data[3000] ^= 1
        path.write_bytes(data)
        os.utime(path, ns=(before.st_atime_ns, before.st_mtime_ns))
        self.named("plain file changed", "compare", self.plain)

    def test_a_packed_file_that_was_away(self) -> None:
        self.packs()
        self.changed()
        os.rename(self.packed / "a.fits.fz", self.room / "away")
        self.named("a.fits", "verify", self.packed)
        os.rename(self.room / "away", self.packed / "a.fits.fz")
        self.named("a.fits", "verify", self.packed)
        self.looks("a.fits")
        self.write("a.fits", image(1))
        self.assertEqual(self.run_it("compare", self.plain)[0], 0)

    def test_compare_with_another_folder(self) -> None:
        self.packs()
        shutil.copytree(self.plain, self.room / "backup")
        self.changed()
        self.named("a.fits", "compare", self.room / "backup", self.packed)
        self.looks("a.fits")
        self.assertIn("Safe to delete the originals: no", self.run_it("report", self.plain, "-o", self.room / "s.html")[1])
        self.write("a.fits", image(1))
        self.assertEqual(self.run_it("compare", self.plain)[0], 0)

    def test_what_was_found_in_another_folder(self) -> None:
        """It is forgotten by the comparison with that one, or with the folder that was packed: as in an archive that was moved."""
        self.packs()
        for folder in ("moved", "plain"):
            other = self.room / "moved"
            shutil.copytree(self.plain, other)
            (other / "a.fits").write_bytes(image(6))
            self.named("a.fits", "compare", other, self.packed)
            self.looks(f"(in {other})")
            shutil.copy2(self.plain / "a.fits", other / "a.fits")
            self.assertEqual(self.run_it("compare", self.room / folder, self.packed)[0], 0)
            self.assertEqual(self.run_it("missing", self.plain, self.packed)[0], 0)
            shutil.rmtree(other)


@unittest.skipUnless(os.geteuid() == 0 and shutil.which("setpriv"), "needs root and setpriv, to be nobody")
class UnreadablePlainFile(Archive):
    """That a plain file cannot be read is not forgotten by `verify`, which reads none."""

    def nobody(self, *words: object) -> "tuple[int, str]":
        """The command by a user who is not root."""
        line = ["setpriv", "--reuid=65534", "--regid=65534", "--clear-groups", sys.executable, str(FZBATCH), *map(str, words)]
        ended = subprocess.run(line, env={**os.environ, "FZ": FZ}, capture_output=True, text=True, timeout=60, check=False, cwd="/")
        return ended.returncode, ended.stdout + ended.stderr

    def test_it_is_named_until_it_was_read(self) -> None:
        self.packs()
        for folder, folders, here in os.walk(self.room):
            for name in (".", *folders, *here):
                os.chown(os.path.join(folder, name), 65534, 65534)
        if self.nobody("verify", self.packed)[0] != 0:
            self.skipTest("nobody cannot run this Python or fz")
        (self.plain / "a.fits").chmod(0)
        self.assertEqual(self.nobody("compare", self.plain)[0], 1)
        for verb in (("verify", self.packed), ("missing", self.plain, self.packed), ("pack", self.plain)):
            status, said = self.nobody(*verb)
            self.assertEqual((status, "a.fits" in said), (1, True), said)
        (self.plain / "a.fits").chmod(0o644)
        self.assertEqual(self.nobody("pack", self.plain)[0], 0)
        self.assertEqual(self.nobody("missing", self.plain, self.packed)[0], 0)


if __name__ == "__main__":
    unittest.main()
