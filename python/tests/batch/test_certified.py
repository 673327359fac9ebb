"""Nothing damaged is certified, and nothing is left out without being named. Each test is of one such find."""
from __future__ import annotations

import shutil
import subprocess
import sys
import unittest
from pathlib import Path

sys.path[:0] = [str(Path(__file__).resolve().parents[1])]

from batch.two_files import FZ, Archive, image, zipped  # noqa: E402
from making.fits import BLOCK  # noqa: E402


class NothingDamagedIsCertified(Archive):
    """Nothing damaged is certified."""

    def damaged(self) -> Path:
        data = bytearray(image(3, sums_too=True))
        data[BLOCK + 101] ^= 4
        return self.write("d.fits", bytes(data))

    def test_a_damaged_image_is_not_packed(self) -> None:
        self.damaged()
        self.named("wrong checksum in the plain file", "pack", self.plain)
        self.assertFalse((self.packed / "d.fits.fz").exists())
        self.looks("datasum wrong")

    def test_right_sums_are_packed(self) -> None:
        self.write("s.fits", image(3, sums_too=True))
        self.packs()
        self.assertEqual(self.run_it("verify", self.plain)[0], 0)

    def test_a_wrong_sum_that_was_accepted_is_shown_for_ever(self) -> None:
        self.damaged()
        self.packs("--accept-wrong-sums")
        for words in (("pack", self.plain), ("status", self.packed), ("missing", self.packed), ("verify", self.packed), ("compare", self.packed)):
            status, said = self.run_it(*words)
            self.assertEqual(status, 0, said)
            self.assertIn("d.fits was packed with a wrong checksum, which was accepted: HDU 0 datasum wrong", said, words)
        page = self.room / "r.html"
        self.run_it("report", self.packed, "-o", page)
        self.assertIn("wrong checksum, which was accepted", page.read_text())

    def damaged_row(self) -> None:
        """A packed file of a damaged image, with a row that says that all is well."""
        import hashlib

        self.packs()
        source, made = self.damaged(), self.room / "d.fz"
        subprocess.run([FZ, "pack", "--sums", source, made], check=True)
        shutil.copy(source, self.plain / "a.fits")
        shutil.copy(made, self.packed / "a.fits.fz")
        source.unlink()
        it, packed = (self.plain / "a.fits").stat(), (self.packed / "a.fits.fz").stat()
        digest = [hashlib.sha256(path.read_bytes()).hexdigest() for path in (self.plain / "a.fits", made)]
        self.put(b"a.fits", size=it.st_size, mtime=it.st_mtime_ns, sha256=digest[0], packed_size=packed.st_size, packed_mtime=packed.st_mtime_ns, packed_sha256=digest[1])

    def test_verify_compares_zdatasum_with_what_comes_back(self) -> None:
        self.damaged_row()
        self.named("a.fits", "verify", self.packed)

    def test_a_damaged_image_in_a_packed_file_is_not_adopted(self) -> None:
        self.damaged_row()
        (self.packed / "fzbatch.sqlite").unlink()
        for it in ("fzbatch.sqlite.copy", "SHA256SUMS"):
            (self.packed / it).unlink(missing_ok=True)
        self.named("wrong checksum in the plain file", "pack", self.plain)

    def test_a_manifest_is_not_rebuilt_over_a_wrong_sum(self) -> None:
        self.damaged_row()
        (self.packed / "fzbatch.sqlite").unlink()
        for it in ("fzbatch.sqlite.copy", "SHA256SUMS"):
            (self.packed / it).unlink(missing_ok=True)
        self.named("ZDATASUM or ZHECKSUM is not that of the image", "rebuild", self.packed)
        self.named("a.fits", "verify", self.packed)


class CompressedFilesCount(Archive):
    """Compressed FITS files count as not packed."""

    def test_a_compressed_fits_file_is_named(self) -> None:
        for suffix in ("gz", "Z", "bz2", "xz", "zst"):
            name = self.plain / "n" / f"raw.fits.{suffix}"
            zipped(name)
            self.named(f"raw.fits.{suffix}", "pack", self.plain)
            self.looks(f"raw.fits.{suffix}")
            name.unlink()

    def test_it_may_be_left_out_and_the_manifest_keeps_that(self) -> None:
        zipped(self.plain / "raw.fits.gz")
        self.packs("--skip-compressed")
        for verb in ("pack", "missing", "status"):
            status, said = self.run_it(verb, self.plain)
            self.assertEqual(status, 0, said)
            self.assertIn("compressed FITS files, and those of other names: 1 left out, as --skip-compressed says", said)
        self.named("raw.fits.gz", "pack", self.plain, "--skip-nothing")
        self.looks("raw.fits.gz")


if __name__ == "__main__":
    unittest.main()
