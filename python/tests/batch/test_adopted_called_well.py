"""Adopted folders that are not well, and that a command once called well. Each class is one find."""
from __future__ import annotations

import dataclasses
import os
import shutil
import subprocess
import sys
import time
import unittest
from pathlib import Path
from unittest import mock

sys.path[:0] = [str(Path(__file__).resolve().parents[1])]

from batch.test_adopted import FZ, SAMPLES, Adopted  # noqa: E402
from batch.test_finds import flip  # noqa: E402
from batch.two_files import image  # noqa: E402
from fzfits.batch.adopt import calling  # noqa: E402


class Whole(Adopted):
    """An adopted folder of three files that are well."""

    def setUp(self) -> None:
        super().setUp()
        self.whole()

    def run_it(self, *words: object) -> "tuple[int, str]":
        more = ["--fz", FZ] if words[0] in ("pack", "restore", "retile") else []
        return super().run_it(*words, *more)

    def named(self, wanted: str, *words: object, status: int = 1) -> None:
        found, said = self.run_it(*words)
        self.assertEqual((found, wanted in said), (status, True), f"{words}: {said}")


class EmptyManifest(Whole):
    """A manifest of no bytes is not begun anew beside its second copy: rot would be taken for what was adopted."""

    def test_it_is_damaged(self) -> None:
        flip(self.night / "small.fits")
        copy = Path(f"{self.manifest}.copy").read_bytes()
        self.manifest.write_bytes(b"")
        for words in (("adopt", self.night), ("pack", "--beside", self.night), ("verify", self.night)):
            self.assertEqual(self.run_it(*words)[0], 2, words)
        self.named("is empty", "adopt", self.night, status=2)
        self.assertEqual(Path(f"{self.manifest}.copy").read_bytes(), copy)
        shutil.copy(f"{self.manifest}.copy", self.manifest)
        self.named("small.fits", "verify", self.night)


class ClockThatWasAhead(Whole):
    """`verify` reads every file, also one that was read when the clock was ahead."""

    def setUp(self) -> None:
        now = time.time_ns
        with mock.patch.object(time, "time_ns", lambda: now() + 10**18):
            super().setUp()

    def test_rot_is_found(self) -> None:
        flip(self.night / "small.fits")
        self.named("rotten", "verify", self.night)

    def test_rot_is_found_by_reread(self) -> None:
        flip(self.night / "small.fits")
        self.named("rotten", "adopt", self.night, "--reread", 30)


class FaultOfAPlainFile(Whole):
    """What is wrong with a plain file by the manifest is not forgotten by packing it beside itself."""

    def test_a_file_that_could_not_be_read_meanwhile(self) -> None:
        data = bytearray(image(3))
        data[5 * 80 : 7 * 80] = b"object  = 'small letters'".ljust(80) + b"END".ljust(80)
        path = self.night / "new.fits"
        path.write_bytes(bytes(data))
        os.utime(path, (1, 1))
        self.named("header is damaged", "adopt", self.night)
        path.rename(self.room / "new.fits")
        self.named("gone", "adopt", self.night)
        (self.room / "new.fits").rename(path)
        self.named("new.fits", "pack", "--beside", "--delete", self.night)
        self.assertTrue(path.exists())
        self.named("header is damaged", "adopt", self.night)

    def test_a_packed_file_that_is_there(self) -> None:
        path = self.night / "wrong.fits"
        data = bytearray(image(3, sums_too=True))
        data[2980] ^= 1
        path.write_bytes(bytes(data))
        subprocess.run([FZ, "pack", path, f"{path}.fz"], check=True)
        os.utime(path, (1, 1))
        self.named("wrong checksum in the plain file", "pack", "--beside", "--delete", self.night)
        self.assertTrue(path.exists())

    def test_a_wrong_checksum_that_was_accepted(self) -> None:
        path = self.night / "wrong.fits"
        data = bytearray(image(3, sums_too=True))
        data[2980] ^= 1
        path.write_bytes(bytes(data))
        os.utime(path, (1, 1))
        self.assertEqual(self.run_it("pack", "--beside", "--delete", "--accept-wrong-sums", self.night)[0], 0)
        self.assertFalse(path.exists())
        for verb in ("missing", "status"):
            self.named("wrong.fits.fz", verb, self.night)
        self.named("wrong.fits.fz", "verify", self.night)


class ComparedWithPlainFiles(Whole):
    """`compare` of an adopted folder says "same" of no other file."""

    def setUp(self) -> None:
        super().setUp()
        self.plain = self.room / "plain"
        self.plain.mkdir()
        shutil.copy(SAMPLES / "star_field.fits", self.plain / "a.fits")

    def compares(self, status: int, *wanted: str) -> None:
        found, said = self.run_it("compare", "--without-plain", self.plain, self.night)
        self.assertEqual((found, *(it in said for it in wanted)), (status, *(True for _ in wanted)), said)

    def test_bytes_after_the_last_hdu(self) -> None:
        self.compares(0, "1 same")
        with open(self.plain / "a.fits", "ab") as to:
            to.write(b"more")
        self.compares(1, "a.fits.fz")

    def test_an_hdu_more_beside_one_that_is_not_decoded(self) -> None:
        data = (self.night / "a.fits.fz").read_bytes()
        (self.night / "a.fits.fz").write_bytes(data.replace(b"ZCMPTYPE= 'RICE_1  '   ", b"ZCMPTYPE= 'HCOMPRESS_1'"))
        self.run_it("adopt", "--update", self.night)
        self.compares(0, "1 part")
        more = b"".join(it.ljust(80) for it in (b"XTENSION= 'IMAGE   '", b"BITPIX  =                    8", b"NAXIS   =                    0", b"PCOUNT  =                    0", b"GCOUNT  =                    1", b"END"))
        with open(self.plain / "a.fits", "ab") as to:
            to.write(more.ljust(2880))
        self.compares(1, "HDU 1 of the plain file is not in it")

    def test_a_compressed_file_that_is_gone_or_changed(self) -> None:
        import gzip

        path = self.night / "raw.fits.gz"
        path.write_bytes(gzip.compress(image(5)))
        self.assertEqual(self.run_it("adopt", self.night)[0], 0)
        self.compares(0, "1 compressed")
        flip(path, 40)
        self.compares(1, "raw.fits.gz")
        path.unlink()
        self.compares(1, "raw.fits.gz")


class RetiledInAnArchive(Whole):
    """`retile` and `pack --beside` write into no archive of `fzbatch pack`, in the folder or around it."""

    def test_an_archive_in_the_folder(self) -> None:
        plain, packed = self.room / "plain", self.night / "more" / "plain.fz"
        plain.mkdir()
        (self.night / "more").mkdir()
        shutil.copy(SAMPLES / "star_field.fits", plain / "a.fits")
        self.assertEqual(self.run_it("pack", plain, packed)[0], 0)
        self.assertEqual(self.run_it("adopt", self.night)[0], 0)
        before = (packed / "a.fits.fz").read_bytes()
        self.named("more/plain.fz", "retile", self.night, "--tile", "16,16", status=2)
        self.assertEqual((packed / "a.fits.fz").read_bytes(), before)

    def test_an_archive_around_the_folder(self) -> None:
        plain, packed = self.room / "plain", self.room / "plain.fz"
        (plain / "n").mkdir(parents=True)
        shutil.copy(SAMPLES / "star_field.fits", plain / "n" / "a.fits")
        self.assertEqual(self.run_it("pack", plain, packed)[0], 0)
        manifest = ("--manifest", self.room / "other.sqlite")
        self.assertEqual(self.run_it("adopt", packed / "n", *manifest)[0], 0)
        before = (packed / "n" / "a.fits.fz").read_bytes()
        self.named("plain.fz", "retile", packed / "n", *manifest, "--tile", "16,16", status=2)
        self.assertEqual((packed / "n" / "a.fits.fz").read_bytes(), before)


class LostManifestOfAnArchive(Whole):
    """A folder of packed files that has lost its manifest is still meant before an adopted folder of the same name."""

    def test_it_is_not_called_well(self) -> None:
        self.assertEqual(self.run_it("pack", self.night)[0], 1)
        packed = Path(f"{self.night}.fz")
        (packed / "small.fits.fz").unlink()
        for verb in ("missing", "status", "verify"):
            self.assertEqual(self.run_it(verb, self.night)[0], 1, verb)
        (packed / "fzbatch.sqlite").unlink()
        for verb in ("missing", "status", "verify"):
            self.assertEqual(self.run_it(verb, self.night)[0], 2, verb)


class ManyManifests(Whole):
    """A folder of manifests, one of which is lost."""

    def test_the_folder_of_the_lost_one_is_named(self) -> None:
        archive, manifests = self.room / "archive", self.room / "manifests"
        archive.mkdir()
        manifests.mkdir()
        for it in "123":
            shutil.copytree(self.night, archive / it)
            self.assertEqual(self.run_it("adopt", archive / it, "--manifest", manifests / f"{it}.sqlite")[0], 0)
        for verb in ("missing", "status", "report"):
            more = ("-o", self.room / "r.html") if verb == "report" else ()
            self.assertEqual(self.run_it(verb, archive, "--manifest", manifests, *more)[0], 0, verb)
        # what is beside a manifest says that there was one; without that, its folder is named as one that no manifest has
        (manifests / "2.sqlite").unlink()
        for verb in ("missing", "status", "report"):
            more = ("-o", self.room / "r.html") if verb == "report" else ()
            self.assertEqual(self.run_it(verb, archive, "--manifest", manifests, *more)[0], 2, verb)
        for it in manifests.glob("2.sqlite.*"):
            it.unlink()
        for verb in ("missing", "status", "report"):
            more = ("-o", self.room / "r.html") if verb == "report" else ()
            self.assertEqual(self.run_it(verb, archive, "--manifest", manifests, *more)[0], 1, verb)


class FarTimes(Whole):
    """A file whose time no manifest has room for stops no run."""

    def test_a_time_after_2262(self) -> None:
        os.utime(self.night / "small.fits", (10_000_000_000, 10_000_000_000))
        if (self.night / "small.fits").stat().st_mtime_ns < 1 << 63:
            self.skipTest("this disk has no such time")
        self.named("small.fits: has a time after the year 2262", "adopt", self.night)
        self.named("small.fits", "missing", self.night)


class ManyHdus(Whole):
    """A wrong checksum is not missed if the line that names it was not kept: `fz verify` of very many HDUs prints too many."""

    def test_the_status_says_it(self) -> None:
        shutil.copy(SAMPLES / "sums.fits", self.night / "sums.fits")
        runs = calling.Fz.run

        def cut(fz: calling.Fz, verb: str, *words, **more):
            ended = runs(fz, verb, *words, **more)
            return dataclasses.replace(ended, lines=tuple(it.replace("wrong", "ok") for it in ended.lines))

        with mock.patch.object(calling.Fz, "run", cut):
            self.named("fz verify says that a checksum is wrong", "adopt", self.night)


if __name__ == "__main__":
    unittest.main()
