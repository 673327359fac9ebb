"""Options that are looked at before a run begins, and the status of a run that ended otherwise than well."""
from __future__ import annotations

import errno
import os
import shutil
import subprocess
import sys
import unittest
from pathlib import Path
from unittest import mock

sys.path[:0] = [str(Path(__file__).resolve().parents[1])]

from batch.two_files import Archive, image  # noqa: E402
from fzfits.batch import before, files, keep, manifest  # noqa: E402


class BeforeTheRun(Archive):
    """A mistake in the command line costs no time, and leaves nothing behind."""

    def refused(self, wanted: str, *words: object) -> None:
        status, said = self.run_it(*words)
        self.assertEqual((status, wanted in said), (2, True), f"{words}: {said}")
        self.assertFalse(self.packed.exists(), words)

    def test_options_of_pack(self) -> None:
        self.refused("--tile: 64x64 is no list of lengths (write 64,64)", "pack", self.plain, "--tile", "64x64")
        self.refused("fz pack does not take these options: --sums --tile 0,5", "pack", self.plain, "--tile", "0,5")
        self.refused("fz pack does not take these options: --sums --codec plio --block 16", "pack", self.plain, "--codec", "plio", "--block", "16")
        self.refused("fz pack does not take these options", "pack", self.plain, "--workers", "65")
        self.refused("invalid choice: 'gzip'", "pack", self.plain, "--codec", "gzip")
        self.refused("'x' is no number above 0", "pack", self.plain, "--block", "x")

    def test_numbers(self) -> None:
        for words, wanted in (
            (("--memory", "2X"), "'2X' is no number of bytes: write 4000000, 500M or 2G"),
            (("--memory", "-1"), "'-1' is no number of bytes"),
            (("--jobs", "0"), "'0' is no number from 1 to 4096"),
            (("--jobs", "many"), "'many' is no number from 1 to 4096"),
            (("--time-limit", "soon"), "'soon' is no number of seconds"),
            (("--nothing",), "unrecognized arguments: --nothing"),
        ):
            self.refused(wanted, "pack", self.plain, *words)
        self.assertEqual([before.size_of(it) for it in ("0", "4000000", "500M", "2G", "2g", "1GiB", "3kB")], [0, 4000000, 500 << 20, 2 << 30, 2 << 30, 1 << 30, 3 << 10])

    def test_folders_lists_and_logs(self) -> None:
        self.refused("nosuch: no such folder", "verify", self.room / "nosuch")
        self.refused("No such file or directory", "pack", self.plain, "--from-list", self.room / "nosuch")
        self.refused("No such file or directory", "pack", self.plain, "--log", self.room / "nosuch" / "log")
        self.refused("was not made by fzbatch", "verify", self.plain, self.victim)
        self.refused(f"{self.plain} is not packed yet, or to another folder than {self.packed}", "verify", self.plain)

    def test_a_file_in_the_place_of_a_folder(self) -> None:
        self.refused("a.fits is a file: name the folder first", "pack", self.plain / "a.fits")
        self.packs()
        status, said = self.run_it("verify", self.packed / "a.fits.fz")
        self.assertEqual((status, f"name the folder first: fzbatch verify {self.packed} a.fits.fz" in said), (2, True), said)

    def test_a_file_without_both_folders(self) -> None:
        self.packs()
        line = f"fzbatch restore {self.plain} {self.packed} a.fits"
        no_folder = f"a.fits is no folder; for a file of the archive name both folders first: {line}"
        for words, wanted in (((self.packed, "a.fits"), line), ((self.plain, "a.fits"), no_folder), ((self.plain, self.plain / "a.fits"), line)):
            status, said = self.run_it("restore", *words)
            self.assertEqual((status, wanted in said), (2, True), said)
        self.assertEqual(self.run_it(*line.split()[1:])[0], 0)

    def test_memory_for_people(self) -> None:
        self.packs("--memory", "1G")
        status, said = self.run_it("verify", self.packed, "--memory", "64K")
        self.assertEqual((status, "fz verify: over limit" in said, "needs more memory" in said, "is enough" in said), (1, True, True, True), said)


class Statuses(Archive):
    """What the status says: nothing to do, some files failed, nothing begun, a disk failed."""

    def test_nothing_to_do(self) -> None:
        self.assertEqual(self.run_it("pack", self.plain, "--tell-idle")[0], 0)
        self.assertEqual(self.run_it("pack", self.plain)[0], 0)
        self.assertEqual(self.run_it("pack", self.plain, "--tell-idle")[0], 4)
        self.assertEqual(self.run_it("restore", self.plain, self.packed, "--tell-idle")[0], 4)
        self.assertEqual(self.run_it("pack", self.plain, "--tell-idle", "--dry-run")[0], 4)
        self.write("bad.fits", b"")
        for _ in range(2):
            self.assertEqual(self.run_it("pack", self.plain, "--tell-idle")[0], 1)

    def test_a_disk_that_is_full(self) -> None:
        room = self.room / "disk"
        room.mkdir()
        mounted = os.geteuid() == 0 and subprocess.run(["mount", "-t", "tmpfs", "-o", "size=400k", "tmpfs", room], capture_output=True, check=False).returncode == 0
        if not mounted:
            self.skipTest("no small disk can be mounted here")
        self.addCleanup(subprocess.run, ["umount", room], check=False)
        for it in range(20):
            self.write(f"large {it}.fits", image(it, wide=200, high=100))
        status, said = self.run_it("pack", self.plain, room / "packed", "--jobs", "1")
        self.assertEqual((status, "Stopped: " in said, "not tried" in said), (3, True, True), said)

    def test_a_disk_with_errors(self) -> None:
        real = files.look_at

        def fails(number: int) -> files.Looked:
            if os.readlink(f"/proc/self/fd/{number}").endswith("a.fits"):
                raise OSError(errno.EIO, os.strerror(errno.EIO))
            return real(number)

        with mock.patch.object(files, "look_at", fails):
            status, said = self.run_it("pack", self.plain)
        self.assertEqual((status, said.splitlines()[-1]), (3, "pack: 2 files, 1 done (1 compressed), 1 failed, 0 skipped"))
        self.assertIn("the disk reports an error", said)
        self.assertEqual(self.run_it("pack", self.plain)[0], 0)

    def test_a_manifest_that_cannot_be_written(self) -> None:
        self.packs()
        self.write("new.fits", image(5))
        with mock.patch.object(manifest.Manifest, "put", side_effect=manifest.BadManifest("disk I/O error")):
            self.assertEqual(self.run_it("pack", self.plain)[0], 3)
        with mock.patch.object(keep, "keep", side_effect=OSError(errno.ENOSPC, "No space left on device")):
            self.assertEqual(self.run_it("pack", self.plain)[0], 3)

    def test_a_disk_that_goes_away(self) -> None:
        self.packs()
        real = files.look_at

        def goes(number: int) -> files.Looked:
            if not os.readlink(f"/proc/self/fd/{number}").endswith(".fz"):
                return real(number)
            shutil.move(self.packed, self.room / "away")
            raise OSError(errno.ENXIO, "No such device or address")

        with mock.patch.object(files, "look_at", goes):
            status, said = self.run_it("verify", self.packed, "--jobs", "1")
        self.assertEqual((status, "went away: is its disk still mounted?" in said), (3, True), said)


if __name__ == "__main__":
    unittest.main()
