"""A manifest that a killed run left, that is damaged, or that has other types than fzbatch gives it."""
from __future__ import annotations

import os
import random
import shutil
import signal
import sqlite3
import subprocess
import sys
import unittest
from pathlib import Path

sys.path[:0] = [str(Path(__file__).resolve().parents[1])]

from batch import hostile  # noqa: E402
from batch.two_files import KILLED_IN_COMMIT, Archive, image  # noqa: E402
from fzfits.batch import manifest, rooms  # noqa: E402


class WhatAKilledRunLeaves(Archive):
    """What a killed run leaves is repaired, or read in a copy."""

    def killed(self) -> None:
        self.packs()
        ended = subprocess.run([sys.executable, "-c", KILLED_IN_COMMIT, str(self.packed / "fzbatch.sqlite")], check=False)
        self.assertEqual(ended.returncode, -signal.SIGKILL)
        self.assertGreater((self.packed / "fzbatch.sqlite-journal").stat().st_size, 512)

    def test_every_command_reads_a_manifest_with_a_journal(self) -> None:
        for words in (("status", self.packed), ("missing", self.packed), ("verify", self.packed), ("compare", self.packed), ("report", self.packed, "-o", self.room / "r.html"), ("restore", self.room / "back", self.packed)):
            self.killed()
            status, said = self.run_it(*words)
            self.assertEqual(status, 0, f"{words}: {said}")
            shutil.rmtree(self.packed)

    def test_on_a_disk_that_cannot_be_written(self) -> None:
        self.killed()
        mounted = os.geteuid() == 0 and subprocess.run(["mount", "--bind", self.packed, self.packed], capture_output=True, check=False).returncode == 0
        if not mounted:
            self.skipTest("nothing can be mounted read-only here")
        try:
            subprocess.run(["mount", "-o", "remount,bind,ro", self.packed], check=True)
            for words in (("status", self.packed), ("missing", self.packed), ("verify", self.packed), ("compare", self.packed)):
                status, said = self.run_it(*words)
                self.assertEqual(status, 0, f"{words}: {said}")
        finally:
            subprocess.run(["umount", self.packed], check=True)

    def test_without_plain_files(self) -> None:
        self.killed()
        shutil.rmtree(self.plain)
        self.assertEqual(self.run_it("verify", self.packed)[0], 0)
        self.assertEqual(self.run_it("restore", self.plain, self.packed)[0], 0)


class DamagedManifests(Archive):
    """A manifest that is damaged is noticed, and made again."""

    def rows(self) -> "list[manifest.Row]":
        with manifest.Manifest(os.fsencode(self.packed / "fzbatch.sqlite"), writes=False) as it:
            return list(it.rows())

    def test_a_bit_of_the_manifest(self) -> None:
        self.packs()
        path = self.packed / "fzbatch.sqlite"
        whole, rng, unnoticed = path.read_bytes(), random.Random(8), []
        rows = self.rows()
        for turn in range(int(os.environ.get("FZBATCH_BITS", "400"))):
            data = bytearray(whole)
            at = rng.choice([it for it in range(rng.randrange(0, len(data), 64), len(data))][:64])
            data[at] ^= 1 << rng.randrange(8)
            path.write_bytes(data)
            try:
                if self.rows() != rows:
                    unnoticed.append(at)
            except (manifest.BadManifest, sqlite3.Error):
                pass
        path.write_bytes(whole)
        self.assertEqual(unnoticed, [])

    def test_sha256sum_reads_the_list(self) -> None:
        self.write("line\nfeed \\ back.fits", image(4))
        self.packs()
        ended = subprocess.run(["sha256sum", "-c", "SHA256SUMS"], cwd=self.packed, capture_output=True, text=True, check=False)
        self.assertEqual((ended.returncode, ended.stdout.count(": OK")), (0, 3), ended)
        with open(self.packed / "a.fits.fz", "r+b") as it:
            it.write(b"T")
        self.assertEqual(subprocess.run(["sha256sum", "-c", "SHA256SUMS"], cwd=self.packed, capture_output=True, check=False).returncode, 1)

    def test_rebuild_from_the_packed_files_alone(self) -> None:
        self.write("s.fits", image(3, sums_too=True))
        self.packs()
        before = {it.path: (it.size, it.sha256, it.packed_sha256, it.status) for it in self.rows()}
        for it in ("fzbatch.sqlite", "fzbatch.sqlite.copy", "SHA256SUMS"):
            (self.packed / it).unlink()
        away = self.room / "away"
        self.plain.rename(away)
        status, said = self.run_it("rebuild", self.packed)
        self.assertEqual((status, said.splitlines()[-1]), (0, "rebuild: 3 files, 3 done (3 compressed), 0 failed, 0 skipped"))
        self.assertEqual({it.path: (it.size, it.sha256, it.packed_sha256, it.status) for it in self.rows()}, before)
        self.assertEqual(self.run_it("restore", self.plain, self.packed)[0], 0)
        self.assertEqual((self.plain / "a.fits").read_bytes(), (away / "a.fits").read_bytes())
        self.assertEqual(self.run_it("compare", self.plain)[0], 0)

    def test_rebuild_takes_the_second_copy_and_names_what_changed_since(self) -> None:
        self.write("c.fits", image(5))
        self.write("e.fits", image(6))
        self.packs()
        mtime = (self.plain / "a.fits").stat().st_mtime_ns
        (self.packed / "fzbatch.sqlite").write_bytes(b"garbage" * 99)
        # a whole packed file of another image, and one that is gone
        shutil.copy(self.packed / "e.fits.fz", self.packed / "c.fits.fz")
        (self.packed / "n" / "b.fits.fz").unlink()
        for words in ((), ("--ignore-copy", "--again")):
            status, said = self.run_it("rebuild", self.packed, *words)
            self.assertEqual((status, said.splitlines()[-1]), (1, "rebuild: 4 files, 2 done (2 compressed), 2 failed, 0 skipped"), said)
            self.assertIn("c.fits: the packed file is another", said)
            self.assertIn("n/b.fits: its packed file is not there", said)
            if not words:
                self.assertEqual({it.path: it.mtime for it in self.rows()}[b"a.fits"], mtime)
        self.assertTrue((self.packed / "fzbatch.sqlite.old-1").exists())
        status, said = self.run_it("verify", self.packed)
        self.assertEqual(status, 1)

    def test_a_lost_manifest_is_not_made_anew_over_its_copy(self) -> None:
        self.packs()
        (self.packed / "fzbatch.sqlite").unlink()
        status, said = self.run_it("pack", self.plain)
        self.assertEqual((status, "fzbatch rebuild" in said), (2, True), said)
        self.assertEqual(self.run_it("rebuild", self.packed)[0], 0)
        self.assertEqual(self.run_it("pack", self.plain)[0], 0)


class ManifestsOfOtherTypes(Archive):
    """A manifest with other types, a view, a trigger, or a folder to remove."""

    def test_a_view_that_never_ends(self) -> None:
        self.packs()
        hostile.view(self.packed, self.victim)
        for verb in ("status", "verify", "missing"):
            status, said = self.starts(verb, self.packed, seconds=20)
            self.assertEqual(status, 2, said)

    def test_folders_of_others_in_tmpdir(self) -> None:
        self.packs()
        scratch = self.room / "tmp"
        theirs = [scratch / "fzbatch-theirs-folder", scratch / "fzbatch-0123456789abcdef-abcdefgh"]
        for it in theirs:
            it.mkdir(parents=True)
            (it / "kept").write_text("kept")
        for make in (hostile.scratch, hostile.scratch_of_form):
            make(self.packed, self.victim)
            self.starts("verify", self.packed, env={"TMPDIR": str(scratch)})
            self.assertEqual([(it / "kept").read_text() for it in theirs], ["kept", "kept"])

    def test_folders_of_a_run_that_is_at_work(self) -> None:
        """Such as that of `compare` of an adopted folder, which holds no lock of the manifest."""
        for small in (1 << 20, 0):
            made = rooms.Rooms(b"/a/folder", "0123456789abcdef")
            self.addCleanup(made.close)
            made.small = small
            path = made.name(10, b"again")
            Path(os.fsdecode(path)).write_bytes(b"at work")
            rooms.remove_of_killed(b"/a/folder")
            self.assertTrue(os.path.exists(path))
            # a run that was killed has nothing open
            os.close(made._held.pop())
            rooms.remove_of_killed(b"/a/folder")
            self.assertFalse(os.path.exists(os.path.dirname(path)))

    def test_other_types(self) -> None:
        for column in ("path", "size", "mtime", "sha256", "packed_size", "status", "seconds", "wrong_sums", "packed_at", "line"):
            for value in ("x\0y", b"\xff\0", 1e300, -7):
                if not self.packed.exists():
                    self.packs()
                hostile.typed(column, value)(self.packed, self.victim)
                for words in (("status", self.packed), ("report", self.packed, "-o", self.room / "r.html"), ("verify", self.packed)):
                    with self.subTest(column=column, value=value, command=words[0]):
                        if (column, value) in (("mtime", -7), ("line", -7), ("line", 1e300)):
                            # a time before 1970, and numbers that a column of text takes as text, are forms that fzbatch writes
                            continue
                        self.assertEqual(self.run_it(*words)[0], 2)
                shutil.rmtree(self.packed)


if __name__ == "__main__":
    unittest.main()
