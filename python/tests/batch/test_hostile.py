"""Folders of packed files that others made: nothing outside of them is touched."""
from __future__ import annotations

import os
import shutil
import signal
import sys
import tempfile
import unittest
from pathlib import Path

sys.path[:0] = [str(Path(__file__).resolve().parents[1])]

from batch import hostile  # noqa: E402
from batch.two_files import Archive, image, tree  # noqa: E402


class Alarm(Exception):
    """A command did not end."""


class Hostile(Archive):
    """Whatever others made of PACKED: nothing outside is touched, nothing hangs, nothing controls the terminal, no traceback."""

    def commands(self) -> "list[tuple]":
        page = self.room / "r.html"
        return [("status", self.packed), ("missing", self.packed), ("report", self.packed, "-o", page), ("verify", self.packed), ("compare", self.packed), ("collect", self.packed),
                ("share", self.plain, self.packed), ("restore", self.room / "back", self.packed), ("restore", self.packed), ("pack", self.plain), ("pack", self.plain, "--update"), ("rebuild", self.packed), ("forget", self.packed, "--name", "a.fits")]

    def harmless(self, case: str, *words: object) -> None:
        with self.subTest(case=case, command=words[0]):
            before, temporary = tree(self.victim), tree(self.scratch)
            signal.signal(signal.SIGALRM, self.rings)
            signal.alarm(20)
            try:
                status, said = self.run_it(*words)
            finally:
                signal.alarm(0)
            self.assertIn(status, (0, 1, 2), said)
            self.assertNotIn("Traceback", said)
            self.assertFalse([it for it in said if not it.isprintable() and it != "\n"], said)
            self.assertEqual(tree(self.victim), before)
            self.assertEqual(tree(self.scratch), temporary)
            self.assertEqual(sorted(it.name for it in self.room.iterdir() if it.name not in self.mine), [])
            page = self.room / "r.html"
            if page.exists():
                self.assertNotIn("<script", page.read_text())
                page.unlink()

    @staticmethod
    def rings(*_: object) -> None:
        raise Alarm("the command did not end")

    def setUp(self) -> None:
        super().setUp()
        self.scratch = self.room / "tmp"
        self.scratch.mkdir()
        # a folder of another program, with a name that a folder of fzbatch may have
        for it in ("fzbatch-theirs-folder", "fzbatch-0123456789abcdef-abcdefgh"):
            (self.scratch / it).mkdir()
            (self.scratch / it / "1.out").write_text("theirs\n")
        before = tempfile.tempdir
        tempfile.tempdir = str(self.scratch)
        self.addCleanup(setattr, tempfile, "tempdir", before)
        self.mine = {"plain", "plain.fz", "victim", "tmp", "back", "r.html", "good"}

    def test_every_case(self) -> None:
        self.packs()
        good = self.room / "good"
        shutil.copytree(self.packed, good)
        for number, (case, make) in enumerate({**hostile.CASES, **hostile.TYPES}.items()):
            every = self.commands()
            # three commands for each case, others for the next one; FZBATCH_ALL=1 tries all
            chosen = every if os.environ.get("FZBATCH_ALL") else [every[(3 * number + it) % len(every)] for it in range(3)]
            for words in chosen:
                shutil.rmtree(self.packed)
                shutil.copytree(good, self.packed)
                shutil.rmtree(self.room / "back", ignore_errors=True)
                make(self.packed, self.victim)
                self.harmless(case, *words)

    def test_no_case_is_all_well(self) -> None:
        """A manifest that fzbatch did not write is never one by which all is well."""
        self.packs()
        good = self.room / "good"
        shutil.copytree(self.packed, good)
        for case, make in {**hostile.CASES, **hostile.TYPES}.items():
            if case == "a script in what a run said":
                # it may say what it likes: what is printed is escaped
                continue
            if case.split(" ")[0] in ("SHA256SUMS", "fzbatch.sqlite.copy", "fzbatch.tasks.new", "fzbatch.tasks", "fzbatch.lock", "the", "tasks") or "a run names a folder of its form" == case:
                continue
            shutil.rmtree(self.packed)
            shutil.copytree(good, self.packed)
            make(self.packed, self.victim)
            for verb in ("status", "missing", "verify"):
                if (case.split(" ")[0], verb) == ("mtime", "verify"):
                    # of the plain file, which verify does not look at
                    continue
                with self.subTest(case=case, command=verb):
                    self.assertNotEqual(self.run_it(verb, self.packed)[0], 0)


class LinksInPacked(Archive):
    """A link in PACKED is not followed, and what it leads to stays."""

    def test_the_lock_is_a_link(self) -> None:
        self.packs()
        (self.packed / "fzbatch.lock").unlink()
        os.symlink(self.victim / "precious", self.packed / "fzbatch.lock")
        for verb in ("pack", "verify", "compare"):
            status, said = self.run_it(verb, self.plain)
            self.assertEqual((status, (self.victim / "precious").read_bytes()), (2, b"precious\n"), said)
            self.assertIn("is a link, or no regular file, and is not touched", said)

    def test_the_lock_is_another_file(self) -> None:
        self.packs()
        (self.packed / "fzbatch.lock").write_bytes(b"mine\n")
        self.assertEqual(self.run_it("verify", self.plain)[0], 2)
        self.assertEqual((self.packed / "fzbatch.lock").read_bytes(), b"mine\n")

    def test_the_file_of_new_tasks_is_a_link(self) -> None:
        self.packs()
        self.write("new.fits", image(8))
        os.symlink(self.victim / "precious", self.packed / "fzbatch.tasks.new")
        self.assertEqual(self.run_it("pack", self.plain, "--engine", "slurm")[0], 0)
        self.assertEqual((self.victim / "precious").read_bytes(), b"precious\n")
        self.assertFalse((self.packed / "fzbatch.tasks").is_symlink())

    def test_a_page_is_not_written_through_a_link(self) -> None:
        self.packs()
        page = self.victim / "index.html"
        self.run_it("report", self.packed, "-o", page)
        page.write_text(page.read_text() + "mine")
        before = page.read_bytes()
        os.symlink(page, self.room / "r.html")
        self.assertEqual(self.run_it("report", self.packed, "-o", self.room / "r.html")[0], 2)
        self.assertEqual(page.read_bytes(), before)


class RestoreWritesBelowDirOnly(Archive):
    """`restore` writes below DIR only, and DIR is named by the user."""

    def test_paths_that_lead_out(self) -> None:
        for path in (b"../.bash_profile", b"../out.fits", os.fsencode(self.room / "out.fits"), b"n/../../out.fits"):
            self.packs()
            hostile.renamed(path)(self.packed, self.victim)
            target = self.packed / os.fsdecode(path + b".fz")
            (target.parent / target.name).parent.mkdir(parents=True, exist_ok=True)
            (self.packed / "a.fits.fz").rename(target)
            before = set(self.room.iterdir())
            status, said = self.run_it("restore", self.room / "back", self.packed)
            self.assertEqual(status, 2, said)
            self.assertEqual(set(self.room.iterdir()) - before, set())
            shutil.rmtree(self.packed)
            target.unlink(missing_ok=True)

    def test_the_source_of_the_manifest_is_not_written_to(self) -> None:
        self.packs()
        hostile.fact("source", os.fsencode(self.victim))(self.packed, self.victim)
        for verb in ("restore", "pack"):
            status, said = self.run_it(verb, self.packed)
            self.assertEqual(status, 2, said)
        self.assertEqual(sorted(it.name for it in self.victim.iterdir()), ["precious"])

    def test_restore_asks_for_the_folder(self) -> None:
        self.packs()
        (self.plain / "a.fits").unlink()
        status, said = self.run_it("restore", self.packed)
        self.assertEqual(status, 2)
        self.assertIn(f"fzbatch restore {self.plain} {self.packed}", said)
        self.assertFalse((self.plain / "a.fits").exists())

    def test_links_inside_dir_are_not_followed(self) -> None:
        self.packs()
        back = self.room / "back"
        back.mkdir()
        os.symlink(self.victim, back / "n")
        self.named("n is a symbolic link", "restore", back, self.packed)
        self.assertEqual(sorted(it.name for it in self.victim.iterdir()), ["precious"])
        self.assertTrue((back / "a.fits").exists())

    def test_links_inside_packed_are_not_followed(self) -> None:
        self.packed.mkdir()
        os.symlink(self.victim, self.packed / "n")
        self.named("n is a symbolic link", "pack", self.plain)
        self.assertEqual(sorted(it.name for it in self.victim.iterdir()), ["precious"])


if __name__ == "__main__":
    unittest.main()
