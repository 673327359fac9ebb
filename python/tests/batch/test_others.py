"""Nobody else decides which program runs, or what reaches a terminal, a page or a shell."""
from __future__ import annotations

import json
import os
import shutil
import subprocess
import sys
import unittest
from pathlib import Path

sys.path[:0] = [str(Path(__file__).resolve().parents[1])]

from batch import hostile  # noqa: E402
from batch.two_files import FZ, Archive, tree  # noqa: E402
from making.fits import card, filled, header, plain_bytes  # noqa: E402


class ProgramsOfThisMachine(Archive):
    """`share` runs the program of this machine, in the folders of its command line."""

    def test_a_program_that_the_tasks_name(self) -> None:
        self.packs()
        hostile.tasks(self.packed, self.victim)
        before = tree(self.victim)
        for words in (("share", self.packed), ("share", self.plain, self.packed)):
            status, said = self.starts(*words)
            self.assertEqual(status, 2, said)
            self.assertEqual(tree(self.victim), before)

    def test_another_program_than_that_of_the_run_is_an_error(self) -> None:
        self.assertEqual(self.run_it("pack", self.plain, "--engine", "slurm")[0], 0)
        other = self.room / "other"
        shutil.copy(FZ, other)
        with open(other, "ab") as it:
            it.write(b"\0")
        status, said = self.starts("share", self.plain, self.packed, env={"FZ": str(other)})
        self.assertEqual((status, "another program fz" in said), (2, True), said)
        self.assertEqual(self.starts("share", self.plain, self.packed)[0], 0)
        self.assertEqual(self.run_it("collect", self.packed)[0], 0)

    def test_results_of_a_form_that_fzbatch_does_not_write(self) -> None:
        self.assertEqual(self.run_it("pack", self.plain, "--engine", "slurm")[0], 0)
        token = json.loads(__import__("base64").urlsafe_b64decode((self.packed / "fzbatch.tasks").read_text().splitlines()[0]))["token"]
        whole = {"path": b"a.fits", "verb": "pack", "outcome": "packed", "size": 1, "sha256": "0" * 64, "packed_size": 1, "packed_sha256": "0" * 64}
        odd = [{"size": -1}, {"sha256": "x"}, {"packed_sha256": None}, {"kind": 1000}, {"mode": -1}, {"wrong_sums": 7}, {"mtime": 1 << 70}, {"seconds": -1.0}]
        bad = [hostile.word({**whole, **it}) for it in odd]
        bad += [hostile.word({"path": b"../x.fits", "verb": "pack", "outcome": "packed"}), hostile.word({"path": b"a.fits", "verb": "pack", "outcome": "packed", "size": "x"}), "!!", hostile.word({"path": b"other.fits", "verb": "pack", "outcome": "packed"})]
        (self.packed / "fzbatch.results" / f"{token}.0.h.1").write_text("".join(it + "\n" for it in bad))
        status, said = self.run_it("collect", self.packed)
        self.assertEqual(status, 1, said)
        self.assertIn("2 not tried", said)


    def test_gnu_parallel_imports_nothing_from_the_folder_it_is_started_in(self) -> None:
        from fzfits.batch import engines, messages

        here = self.room / "here"
        (here / "fzfits").mkdir(parents=True)
        for name in ("base64.py", "json.py", "fzfits/__init__.py"):
            (here / name).write_text(f"open({str(self.victim / 'ran')!r}, 'w')\n")
        bin_ = self.room / "bin"
        bin_.mkdir()
        # as GNU parallel does: the command by a shell, with a task as its last word
        (bin_ / "parallel").write_text('#!/bin/bash\n[ "$1" = --version ] && { echo GNU; exit; }\nread task\nexec sh -c "${!#} $task"\n')
        (bin_ / "parallel").chmod(0o755)
        settings = messages.Settings("pack", os.fsencode(self.plain), os.fsencode(self.packed), "0" * 16, FZ, "x")
        self.packed.mkdir()
        before = os.getcwd()
        os.chdir(here)
        path = os.environ["PATH"]
        os.environ["PATH"] = f"{bin_}:{path}"
        try:
            found = list(engines.parallel(settings, [messages.Task(b"a.fits", 0)], [], lambda: False))
        finally:
            os.chdir(before)
            os.environ["PATH"] = path
        self.assertEqual([(it.outcome, it.line) for it in found], [("packed", "")])
        self.assertFalse((self.victim / "ran").exists())


class TextOfOthersIsEscaped(Archive):
    """Text of others is escaped where it leaves."""

    def test_the_page(self) -> None:
        self.packs()
        page = self.room / "r.html"
        self.assertEqual(self.run_it("report", self.packed, "-o", page)[0], 0)
        self.assertIn("Content-Security-Policy\" content=\"default-src 'none'; style-src 'unsafe-inline'\"", page.read_text())
        for make in (hostile.run_of(began="<script>alert(1)</script>"), hostile.run_of(process="<script>alert(1)</script>"), hostile.typed("checked_at", "<script>alert(1)</script>")):
            make(self.packed, self.victim)
            page.unlink(missing_ok=True)
            self.run_it("report", self.packed, "-o", page)
            self.assertNotIn("<script", page.read_text() if page.exists() else "")

    def test_escapes_of_a_header(self) -> None:
        cards = [card("SIMPLE", True), card("BITPIX", 16), card("NAXIS", 1), card("NAXIS1", 4), b"OBJECT  = 'x\x1b]0;pwned\x07\x1b[2J'".ljust(80), card("NAXIS1", 5)]
        self.write("esc\x1b[2J.fits", header(cards) + filled(plain_bytes(16, [1, 2, 3, 4])))
        for words in (("pack", self.plain, "--all"), ("status", self.packed), ("missing", self.packed), ("verify", self.packed)):
            status, said = self.run_it(*words)
            self.assertEqual(status, 1)
            self.assertFalse([it for it in said if not it.isprintable() and it != "\n"], words)

    def test_what_is_printed_for_sbatch_runs_what_it_says(self) -> None:
        odd = self.room / "it's $(touch pwned); `id` & \"x\""
        shutil.move(self.plain, odd)
        status, said = self.run_it("pack", odd, "--engine", "slurm")
        self.assertEqual(status, 0, said)
        line = next(it for it in said.splitlines() if "sbatch" in it)
        here = self.room / "bin"
        here.mkdir()
        (here / "sbatch").write_text('#!/bin/sh\nfor it; do last=$it; done\nsh -c "$last"\n')
        (here / "fzbatch").write_text('#!/bin/sh\nfor it; do printf "%s\\n" "$it"; done > words\n')
        for it in here.iterdir():
            it.chmod(0o755)
        subprocess.run(["sh", "-c", line], cwd=here, env={**os.environ, "PATH": f"{here}:{os.environ['PATH']}"}, check=True)
        self.assertEqual((here / "words").read_text().splitlines(), ["share", str(odd), f"{odd}.fz"])
        self.assertFalse((here / "pwned").exists())

    def test_a_folder_that_no_shell_can_name_is_refused(self) -> None:
        odd = self.room / "line\nfeed"
        shutil.move(self.plain, odd)
        status, said = self.run_it("pack", odd, "--engine", "slurm")
        self.assertEqual((status, "characters that print" in said), (2, True), said)


if __name__ == "__main__":
    unittest.main()
