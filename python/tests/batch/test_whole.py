"""Each everyday option with each command on an adopted folder: it is taken, or rejected by name, and nothing is done."""
from __future__ import annotations

import os
import shutil
import sys
import unittest
from pathlib import Path

sys.path[:0] = [str(Path(__file__).resolve().parents[1])]

from batch.test_adopted import SAMPLES, Adopted  # noqa: E402

COMMANDS = {
    "adopt": ("adopt", "{night}"),
    "verify": ("verify", "{night}"),
    "compare": ("compare", "{plain}", "{night}"),
    "pack --beside": ("pack", "{night}", "--beside"),
    "pack --beside --delete": ("pack", "--beside", "--delete", "{night}"),
    "retile": ("retile", "{night}"),
    "restore --beside --delete": ("restore", "{night}", "--beside", "--delete"),
}
LOOKS = {"status": ("status", "{night}"), "missing": ("missing", "{night}"), "report": ("report", "{night}", "-o", "{out}"), "forget": ("forget", "--name", "gone.fits", "{night}")}
# What is said of each option that no command on a whole folder takes.
REJECTED = {
    ("--include", "*.fits"): "works on the whole folder: leave --include out",
    ("--exclude", "small*"): "works on the whole folder: leave --exclude out",
    ("--from-list", "{list}"): "works on the whole folder: leave --from-list out",
    ("--dry-run",): "cannot say what it would do: leave --dry-run out",
    ("-n",): "cannot say what it would do: leave --dry-run out",
    ("--tell-idle",): "has no status of its own for nothing to do: leave --tell-idle out",
    ("small.fits",): "works on the whole folder, and takes no other name: leave small.fits out",
    ("n/c.fits.fz", "small.fits"): "works on the whole folder, and takes no other name: leave n/c.fits.fz out",
}


class Whole(Adopted):
    """Each test has an adopted folder with a plain and a packed file of each, and a folder of plain files."""

    def setUp(self) -> None:
        super().setUp()
        shutil.rmtree(self.night)
        for folder in ("plain", "night"):
            (self.room / folder / "n").mkdir(parents=True)
            for name in ("small.fits", "n/c.fits"):
                shutil.copy(SAMPLES / "small.fits", self.room / folder / name)
                os.utime(self.room / folder / name, (1_500_000_000, 1_500_000_000))
        (self.room / "list").write_text("small.fits\n")
        self.log, self.page = self.room / "log", self.room / "page.html"
        self.assertEqual(self.run_it("pack", self.night, "--beside")[0], 0)
        self.assertEqual(self.run_it("adopt", self.night)[0], 0)

    def run_it(self, *words: object) -> "tuple[int, str]":
        named = {"night": self.night, "plain": self.room / "plain", "out": self.page, "list": self.room / "list", "log": self.log}
        return super().run_it(*(str(it).format(**named) for it in words))

    def test_what_a_whole_folder_does_not_take_is_rejected_by_name(self) -> None:
        before, manifest = self.sums(), self.manifest.read_bytes()
        for command, words in COMMANDS.items():
            for more, says in REJECTED.items():
                status, said = self.run_it(*words, *more)
                # the sentence names the command, and is the only one
                self.assertEqual((status, len(said.splitlines()), says in said), (2, 1, True), (command, more, said))
                self.assertIn(f"fzbatch: fzbatch {command.replace(' --delete', '')} ", said)
        self.assertEqual((self.sums(), self.manifest.read_bytes()), (before, manifest))

    def test_looks_take_no_file(self) -> None:
        for command, words in LOOKS.items():
            for more in (("small.fits",), ("small.fits", "x.fits")):
                status, said = self.run_it(*words, *more)
                self.assertEqual((status, said), (2, f"fzbatch: fzbatch {command} of an adopted folder works on the whole folder, and takes no other name: leave small.fits out\n"))
        self.assertFalse(self.page.exists())

    def test_one_folder_only(self) -> None:
        plain = self.room / "plain"
        for words, what in ((("verify", plain, self.night), "verify of an adopted folder"), (("status", plain, self.night), "status of an adopted folder"), (("adopt", self.night, plain), "adopt"), (("pack", self.night, plain, "--beside"), "pack --beside"), (("retile", self.night, plain), "retile")):
            status, said = self.run_it(*words)
            self.assertEqual((status, said), (2, f"fzbatch: fzbatch {what} has one folder, and was given {words[1]} and {words[2]}: name one of them\n"))

    def test_compare_names_both_folders(self) -> None:
        for words in (("compare", self.night), ("compare", self.night, "small.fits")):
            self.assertIn(f"name the folder of plain files too: fzbatch compare PLAIN {self.night}", self.run_it(*words)[1])
        self.assertEqual(self.run_it("compare", "{plain}", "--jobs", 2, "{night}")[0], 0)
        self.assertIn("no --allow-empty", self.run_it("compare", "{plain}", "{night}", "--allow-empty")[1])

    def test_quiet_prints_what_is_not_well_and_nothing_else(self) -> None:
        for command, words in COMMANDS.items():
            with self.subTest(command):
                self.assertEqual(self.run_it(*words, "--quiet"), (0, ""))
        shutil.copy(SAMPLES / "sums.fits", self.night / "wrong.fits")
        status, said = self.run_it("adopt", self.night, "-q")
        self.assertEqual((status, "wrong.fits: HDU" in said, said.splitlines()[-1].startswith("adopt: ")), (1, True, True), said)
        status, said = self.run_it("pack", self.night, "--beside", "-q")
        self.assertEqual((status, "wrong.fits" in said), (1, True), said)

    def test_a_log_has_a_line_for_each_file_and_the_counts(self) -> None:
        for command, words in COMMANDS.items():
            more = ("--reread", 0) if command == "adopt" else ()
            with self.subTest(command):
                self.log.unlink(missing_ok=True)
                status, said = self.run_it(*words, *more, "--log", "{log}")
                lines = [it.split(" ", 1)[1] for it in self.log.read_text().splitlines()]
                self.assertEqual((status, lines[0].startswith(f"{command} begins: "), lines[-1]), (0, True, said.splitlines()[-1]))
                names = [it.split(": ")[0] for it in lines[1:-1]]
                self.assertEqual({it[: -len(".fz")] if it.endswith(".fz") else it for it in names}, {"small.fits", "n/c.fits"})
        self.assertEqual(self.run_it("adopt", self.night)[0], 0)
        (self.night / "small.fits").unlink()
        self.assertEqual(self.run_it("verify", self.night, "--log", "{log}")[0], 1)
        self.assertIn(": it is not there\n", self.log.read_text())

    def test_a_log_that_cannot_be_written(self) -> None:
        before = self.manifest.read_bytes()
        for words in COMMANDS.values():
            status, said = self.run_it(*words, "--log", self.room / "none" / "log")
            self.assertEqual((status, "No such file" in said), (2, True), said)
        self.assertEqual(self.manifest.read_bytes(), before)

    def test_options_of_fz_are_looked_at_before_anything_is_written(self) -> None:
        before = self.manifest.read_bytes()
        for words in (("pack", self.night, "--beside"), ("retile", self.night)):
            self.assertIn("64x64 is no list of lengths (write 64,64)", self.run_it(*words, "--tile", "64x64")[1])
            self.assertEqual(self.run_it(*words, "--workers", "65")[0], 2)
        self.assertEqual(self.manifest.read_bytes(), before)
        self.assertEqual(self.run_it("retile", self.night, "--block", "16", "--workers", "2", "--tile", "8,8")[0], 0)


if __name__ == "__main__":
    unittest.main()
