"""A manifest of more files than are checked whenever it is opened: which command finds a changed row, and which takes the word of a folder."""
from __future__ import annotations

import os
import sqlite3
import subprocess
import sys
import unittest
import unittest.mock
from pathlib import Path

sys.path[:0] = [str(Path(__file__).resolve().parents[1])]

from batch.test_adopted import SAMPLES, Adopted  # noqa: E402
from fzfits.batch.adopt import copying, forms, lists, places, store  # noqa: E402
from fzfits.batch.checks import Odd  # noqa: E402
from fzfits.batch.opening import BadManifest  # noqa: E402

ALL_ROWS = (("verify",), ("adopt", "--reread", "0"), ("status", "--json"))
FOLDERS = (("status",), ("missing",), ("adopt",))
DAMAGED = 2


class ManyRows(Adopted):
    """The folder of `Adopted`, as if it had more than 20,000 files; a.fits.fz is well, and n/bad.fits.fz is not."""

    def setUp(self) -> None:
        super().setUp()
        (self.night / "n" / "bad.fits.fz").write_bytes((self.night / "n" / "b.fits.fz").read_bytes()[:-2880])
        os.utime(self.night / "n" / "bad.fits.fz", (1_500_000_100, 1_500_000_100))
        self.assertEqual(self.run_it("adopt", self.night)[0], 1)
        it = self.manifest.stat()
        self.times = it.st_atime_ns, it.st_mtime_ns
        patch = unittest.mock.patch.object(store, "CHECKED", -1)
        patch.start()
        self.addCleanup(patch.stop)

    def change(self, statement: str, *values: object) -> None:
        """Changes the manifest as no fzbatch does."""
        with sqlite3.connect(self.manifest) as sql:
            self.assertEqual(sql.execute(statement, values).rowcount, 1)
        sql.close()

    def finds(self, statuses: "dict[tuple[str, ...], int]") -> None:
        """Each command has this status, on the same manifest and the same files beside it."""
        # the second copy and the list are not older than the manifest, so nothing writes them anew; none of them knows the run of the command before
        kept = [(it, it.read_bytes(), it.stat()) for it in (Path(f"{self.manifest}{end.decode()}") for end in (places.COPY, places.SUMS))]
        changed = self.manifest.read_bytes()
        for words, status in statuses.items():
            for path, held, was in kept:
                path.write_bytes(held)
                os.utime(path, ns=(was.st_atime_ns, was.st_mtime_ns))
            self.manifest.write_bytes(changed)
            os.utime(self.manifest, ns=self.times)
            found, said = self.run_it(*words, self.night)
            self.assertEqual(found, status, f"{words}: {said}")

    def test_nothing_is_changed(self) -> None:
        self.finds(dict.fromkeys((*ALL_ROWS, *FOLDERS), 1))

    def test_a_row_of_a_file_that_is_well(self) -> None:
        self.change("UPDATE files SET sha256 = ? WHERE name = ?", bytes(32), b"a.fits.fz")
        self.finds({**dict.fromkeys(ALL_ROWS, DAMAGED), **dict.fromkeys(FOLDERS, 1)})

    def test_a_row_that_is_gone(self) -> None:
        self.change("DELETE FROM files WHERE name = ?", b"a.fits.fz")
        self.finds({**dict.fromkeys(ALL_ROWS, DAMAGED), **dict.fromkeys(FOLDERS, 1)})

    def test_a_row_in_a_folder_in_which_a_time_is_another(self) -> None:
        self.change("UPDATE files SET sha256 = ? WHERE name = ?", bytes(32), b"a.fits.fz")
        os.utime(self.night / "small.fits", (1_600_000_000, 1_600_000_000))
        self.finds(dict.fromkeys((*ALL_ROWS, *FOLDERS), DAMAGED))

    def test_a_row_of_a_file_that_is_not_well(self) -> None:
        self.change("UPDATE files SET found = ? WHERE name = ?", "[]", b"bad.fits.fz")
        self.finds(dict.fromkeys((*ALL_ROWS, *FOLDERS), DAMAGED))

    def test_no_file_becomes_well_by_its_row(self) -> None:
        self.change("UPDATE files SET status = 'right' WHERE name = ?", b"bad.fits.fz")
        self.finds(dict.fromkeys((*ALL_ROWS, *FOLDERS), DAMAGED))

    def test_no_file_is_forgotten_by_its_row(self) -> None:
        self.change("DELETE FROM files WHERE name = ?", b"bad.fits.fz")
        self.finds(dict.fromkeys((*ALL_ROWS, *FOLDERS), DAMAGED))

    def test_the_row_of_a_folder(self) -> None:
        self.change("UPDATE folders SET counts = ? WHERE path = ?", '{"right":4}', b"n")
        self.finds(dict.fromkeys((*ALL_ROWS, *FOLDERS), DAMAGED))

    def test_rows_of_other_forms_are_no_usual_ones(self) -> None:
        usual = (b"n", b"a.fits", 1, -1, 2, bytes(32), "packed", "right", b"", "[]", "[]", "", b"", 1, 1)
        forms.check_row("files", usual)
        for at, odd in enumerate((b"../n", b"a/b", -1, None, 1.5, bytes(31), "other", "well", b"/n", "[\n]", "\x1b", "\x1b", bytes(31), True, -1)):
            with self.assertRaises(Odd, msg=str(odd)):
                forms.check_row("files", (*usual[:at], odd, *usual[at + 1 :]))


class ManyFiles(Adopted):
    """The folder of `Adopted`, as if it had so many files that each folder in it has a list of its own, and the second copy is not written anew."""

    def setUp(self) -> None:
        super().setUp()
        plain = self.night / "n" / "plain.fits"
        plain.write_bytes((SAMPLES / "small.fits").read_bytes())
        # so long ago that the next run need not read it again
        os.utime(plain, (1_500_000_100, 1_500_000_100))
        for each, name, value in ((places, "MANY", 1), (lists, "AT_ONCE", 1), (lists, "TURNS", 1)):
            patch = unittest.mock.patch.object(each, name, value)
            patch.start()
            self.addCleanup(patch.stop)
        self.assertEqual(self.run_it("adopt", self.night)[0], 0)
        self.lists, self.copy = Path(f"{self.manifest}.SHA256SUMS.d"), Path(f"{self.manifest}.copy")

    def written(self) -> "dict[str, int]":
        """When each list was written."""
        return {it.name: it.stat().st_mtime_ns for it in self.lists.iterdir()}

    def list_of(self, folder: bytes) -> Path:
        return self.lists / os.fsdecode(lists.name_of(folder))

    def new_file(self) -> None:
        path = self.night / "n" / "new.fits"
        path.write_bytes((self.night / "n" / "plain.fits").read_bytes())
        os.utime(path, (1_500_000_200, 1_500_000_200))

    def compared(self) -> "tuple[int, int]":
        """What sha256sum says of all lists, and how many files they name."""
        every = b"".join(it.read_bytes() for it in self.lists.iterdir())
        said = subprocess.run(["sha256sum", "-c", "--strict"], input=every, cwd=self.night, capture_output=True, check=False)
        return said.returncode, len(said.stdout.splitlines())

    def rows_in(self, path: Path) -> "list[object]":
        with sqlite3.connect(path) as sql:
            found = [sql.execute(f"SELECT * FROM {it} ORDER BY 1, 2").fetchall() for it in ("files", "folders", "runs", "facts", "seal", "others", "left_out")]
        sql.close()
        return found

    def change(self, path: Path, statement: str, *values: object) -> None:
        with sqlite3.connect(path) as sql:
            self.assertEqual(sql.execute(statement, values).rowcount, 1)
        sql.close()

    def test_a_list_for_each_folder(self) -> None:
        self.assertEqual(set(self.written()), {os.fsdecode(lists.name_of(it)) for it in (b"", b"n")})
        self.assertEqual(self.compared(), (0, 4))
        self.assertIn("SHA256SUMS.d", Path(f"{self.manifest}.SHA256SUMS").read_text())

    def test_the_command_that_the_list_names(self) -> None:
        command = Path(f"{self.manifest}.SHA256SUMS").read_text().splitlines()[-1].partition("in the folder: ")[2]
        self.assertEqual(subprocess.run(["sh", "-c", command], cwd=self.night, check=False).returncode, 0)
        (self.night / "small.fits").write_bytes(b"other")
        self.assertNotEqual(subprocess.run(["sh", "-c", command], cwd=self.night, capture_output=True, check=False).returncode, 0)

    def test_only_the_list_of_a_folder_that_changed_is_written(self) -> None:
        before, inode = self.written(), self.copy.stat().st_ino
        self.new_file()
        self.assertEqual(self.run_it("adopt", self.night)[0], 0)
        self.assertEqual([it for it, when in self.written().items() if before[it] != when], [self.list_of(b"n").name])
        self.assertEqual(self.compared(), (0, 5))
        # the copy has the same rows, and is the same file
        self.assertEqual((self.rows_in(self.copy), self.copy.stat().st_ino), (self.rows_in(self.manifest), inode))
        with unittest.mock.patch.object(places, "keep_beside", side_effect=AssertionError):
            self.assertEqual(self.run_it("adopt", self.night)[0], 0)

    def test_a_folder_that_is_gone_has_no_list(self) -> None:
        for it in (self.night / "n").iterdir():
            it.unlink()
        (self.night / "n").rmdir()
        self.assertEqual(self.run_it("adopt", self.night)[0], 1)
        for name in ("b.fits.fz", "plain.fits"):
            self.assertEqual(self.run_it("forget", self.night, "--name", f"n/{name}")[0], 0)
        self.assertEqual(set(self.written()), {self.list_of(b"").name})
        self.assertEqual(self.rows_in(self.copy), self.rows_in(self.manifest))

    def test_a_list_that_was_cut_off_is_written_again(self) -> None:
        path = self.list_of(b"")
        whole = path.read_bytes()
        path.write_bytes(whole[:-1])
        self.new_file()
        self.assertEqual(self.run_it("adopt", self.night)[0], 0)
        self.assertEqual(path.read_bytes(), whole)

    def test_what_is_none_of_ours_stays(self) -> None:
        (self.lists / "notes.txt").write_text("mine")
        (self.lists / ("0" * 32 + ".new")).write_text("of a killed run")
        self.new_file()
        self.assertEqual(self.run_it("adopt", self.night)[0], 0)
        self.assertEqual(sorted(it for it in self.written() if len(it) != 32), ["notes.txt"])

    def test_a_changed_row_in_a_folder_whose_turn_it_is(self) -> None:
        self.change(self.manifest, "UPDATE files SET sha256 = ? WHERE name = ?", bytes(32), b"a.fits.fz")
        kept = self.copy.read_bytes()
        self.new_file()
        with unittest.mock.patch.object(store, "CHECKED", -1):
            self.assertEqual(self.run_it("adopt", self.night)[0], 1)
        # the copy does not take it
        self.assertEqual(self.copy.read_bytes(), kept)

    def test_a_changed_row_in_a_folder_whose_turn_it_is_not(self) -> None:
        self.change(self.manifest, "UPDATE files SET sha256 = ? WHERE name = ?", bytes(32), b"a.fits.fz")
        whole = self.list_of(b"").read_bytes()
        self.new_file()
        with unittest.mock.patch.object(store, "CHECKED", -1), unittest.mock.patch.object(lists, "is_due", return_value=False), unittest.mock.patch.object(copying, "is_due", return_value=False):
            self.assertEqual(self.run_it("adopt", self.night)[0], 0)
        self.assertEqual(self.list_of(b"").read_bytes(), whole)
        with unittest.mock.patch.object(store, "CHECKED", -1):
            self.assertEqual(self.run_it("verify", self.night)[0], 2)

    def test_a_changed_row_of_the_copy_is_mended(self) -> None:
        self.change(self.copy, "UPDATE files SET sha256 = ? WHERE name = ?", bytes(32), b"a.fits.fz")
        self.new_file()
        self.assertEqual(self.run_it("adopt", self.night)[0], 0)
        self.assertEqual(self.rows_in(self.copy), self.rows_in(self.manifest))

    def test_a_copy_that_is_damaged_or_none_is_made_anew(self) -> None:
        for number, text in enumerate((b"SQLite format 3\0" + bytes(5000), b"", b"other")):
            self.copy.write_bytes(text)
            (self.night / f"{number}.fits").write_bytes((self.night / "small.fits").read_bytes())
            self.assertIn(self.run_it("adopt", self.night)[0], (0, 1))
            if text == b"other":
                self.assertEqual(self.copy.read_bytes(), text)
            elif text:
                self.assertEqual(self.rows_in(self.copy), self.rows_in(self.manifest))

    def test_a_run_that_was_killed_within_the_copy(self) -> None:
        whole = self.copy.read_bytes()
        code = "import sqlite3, os, sys; s = sqlite3.connect(sys.argv[1]); s.execute('PRAGMA cache_size = 1'); s.execute('BEGIN'); s.execute('DELETE FROM files'); s.execute('DELETE FROM runs'); s.execute('DELETE FROM folders'); os._exit(0)"
        subprocess.run([sys.executable, "-c", code, self.copy], check=True)
        self.assertTrue(Path(f"{self.copy}-journal").exists())
        self.manifest.unlink()
        status, said = self.run_it("adopt", self.night)
        self.assertEqual((status, "second copy is" in said), (2, True), said)
        self.assertFalse(Path(f"{self.copy}-journal").exists())
        self.assertEqual(self.copy.read_bytes(), whole)

    def test_it_is_kept_while_a_run_goes_on(self) -> None:
        self.new_file()
        with unittest.mock.patch.object(places, "PAUSE", -1e9), unittest.mock.patch.object(places, "keep_beside", wraps=places.keep_beside) as kept:
            self.assertEqual(self.run_it("adopt", self.night)[0], 0)
        self.assertEqual(kept.call_count, 2)

    def test_fewer_files_have_one_list_again(self) -> None:
        self.new_file()
        with unittest.mock.patch.object(places, "MANY", 1000):
            self.assertEqual(self.run_it("adopt", self.night)[0], 0)
        self.assertFalse(self.lists.exists())
        self.assertEqual(subprocess.run(["sha256sum", "-c", f"{self.manifest}.SHA256SUMS"], cwd=self.night, capture_output=True, check=False).returncode, 0)

    def test_several_processes_write_the_same_lists(self) -> None:
        before = {it.name: it.read_bytes() for it in self.lists.iterdir()}
        for jobs in (1, 3):
            for it in self.lists.iterdir():
                it.unlink()
            with store.Store(os.fsencode(self.manifest)) as it:
                lists.keep_each(it, 0o600, jobs)
            self.assertEqual({it.name: it.read_bytes() for it in self.lists.iterdir()}, before)

    def test_a_row_that_another_process_finds_damaged(self) -> None:
        self.change(self.manifest, "UPDATE files SET sha256 = ? WHERE name = ?", bytes(32), b"a.fits.fz")
        with unittest.mock.patch.object(store, "CHECKED", -1), store.Store(os.fsencode(self.manifest), writes=False) as it:
            for jobs in (1, 2):
                with self.assertRaisesRegex(BadManifest, "a.fits.fz is damaged"):
                    lists.keep_each(it, 0o600, jobs)


if __name__ == "__main__":
    unittest.main()
