"""The parts of fzbatch that need no program: names, the look at a folder, the manifest, counts and plans."""
from __future__ import annotations

import io
import math
import os
import random
import sqlite3
import struct
import sys
import tempfile
import unittest
import unittest.mock
import zlib
from array import array
from collections import Counter
from pathlib import Path

sys.path.insert(0, str(Path(__file__).resolve().parents[2]))

from fzfits.batch import advice, files, inside, lock, machine, manifest, messages, names, opening, plan, progress, record, run, scan, slurm, submit, tally, tries  # noqa: E402
from fzfits.program import Outcome  # noqa: E402


TOKEN = "0123456789abcdef"


class InAFolder(unittest.TestCase):
    """Tests that work in a folder of their own."""

    def setUp(self) -> None:
        room = tempfile.TemporaryDirectory()
        self.addCleanup(room.cleanup)
        self.folder = os.fsencode(room.name)

    def path(self, *parts: bytes) -> bytes:
        return os.path.join(self.folder, *parts)

    def write(self, path: bytes, data: bytes = b"x") -> bytes:
        os.makedirs(os.path.dirname(self.path(path)), exist_ok=True)
        with open(self.path(path), "wb") as it:
            it.write(data)
        return self.path(path)


class Names(unittest.TestCase):
    def test_which_files_are_fits(self) -> None:
        for name in (b"a.fits", b"A.FITS", b"b.fit", b"c.fts", b"a.fits.fz", b".fits"):
            self.assertTrue(names.is_fits(name), name)
        for name in (b"a.txt", b"a.fits.gz", b"fits", b"a.fz"):
            self.assertFalse(names.is_fits(name), name)

    def test_two_files_have_two_packed_names(self) -> None:
        self.assertNotEqual(names.packed_name(b"a.fits"), names.packed_name(b"a.fits.fz"))

    def test_names_on_one_line(self) -> None:
        self.assertEqual(names.shown("Göttingen 1.fits".encode()), "Göttingen 1.fits")
        self.assertEqual(names.shown(b"a\nb'\xff.fits"), "$'a\\nb\\'\\xff.fits'")
        # a name that looks as if it were escaped is escaped itself
        self.assertEqual(names.shown(b"$'a'"), "$'$\\'a\\''")

    def test_only_parts_of_these_runs(self) -> None:
        self.assertTrue(names.is_part_of(names.part_name(TOKEN, 7), {TOKEN}))
        for name in (b".fzbatch-4567-7.part", b"obs.unfinished.run.2.fits", b".fzbatch-0123456789abcdef.part", b".fzbatch-0123456789abcdef-7.fits", b".fzbatch-0123456789abcdef-x.part"):
            self.assertFalse(names.is_part_of(name, {TOKEN}), name)
        # a token that no run of fzbatch has, as a manifest of others may say
        self.assertFalse(names.is_part_of(b".fzbatch-mine-7.part", {"mine"}))

    def test_suffixes(self) -> None:
        self.assertEqual([names.suffix_of(it) for it in (b"a.FITS.gz", b"b.txt", b"c", b"x.gz")], [".fits.gz", ".txt", "no suffix", ".gz"])


class Scan(InAFolder):
    def test_a_folder_with_all_sorts(self) -> None:
        for path in (b"a.fits", b"n/b.FIT", b"n/\xff\n.fits", b"n/notes.txt"):
            self.write(path)
        os.symlink(b"a.fits", self.path(b"l.fits"))
        os.symlink(b"nowhere", self.path(b"dead.fits"))
        os.symlink(b"n", self.path(b"folder"))
        os.symlink(b"n/notes.txt", self.path(b"text"))
        os.mkfifo(self.path(b"p.fits"))
        found = scan.scan(self.folder)
        self.assertEqual(list(found.files), [b"a.fits", b"n/b.FIT", b"n/\xff\n.fits"])
        self.assertEqual([it.path for it in found.left], [b"dead.fits", b"folder", b"l.fits", b"p.fits"])
        self.assertEqual(found.others, Counter({".txt": 1}))
        self.assertTrue(found.whole)

    def test_no_folder(self) -> None:
        with self.assertRaises(scan.NoSource):
            scan.scan(self.path(b"nowhere"))

    def test_a_folder_that_cannot_be_read_is_named(self) -> None:
        self.write(b"closed/a.fits")
        os.chmod(self.path(b"closed"), 0)
        self.addCleanup(os.chmod, self.path(b"closed"), 0o700)
        try:
            os.listdir(self.path(b"closed"))
            self.skipTest("this user may read every folder")
        except PermissionError:
            found = scan.scan(self.folder)
        self.assertFalse(found.whole)
        self.assertEqual([(it.path, it.why) for it in found.left], [(b"closed", "cannot be read: Permission denied")])


class Files(InAFolder):
    def test_a_name_is_given_once(self) -> None:
        part, name = self.write(b"part", b"new"), self.write(b"name", b"old")
        with inside.folder(self.folder, b"") as above:
            self.assertFalse(files.give_name(above, b"part", b"name"))
            self.assertEqual(Path(os.fsdecode(name)).read_bytes(), b"old")
            self.assertTrue(files.give_name(above, b"part", b"other"))
        self.assertFalse(files.there(part))

    def test_a_name_is_given_once_also_without_hard_links(self) -> None:
        self.write(b"part", b"new"), self.write(b"name", b"old")
        with inside.folder(self.folder, b"") as above, unittest.mock.patch.object(os, "link", side_effect=OSError(95, "no links")):
            self.assertFalse(files.give_name(above, b"part", b"name"))
            self.assertTrue(files.give_name(above, b"part", b"other"))
        self.assertEqual(Path(os.fsdecode(self.path(b"other"))).read_bytes(), b"new")

    def test_only_files_of_its_own_sort_are_written_over(self) -> None:
        path = self.write(b"a", b"SIMPLE  =")
        self.assertFalse(files.write_over_own(path, b"<html> new", 6))
        self.assertEqual(Path(os.fsdecode(path)).read_bytes(), b"SIMPLE  =")
        self.assertTrue(files.write_over_own(self.write(b"b", b"<html> old"), b"<html> new", 6))

    def test_a_packed_file_is_not_replaced_by_a_name_that_differs_in_case_only(self) -> None:
        self.write(b"A.fits.fz")
        real = os.stat

        def ignoring_case(name, *more, dir_fd=None, **how):
            # as exFAT looks for names
            here = {it.lower(): it for it in os.listdir(self.folder)}
            text = name if isinstance(name, bytes) else os.fsencode(name)
            return real(here.get(text.lower(), text) if dir_fd is not None else name, *more, dir_fd=dir_fd, **how)

        task = messages.Task(b"a.fits", 0)
        with unittest.mock.patch.object(os, "stat", ignoring_case):
            with self.assertRaises(tries.Stop):
                tries.may_replace(self.folder, b"a.fits.fz", task)
            tries.may_replace(self.folder, b"A.fits.fz", messages.Task(b"A.fits", 0))
            with self.assertRaises(tries.Stop):
                tries.may_replace(self.folder, b"A.fits.fz", messages.Task(b"A.fits", 0, shared=True))

    def test_one_sync_for_a_local_disk_only(self) -> None:
        with inside.folder(self.folder, b"") as above:
            kind = files.kind_of_disk(os.fstat(above).st_dev)
            self.assertEqual(files.sync_disk(above), kind in files.LOCAL and files._reports_faults())
            with unittest.mock.patch.object(files, "kind_of_disk", lambda device: "nfs4"):
                self.assertFalse(files.sync_disk(above))

    def test_a_link_is_not_read(self) -> None:
        self.write(b"a")
        os.symlink(b"a", self.path(b"l"))
        with self.assertRaises(OSError):
            files.look(self.path(b"l"))

    def test_a_file_that_changes_is_noticed(self) -> None:
        path = self.write(b"a", b"one")
        before = files.look(path)
        self.assertTrue(before.is_still(os.lstat(path)))
        self.write(b"a", b"two!")
        self.assertFalse(before.is_still(os.lstat(path)))
        self.assertFalse(before.is_still(None))

    def test_a_file_in_the_place_of_a_folder(self) -> None:
        self.write(b"a")
        with self.assertRaises(inside.NotInside):
            with inside.folder(self.folder, b"a/b", lambda path: 0o700):
                pass

    def test_the_lock_is_held_once(self) -> None:
        with lock.held(self.path(b"lock")):
            with self.assertRaisesRegex(lock.Locked, f"process {os.getpid()}"):
                with lock.held(self.path(b"lock")):
                    pass
        with lock.held(self.path(b"lock"), shared=True), lock.held(self.path(b"lock"), shared=True):
            pass


ROW = manifest.Row(b"a\xff.fits", 10, 1, 0o644, 1 << 62, "5" * 64, 5, 2, "9" * 64, "packed", program="i", options="--sums")


class InTheManifest(InAFolder):
    def test_rows_come_back(self) -> None:
        with manifest.Manifest(self.path(b"m")) as it:
            it.put(ROW)
            it.begin(TOKEN, "pack", "here", 1)
        with manifest.Manifest(self.path(b"m"), writes=False) as it:
            self.assertEqual(list(it.rows()), [ROW])
            self.assertIsNone(it.runs()[0][5])

    def test_what_is_no_manifest(self) -> None:
        self.write(b"m", b"no database" * 100)
        with self.assertRaises(manifest.BadManifest):
            manifest.Manifest(self.path(b"m"))

    def test_another_version(self) -> None:
        manifest.Manifest(self.path(b"m")).close()
        for version in (99, 1):
            with sqlite3.connect(self.path(b"m")) as sql:
                sql.execute("UPDATE facts SET value = ? WHERE name = 'version'", (version,))
            sql.close()
            with self.assertRaisesRegex(manifest.BadManifest, f"version {version}; this fzbatch reads version 2: move it away, and fzbatch pack"):
                manifest.Manifest(self.path(b"m"))

    def test_a_manifest_of_an_sqlite_without_strict_tables(self) -> None:
        with unittest.mock.patch.object(manifest, "STRICT", False), manifest.Manifest(self.path(b"m")) as it:
            it.put(ROW)
        with manifest.Manifest(self.path(b"m")) as it:
            self.assertEqual(list(it.rows()), [ROW])
        self.assertIn("needs SQLite 3.37", opening.what_to_do(b"/m", sqlite3.DatabaseError('malformed database schema (facts) - near "STRICT": syntax error')))

    def test_no_room_for_the_manifest(self) -> None:
        with manifest.Manifest(self.path(b"m")) as it:
            it.put(ROW)
            it.save()
            it._sql.execute("PRAGMA max_page_count = 1")
            with self.assertRaisesRegex(manifest.BadManifest, "full"):
                for number in range(1000):
                    it.put(manifest.Row(b"%d.fits" % number, status="failed"))
            it.give_up()
        with manifest.Manifest(self.path(b"m"), writes=False) as it:
            self.assertEqual(list(it.rows()), [ROW])

    def test_a_manifest_that_cannot_be_written_is_read_in_a_copy(self) -> None:
        with manifest.Manifest(self.path(b"m")) as it:
            it.put(ROW)
        before = files.look(self.path(b"m"))
        copied = opening._copy(self.path(b"m"))
        self.addCleanup(opening.closed, copied[0])
        with unittest.mock.patch.object(os, "access", lambda path, mode: False):
            it = manifest.Manifest(self.path(b"m"), writes=False)
        with it:
            self.assertEqual(list(it.rows()), [ROW])
            it.put(manifest.Row(b"b.fits", status="failed"))
            it.begin(TOKEN, "verify", "here", 1)
            it.end(TOKEN, "said")
            self.assertEqual(len(list(it.rows())), 2)
        self.assertEqual(files.look(self.path(b"m")).sha256, before.sha256)

    def test_a_failure_does_not_forget_what_was_packed(self) -> None:
        with manifest.Manifest(self.path(b"m")) as it:
            bad = messages.Result(ROW.path, "verify", "damaged", "packed file changed", "line", "advice")
            row = record.record(it, manifest.Row(**vars(ROW)), bad, "i", "")
            self.assertEqual((row.status, row.fault, row.sha256, row.packed_sha256), ("packed", "damaged", "5" * 64, "9" * 64))
            row = record.record(it, row, messages.Result(ROW.path, "verify", "right"), "i", "")
            self.assertEqual((row.fault, row.line, row.check_line), ("", "", "right"))


class Arrays(InAFolder):
    def test_a_task_that_is_queued_again_counts_by_its_good_result(self) -> None:
        settings = messages.Settings("pack", self.path(b"plain"), self.path(b"packed"), TOKEN, "/fz", "i")
        os.mkdir(self.path(b"packed"))
        with manifest.Manifest(self.path(b"packed", names.MANIFEST)) as made:
            made.begin(TOKEN, "pack", "host", 1)
        slurm.write(settings, [messages.Task(b"a.fits", 0)])
        failed = messages.Result(b"a.fits", "pack", "failed", "Input/output error", "Input/output error", "run it again")
        packed = messages.Result(b"a.fits", "pack", "packed", size=1, mtime=2, sha256="5" * 64, packed_size=3, packed_mtime=4, packed_sha256="9" * 64)
        # the name of a file of results has the machine in it, so the order of the names is not that of time
        self.write(b"packed/fzbatch.results/0123456789abcdef.0.node1.7", packed.word().encode() + b"\n")
        self.write(b"packed/fzbatch.results/0123456789abcdef.0.node2.5", failed.word().encode() + b"\n")
        self.write(b"packed/a.fits.fz", b"its")
        os.utime(self.path(b"packed", b"a.fits.fz"), ns=(4, 4))
        to = io.StringIO()
        self.assertEqual(submit.collect(self.path(b"packed"), to), run.DONE, to.getvalue())
        with run.open_manifest(self.path(b"packed"), writes=False) as made:
            self.assertEqual([(it.path, it.status, it.fault) for it in made.rows()], [(b"a.fits", "packed", "")])


class Plans(InAFolder):
    def found(self, **more: int) -> scan.Scan:
        return scan.Scan(self.folder, {ROW.path: scan.Found(ROW.path, more.get("size", 10), more.get("mtime", 1))})

    def packed(self) -> manifest.Row:
        it = os.stat(self.write(names.packed_name(ROW.path), b"12345"))
        return manifest.Row(**{**vars(ROW), "packed_mtime": it.st_mtime_ns})

    def plan(self, found: scan.Scan, row: manifest.Row, retry: bool = False) -> plan.Plan:
        return plan.to_pack(found, {row.path: row}, self.folder, "i", "--sums", retry)

    def test_what_is_there_needs_no_task(self) -> None:
        row = self.packed()
        self.assertEqual(self.plan(self.found(), row).there, [row])

    def test_what_looks_otherwise_has_a_task(self) -> None:
        row = self.packed()
        for found in (self.found(size=11), self.found(mtime=2)):
            self.assertEqual(len(self.plan(found, row).tasks), 1)
        self.write(names.packed_name(ROW.path), b"1234567")
        self.assertEqual(len(self.plan(self.found(), row).tasks), 1)
        os.unlink(self.path(names.packed_name(ROW.path)))
        self.assertEqual(len(self.plan(self.found(), row).tasks), 1)

    def test_what_was_refused_is_tried_again_only_if_something_changed(self) -> None:
        row = manifest.Row(ROW.path, 10, 1, sha256="5" * 64, status="refused", program="i", options="--sums")
        self.assertEqual(self.plan(self.found(), row).refused, [row])
        self.assertEqual(len(self.plan(self.found(), row, retry=True).tasks), 1)
        self.assertEqual(len(self.plan(self.found(mtime=9), row).tasks), 1)
        self.assertEqual(len(plan.to_pack(self.found(), {row.path: row}, self.folder, "other", "--sums", False).tasks), 1)

    def test_what_is_gone(self) -> None:
        empty, refused = scan.Scan(self.folder), manifest.Row(b"r", status="refused")
        self.assertEqual(self.plan(empty, ROW).gone, [ROW])
        self.assertEqual(self.plan(empty, refused).never_packed, [refused])
        # what is in a folder that cannot be read is not gone
        unread = scan.Scan(self.folder, left=[scan.Left(b"n", "cannot be read: no", "", scan.SHUT)])
        self.assertEqual(self.plan(unread, manifest.Row(b"n/a.fits", status="packed")).gone, [])

    def test_a_plain_file_that_was_read_as_soon_as_it_was_written_is_read_again(self) -> None:
        row = manifest.Row(**{**vars(self.packed()), "looked": ROW.mtime + 1_999_999_999})
        self.assertEqual(len(self.plan(self.found(), row).tasks), 1)
        row.looked = ROW.mtime + 2_000_000_000
        self.assertEqual(self.plan(self.found(), row).there, [row])


class Words(unittest.TestCase):
    def test_messages_come_back(self) -> None:
        task = messages.Task(b"a\xff\n.fits", 3, "s", None, 5)
        self.assertEqual(messages.Task.of(task.word()), task)
        result = messages.Result(b"\xff.fits", "pack", "refused", line="refused: 2 Truncated", kind=2)
        self.assertEqual(messages.Result.of(result.word()), result)
        settings = messages.Settings("pack", b"/p", b"/q", TOKEN, "/fz", "i")
        self.assertEqual(messages.Settings.of(settings.word()), settings)

    def test_what_to_do(self) -> None:
        self.assertIn("--memory", advice.of_outcome(Outcome(6, ("over limit: live 0 asked 1 limit 1",))))
        self.assertIn("ulimit -f", advice.of_outcome(Outcome(-25)))
        self.assertIn("Fetch", advice.of_outcome(Outcome(3, ("refused: 2 Truncated hdu 0 byte 3000",))))
        self.assertEqual(advice.kind_of("refused: 12 Groups hdu 0 card 5"), (12, "Groups"))

    def test_shares_of_an_array(self) -> None:
        variables = {"SLURM_ARRAY_TASK_ID": "7", "SLURM_ARRAY_TASK_MIN": "3", "SLURM_ARRAY_TASK_STEP": "2", "SLURM_ARRAY_TASK_COUNT": "4", "SLURM_CPUS_PER_TASK": "8"}
        many = len(os.sched_getaffinity(0))
        self.assertEqual(slurm.Share.of(variables), slurm.Share(2, 4, min(8, machine.processors({}))))
        self.assertEqual(slurm.Share.of({**variables, "SLURM_CPUS_PER_TASK": "1"}), slurm.Share(2, 4, 1))
        self.assertEqual(slurm.Share.of({}), slurm.Share(0, 1, machine.processors({})))
        self.assertLessEqual(slurm.Share.of({}).jobs, many)
        self.assertEqual([slurm.array_of(it) for it in (1, 7, 8, 63, 64, 1000)], [1, 1, 2, 15, 16, 16])

    def test_the_summary(self) -> None:
        told = tally.Tally("pack", others={".txt": 2})
        told.good("packed", 100, 50)
        told.good("copied", 10, 10)
        for number in range(7):
            told.bad(b"%d.fits" % number, "2 Truncated", "line", "do this")
        told.left.append(scan.Left(b"l", "is a link", "do that"))
        to = io.StringIO()
        told.print(to)
        self.assertIn("Truncated (kind 2): 7 files\n    What to do: do this.", to.getvalue())
        self.assertIn("and 2 more", to.getvalue())
        self.assertIn("1 file had nothing to pack", to.getvalue())
        self.assertIn("2 files with other names, which fzbatch does not touch: 2 .txt.", to.getvalue())
        self.assertEqual(to.getvalue().splitlines()[-1], "pack: 9 files, 2 done (1 copied unchanged, 1 compressed), 7 failed, 1 skipped")
        self.assertFalse(told.whole)

    def test_a_line_each_minute(self) -> None:
        to = io.StringIO()
        bar = progress.Lines("pack", 3, 300, to)
        bar.step(100, good=False)
        bar.tell()
        bar.close()
        self.assertRegex(to.getvalue(), r"^pack: 1 of 3 files, 1 failed, 100 bytes of 300 bytes, .*/s, about .* left\n$")
        self.assertEqual([progress.length(it) for it in (5, 184, 3720)], ["5 s", "3 min 04 s", "1 h 02 min"])
        self.assertIsInstance(progress.progress("pack", 1, 1, io.StringIO()), progress.Lines)


class Bars(unittest.TestCase):
    """The bars of the libraries that are installed, on something that says that it is a terminal."""

    def shows(self, module: str, bar: type) -> None:
        try:
            __import__(module)
        except ImportError:
            self.skipTest(f"{module} is not installed")
        to = io.StringIO()
        to.isatty = lambda: True  # type: ignore[method-assign]
        made = progress.Tqdm(__import__("tqdm"), "pack", 2, 20, to) if bar is progress.Tqdm else progress.Rich(__import__("rich.progress").progress, "pack", 20, to)
        made.step(10)
        made.step(10, good=False)
        made.close()
        self.assertIn("1 failed", to.getvalue())
        self.assertIn("pack", to.getvalue())

    def test_tqdm(self) -> None:
        self.shows("tqdm", progress.Tqdm)

    def test_rich(self) -> None:
        self.shows("rich.progress", progress.Rich)


if __name__ == "__main__":
    unittest.main()
