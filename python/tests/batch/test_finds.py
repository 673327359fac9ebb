"""What others found by trying to break an archive. Each class is one find."""
from __future__ import annotations

import hashlib
import os
import shutil
import sqlite3
import subprocess
import sys
import time
import unittest
from pathlib import Path
from unittest import mock

sys.path[:0] = [str(Path(__file__).resolve().parents[1])]

from batch import hostile  # noqa: E402
from batch.two_files import FZ, FZBATCH, Archive, image  # noqa: E402
from fzfits.batch import expansion, files, manifest, messages, rebuild, tries  # noqa: E402
from making.fits import card, header  # noqa: E402


def flip(path: Path, at: int = -100) -> None:
    """Changes a bit of a file, and leaves its size and time."""
    before = path.stat()
    data = bytearray(path.read_bytes())
    data[at] ^= 4
    path.write_bytes(bytes(data))
    os.utime(path, ns=(before.st_atime_ns, before.st_mtime_ns))


class LostAndChanged(Archive):
    """A plain file that changed does not take the place of a packed file that is lost."""

    def test_it_is_named_until_an_update(self) -> None:
        self.packs()
        (self.packed / "a.fits.fz").unlink()
        flip(self.plain / "a.fits", 3000)
        for _ in range(2):
            self.named("the plain file is another than the one that was packed", "pack", self.plain)
            self.assertFalse((self.packed / "a.fits.fz").exists())
        self.looks("its packed file is not there")
        self.packs("--update")
        self.assertEqual(self.run_it("compare", self.packed)[0], 0)

    def test_the_same_plain_file_is_packed_again(self) -> None:
        self.packs()
        (self.packed / "a.fits.fz").unlink()
        self.packs()
        self.assertEqual(self.run_it("compare", self.packed)[0], 0)


class FaultIsKept(Archive):
    """A run that reads no packed file forgets none of its faults."""

    def test_restore_over_plain_files(self) -> None:
        self.packs()
        flip(self.packed / "a.fits.fz")
        self.named("packed file changed", "verify", self.packed)
        self.assertEqual(self.run_it("restore", self.plain, self.packed)[0], 0)
        self.looks("the packed file is another than the one that was made")
        self.named("packed file changed", "pack", self.plain)


class PlainFileChanged(Archive):
    """That a plain file changed, and not its time, is forgotten only by a run that reads it."""

    def test_what_compare_found(self) -> None:
        self.packs()
        path = self.plain / "a.fits"
        flip(path)
        said = "the plain file is another than the one that was packed"
        self.named(said, "compare", self.plain)
        for words in (["verify"], ["rebuild", "--again"]):
            self.named(said, *words, self.packed)
            self.looks(said)
        self.assertEqual(self.run_it("restore", self.room / "back", self.packed)[0], 0)
        self.looks(said)
        path.unlink()
        self.assertEqual(self.run_it("restore", self.plain, self.packed)[0], 0)
        self.assertEqual(self.run_it("missing", self.plain, self.packed)[0], 0)


class SlowReading(Archive):
    """A file counts as read when its reading began: what changed meanwhile may have the same time."""

    def test_it_is_read_again(self) -> None:
        reads = files.look_at

        def slowly(number: int) -> files.Looked:
            found = reads(number)
            if os.readlink(f"/proc/self/fd/{number}").endswith("a.fits"):
                time.sleep(2.2)
            return found

        (self.plain / "a.fits").write_bytes((self.plain / "a.fits").read_bytes())
        with mock.patch.object(files, "look_at", slowly):
            self.packs()
        self.assertEqual(self.run_it("missing", self.plain)[0], 0)
        flip(self.plain / "a.fits")
        self.looks("the plain file is another than the one that was packed")


class Log(Archive):
    """Only a log gets the lines of a log."""

    def test_another_file_stays_as_it_is(self) -> None:
        self.packs("--log", self.room / "log")
        lines = (self.room / "log").read_text().count("\n")
        self.assertEqual(self.run_it("verify", self.packed, "--log", self.room / "log")[0], 0)
        self.assertGreater((self.room / "log").read_text().count("\n"), lines)
        before = (self.plain / "a.fits").read_bytes()
        for it in (self.plain / "a.fits", self.packed / "a.fits.fz", self.packed / "fzbatch.sqlite"):
            status, said = self.run_it("verify", self.packed, "--log", it)
            self.assertEqual(status, 2)
            self.assertIn("is there, and is no log of fzbatch", said)
        self.assertEqual((self.plain / "a.fits").read_bytes(), before)
        self.assertEqual(self.run_it("compare", self.plain)[0], 0)

    def test_a_pipe_that_nobody_reads(self) -> None:
        self.packs()
        os.mkfifo(self.room / "pipe")
        self.assertEqual(self.run_it("verify", self.packed, "--log", self.room / "pipe")[0], 2)


class HugeAxes(Archive):
    """Headers that claim more than a number holds cost no time, and keep no other file from being looked at."""

    def put_huge(self) -> Path:
        """The packed file of a.fits becomes one with axes of 17,982 digits, and the manifest has its SHA-256."""
        self.packs()
        cards = [card("SIMPLE", True), card("BITPIX", 8), card("NAXIS", 0)]
        more = [b"XTENSION= 'BINTABLE'".ljust(80), card("BITPIX", 8), card("NAXIS", 2), card("NAXIS1", 8), card("NAXIS2", 1), card("PCOUNT", 0), card("GCOUNT", 1), card("TFIELDS", 1)]
        more += [card("ZIMAGE", True), card("ZBITPIX", 8), card("ZNAXIS", 999), *(card(f"ZNAXIS{it}", 10**18 - 1) for it in range(1, 1000))]
        path = self.packed / "a.fits.fz"
        path.write_bytes(header(cards) + header(more) + bytes(2880))
        it = path.stat()
        self.put(b"a.fits", packed_size=it.st_size, packed_mtime=it.st_mtime_ns, packed_sha256=hashlib.sha256(path.read_bytes()).hexdigest())
        return path

    def test_the_others_are_looked_at(self) -> None:
        self.put_huge()
        for words in (("verify", self.packed), ("restore", self.room / "back", self.packed), ("rebuild", "--again", self.packed)):
            with self.subTest(command=words[0]):
                status, said = self.run_it(*words)
                self.assertEqual((status, "2 files, 1 done" in said, "a.fits: " in said), (1, True, True), said)

    def test_a_claim_gives_no_time(self) -> None:
        number = os.open(self.put_huge(), os.O_RDONLY)
        self.addCleanup(os.close, number)
        now = files.look_at(number)
        self.assertEqual(expansion.unpacked(number, now.size), expansion.LONGEST)
        self.assertEqual(expansion.believed(expansion.LONGEST, 10), 10 * expansion.RATIO)
        self.assertEqual(expansion.believed(77, 10), 77)


class NamesOfItsOwn(Archive):
    """Folders and files of DIR whose names fzbatch uses for itself in PACKED are named, and harm no other file."""

    def test_they_are_left_out(self) -> None:
        odd = ("fzbatch.tasks/x.fits", "FZBATCH.Results/x.fits", "fzbatch.sqlite-journal/x.fits", "fzbatch.sqlite.fits", "SHA256SUMS/x.fits", "fzbatch.sqlite.copy/n/x.fits")
        for it in odd:
            (self.plain / it).parent.mkdir(parents=True, exist_ok=True)
            self.write(it, image(3))
        for it in ("n/fzbatch.tasks/x.fits", "SHA256SUMS-old/x.fits"):
            (self.plain / it).parent.mkdir(parents=True)
            self.write(it, image(4))
        for verb in ("pack", "missing"):
            status, said = self.run_it(verb, self.plain, *(["--all"] if verb == "pack" else []))
            self.assertEqual((status, said.count("has a name that fzbatch uses for itself")), (1, len(odd)), said)
        self.assertEqual(sorted(str(it.relative_to(self.packed)) for it in self.packed.rglob("*.fz")), ["SHA256SUMS-old/x.fits.fz", "a.fits.fz", "n/b.fits.fz", "n/fzbatch.tasks/x.fits.fz"])
        self.assertEqual(self.run_it("verify", self.packed)[0], 0)
        self.assertEqual(self.run_it("restore", self.room / "back", self.packed)[0], 0)

    def test_a_manifest_has_no_such_path(self) -> None:
        self.packs()
        hostile.renamed(b"fzbatch.sqlite-wal/x.fits")(self.packed, self.victim)
        for verb in ("verify", "status"):
            status, said = self.run_it(verb, self.packed)
            self.assertEqual((status, "a value in path" in said), (2, True), said)

    def test_a_manifest_that_cannot_be_read_again_ends_the_run_with_a_line(self) -> None:
        self.packs()
        with manifest.Manifest(os.fsencode(self.packed / "fzbatch.sqlite")) as it:
            with mock.patch.object(it, "_check_rows", side_effect=sqlite3.OperationalError("disk I/O error")):
                it.give_up()
            self.assertRaisesRegex(manifest.BadManifest, "disk I/O error", it.tell, "skip_links", 1)


class RebuildThatFails(Archive):
    """A rebuild that is killed or fails leaves what was known."""

    def known(self) -> "dict[bytes, tuple[object, ...]]":
        with manifest.Manifest(os.fsencode(self.packed / "fzbatch.sqlite"), writes=False) as it:
            return {row.path: (row.mtime, row.mode, row.status, row.packed_at) for row in it.rows()}

    def archive(self) -> "dict[bytes, tuple[object, ...]]":
        self.write("bad.fits", b"")
        self.named("bad.fits", "pack", self.plain)
        return self.known()

    def test_the_manifest_is_there_until_the_new_one_is_whole(self) -> None:
        before = self.archive()
        with mock.patch.object(rebuild, "row_of", side_effect=KeyboardInterrupt):
            self.assertRaises(KeyboardInterrupt, self.run_it, "rebuild", "--again", self.packed)
        self.assertEqual(self.known(), before)
        self.assertEqual([it for it in os.listdir(self.packed) if ".old-" in it or ".rebuilt-" in it], [])

    def test_again_without_a_manifest_reads_the_copy(self) -> None:
        before = self.archive()
        for away in (lambda it: it.rename(self.packed / "fzbatch.sqlite.old-9"), lambda it: it.write_bytes(b"damaged")):
            away(self.packed / "fzbatch.sqlite")
            self.named("bad.fits: it was never packed", "rebuild", "--again", self.packed)
            self.assertEqual(self.known(), before)
        self.looks("bad.fits")

    def test_a_packed_file_of_what_was_never_packed_is_read(self) -> None:
        self.archive()
        shutil.copyfile(self.packed / "a.fits.fz", self.packed / "bad.fits.fz")
        status, said = self.run_it("rebuild", "--again", self.packed)
        self.assertEqual((status, self.known()[b"bad.fits"][2]), (0, "packed"), said)


class WeakerLooks(Archive):
    """A fault is forgotten only after a test that could have found it."""

    def wrong(self) -> None:
        """The packed file of a.fits has its SHA-256, and restores another file."""
        data = bytearray((self.plain / "a.fits").read_bytes())
        data[3001] ^= 1
        self.packs()
        it = self.write("a.fits", bytes(data)).stat()
        self.put(b"a.fits", mtime=it.st_mtime_ns, sha256=hashlib.sha256(data).hexdigest())
        self.named("unpacked file differs from the original", "compare", self.packed)

    def test_what_comes_back_otherwise(self) -> None:
        self.wrong()
        for words in (("pack", self.plain), ("verify", self.packed, "--sha256-only"), ("verify", self.packed)):
            self.named("unpacked file differs from the original", *words)
            self.looks("the unpacked file differs from")
        row = next(it for it in self.rows() if it.path == b"a.fits")
        self.put(b"a.fits", sha256=hashlib.sha256(image(1)).hexdigest(), mtime=row.mtime)
        self.write("a.fits", image(1))
        self.assertEqual(self.run_it("compare", self.packed)[0], 0)
        self.assertEqual([it.fault for it in self.rows()], ["", ""])

    def rows(self) -> "list[manifest.Row]":
        with manifest.Manifest(os.fsencode(self.packed / "fzbatch.sqlite"), writes=False) as it:
            return list(it.rows())

    def test_what_fz_rejects(self) -> None:
        self.packs()
        self.put(b"a.fits", fault="refused", cause="2 Truncated", line="fz verify: refused: 2 Truncated hdu 0 byte 7")
        for words in (("pack", self.plain), ("verify", self.packed, "--sha256-only"), ("compare", self.packed)):
            self.named("2 Truncated", *words)
        self.assertEqual(self.run_it("verify", self.packed)[0], 0)
        self.assertEqual(self.run_it("pack", self.plain)[0], 0)


class BothReplaced(Archive):
    """A plain and a packed file of another archive are not taken for an update."""

    def test_without_an_update_that_was_killed(self) -> None:
        self.packs()
        before = (self.packed / "fzbatch.sqlite").read_bytes()
        self.write("a.fits", image(7), 30)
        self.packs("--update")
        new = (self.packed / "a.fits.fz").read_bytes()
        for it in ("fzbatch.sqlite", "fzbatch.sqlite.copy"):
            (self.packed / it).write_bytes(before)
        (self.packed / "a.fits.fz").write_bytes(new)
        for _ in range(2):
            self.named("plain file changed", "pack", self.plain)
        with manifest.Manifest(os.fsencode(self.packed / "fzbatch.sqlite")) as it:
            it.begin("f" * 16, "pack --update", "host", 1)
            # the order of runs is by the second
            it._write("UPDATE runs SET began = '2999-01-01T00:00:00Z' WHERE token = ?", ("f" * 16,))
        self.packs()
        self.assertEqual(self.run_it("compare", self.packed)[0], 0)


class FolderThatIgnoresCase(Archive):
    """A packed file is not replaced by way of a folder whose name differs in case only."""

    def test_each_part_of_the_path_is_as_it_is_listed(self) -> None:
        (self.packed / "Sub").mkdir(parents=True)
        (self.packed / "Sub" / "a.fits.fz").write_bytes(b"x")
        real = {it: getattr(os, it) for it in ("stat", "open")}

        def ignoring_case(call: str):
            def called(name, *more, dir_fd=None, **how):
                here = {os.fsencode(it).lower(): it for it in os.listdir(dir_fd)} if dir_fd is not None else {}
                return real[call](here.get(os.fsencode(name).lower(), name), *more, dir_fd=dir_fd, **how)

            return called

        with mock.patch.object(os, "stat", ignoring_case("stat")), mock.patch.object(os, "open", ignoring_case("open")):
            tries.may_replace(os.fsencode(self.packed), b"Sub/a.fits.fz", messages.Task(b"Sub/a.fits", 0))
            for it in (b"sub/a.fits", b"Sub/A.fits"):
                self.assertRaises(tries.Stop, tries.may_replace, os.fsencode(self.packed), it + b".fz", messages.Task(it, 0))


class OtherNames(Archive):
    """FITS files whose names have more after the suffix."""

    def test_they_are_named_by_their_first_bytes(self) -> None:
        names = ("raw.fits ", "raw.fits\n", "raw.fits~", "raw.FITS.1", "raw.fits (1)", "raw.fit.fz.bak")
        for it in names:
            self.write(it, image(3))
        self.write("raw.fits.md5", b"0123  raw.fits\n")
        self.write("raw.fits.br", b"packed by another program")
        for words in (("pack", self.plain, "--all"), ("missing", self.plain)):
            status, said = self.run_it(*words)
            self.assertEqual((status, said.count("its name is not that of one"), said.count("another program compressed")), (1, len(names), 1), said)
            self.assertIn("1 file with other names, which fzbatch does not touch: 1 .md5.", said)
        self.packs("--skip-compressed")


class LongFiles(Archive):
    """Files beside the manifest that are longer than the memory."""

    def grow(self, name: str) -> None:
        os.truncate(self.packed / name, 1 << 36)

    def test_sums(self) -> None:
        self.packs()
        self.grow("SHA256SUMS")
        status, said = self.starts("rebuild", "--again", self.packed, seconds=30)
        self.assertEqual((status, "2 files, 2 done" in said), (0, True), said)

    def test_tasks_and_results(self) -> None:
        self.assertEqual(self.run_it("pack", self.plain, "--engine", "slurm")[0], 0)
        self.assertEqual(self.run_it("share", self.plain, self.packed)[0], 0)
        results = self.packed / "fzbatch.results"
        self.grow(f"fzbatch.results/{os.listdir(results)[0]}")
        status, said = self.starts("collect", self.packed, seconds=30)
        self.assertEqual((status, "2 files, 2 done" in said), (0, True), said)
        self.write("new.fits", image(5))
        self.assertEqual(self.run_it("pack", self.plain, "--engine", "slurm")[0], 0)
        self.grow("fzbatch.tasks")
        status, said = self.starts("collect", self.packed, seconds=30)
        self.assertEqual((status, "too long" in said), (2, True), said)


class LookAtAPipe(Archive):
    """`look` waits for no pipe."""

    def test_a_pipe(self) -> None:
        os.mkfifo(self.room / "pipe.fits.fz")
        status, said = self.starts("look", self.room / "pipe.fits.fz", seconds=20)
        self.assertEqual((status, "is a pipe" in said), (2, True), said)


class ClosedOutput(Archive):
    """A run without a standard output, as of cron, does its work."""

    def test_closed(self) -> None:
        self.packs()
        ended = subprocess.run(["sh", "-c", '"$@" >&- 2>&-', "sh", sys.executable, FZBATCH, "verify", self.packed], env={**os.environ, "FZ": FZ}, check=False)
        self.assertEqual(ended.returncode, 0)


if __name__ == "__main__":
    unittest.main()
