"""Adopted folders and manifests that others made so that a command hangs, fills the memory or a disk, ends with a traceback, or calls them well."""
from __future__ import annotations

import contextlib
import gzip
import os
import sqlite3
import struct
import subprocess
import sys
import tempfile
import time
import tracemalloc
import unittest
from pathlib import Path
from unittest import mock

sys.path[:0] = [str(Path(__file__).resolve().parents[1])]

from batch import test_adopted  # noqa: E402
from batch.test_adopted_called_well import Whole  # noqa: E402
from batch.two_files import image  # noqa: E402
from fzfits.batch import checks, scan  # noqa: E402
from fzfits.batch.adopt import calling, forms  # noqa: E402
from fzfits.checks import EMPTY  # noqa: E402
from making.fits import card, header  # noqa: E402

NARROW = 8


def cards_of(rows: int, heap: int, axes: "tuple[int, int]", codec: str, form: int, *more: "tuple[str, object]") -> bytes:
    """The header of a packed image of 16 bits, whose tiles are its rows; each descriptor has 8 bytes."""
    made = [("XTENSION", "BINTABLE"), ("BITPIX", 8), ("NAXIS", 2), ("NAXIS1", NARROW), ("NAXIS2", rows), ("PCOUNT", heap), ("GCOUNT", 1), ("TFIELDS", 1)]
    made += [("TTYPE1", "COMPRESSED_DATA"), ("TFORM1", f"1PB({form})"), ("ZIMAGE", True), ("ZCMPTYPE", codec), ("ZBITPIX", 16), ("ZNAXIS", 2)]
    made += [("ZNAXIS1", axes[0]), ("ZNAXIS2", axes[1]), ("ZTILE1", axes[0]), ("ZTILE2", 1), *more]
    if codec == "RICE_1":
        made += [("ZNAME1", "BLOCKSIZE"), ("ZVAL1", 32), ("ZNAME2", "BYTEPIX"), ("ZVAL2", 2)]
    return header([card(name, value) for name, value in made])


def shared(record: bytes, rows: int, axes: "tuple[int, int]", codec: str, *more: "tuple[str, object]", bad: bool = False) -> bytes:
    """A packed image all of whose rows have one record. Of a `bad` one the first row has no record."""
    data = (struct.pack(">ii", 0, 0) if bad else b"") + struct.pack(">ii", len(record), 0) * (rows - bad) + record
    return cards_of(rows, len(record), axes, codec, len(record), *more) + data + bytes(-len(data) % 2880)


class Strangers(Whole):
    def put(self, data: bytes, name: str = "big.fits.fz") -> Path:
        path = self.night / name
        path.write_bytes(data)
        os.utime(path, (1, 1))
        return path


class Triggers(Strangers):
    """A manifest with a trigger that has the name of a table is none of fzbatch."""

    def test_it_is_an_error(self) -> None:
        with contextlib.closing(sqlite3.connect(self.manifest)) as it:
            made = dict(it.execute("SELECT name, sql FROM sqlite_master"))
            rows = {name: it.execute(f"SELECT * FROM {name}").fetchall() for name in forms.TABLES}
        self.manifest.unlink()
        with contextlib.closing(sqlite3.connect(self.manifest)) as it:
            for name in (*(it for it in forms.TABLES if it != "seal"), "not_well"):
                it.execute(made[name])
            it.execute("CREATE TRIGGER seal AFTER INSERT ON runs BEGIN DELETE FROM others; END")
            it.execute(made["seal"])
            for name, of in rows.items():
                for row in of:
                    it.execute(f"INSERT INTO {name} VALUES ({', '.join('?' * len(row))})", row)
            it.commit()
        for words in (("status",), ("adopt",), ("verify",), ("pack", "--beside")):
            self.named("are not those that fzbatch makes", *words, self.night, status=2)


class Rows(Strangers):
    """Rows that a header claims, and that are not in the file, cost neither memory nor time."""

    def test_they_are_counted(self) -> None:
        rows = 10**9
        self.put(EMPTY + cards_of(rows, 0, (1, rows), "RICE_1", 1))
        tracemalloc.start()
        try:
            self.named("the file ends before 1,000,000,000 tiles (from row 0 on): 1,000,000,000 pixels [1:1,1:1000000000] are lost", "adopt", self.night)
            self.assertLess(tracemalloc.get_traced_memory()[1], 50 << 20)
        finally:
            tracemalloc.stop()


    def test_a_row_that_no_memory_has_room_for(self) -> None:
        for width in (10**10, 10**15):
            head = cards_of(5, 0, (1, 5), "GZIP_1", 1)
            at = head.index(b"NAXIS1  =")
            self.put(EMPTY + head[:at] + card("NAXIS1", width) + head[at + 80 :] + bytes(2880))
            status, said = self.run_it("adopt", self.night, "--reread", "0")
            self.assertEqual((status, "big.fits.fz" in said, "Memory" in said, "Overflow" in said), (1, True, False, False), said)


class Records(Strangers):
    """Records of gzip that rows share, and files with many faulty tiles, have no more time than a file has."""

    def test_gzip(self) -> None:
        self.put(EMPTY + shared(gzip.compress(bytes(50_000_000), 9), 4000, (10, 4000), "GZIP_1"))
        began = time.monotonic()
        self.named("over time", "adopt", "--time-limit", 0.1, self.night)
        self.assertLess(time.monotonic() - began, 60)

    def test_all_calls_for_a_file(self) -> None:
        self.put(image(3), "other.fits")
        with mock.patch.object(calling, "TIMES", 0):
            self.named("other.fits: fz verify: over time", "adopt", self.night)


class Growth(Strangers):
    """A packed file that would become far longer is not unpacked into the folder for temporary files."""

    def setUp(self) -> None:
        super().setUp()
        self.wide, self.high = 64_000, 600
        # the Rice code of so many pixels that are all 0: the first one, and 4 bits for each block of 32
        self.one = bytes(2 + self.wide // 64)
        self.longest = 0
        before = calling.Fz.run

        def run(fz: calling.Fz, *words: object, **more: object) -> object:
            try:
                return before(fz, *words, **more)  # type: ignore[arg-type]
            finally:
                out = more.get("out", b"")
                self.longest = max(self.longest, os.path.getsize(out) if out and os.path.exists(out) else 0)  # type: ignore[arg-type]

        patch = mock.patch.object(calling.Fz, "run", run)
        patch.start()
        self.addCleanup(patch.stop)

    def test_compare(self) -> None:
        self.put(EMPTY + shared(self.one, self.high, (self.wide, self.high), "RICE_1"))
        self.assertEqual(self.run_it("adopt", self.night)[0], 0)
        plain = self.room / "plain"
        plain.mkdir()
        (plain / "big.fits").write_bytes(image(1))
        self.named("big.fits.fz: it would unpack to", "compare", "--without-plain", plain, self.night)
        self.assertLess(self.longest, 1 << 20)
        (self.night / "big.fits").write_bytes(image(1))
        self.named("it would unpack to", "pack", "--beside", self.night)
        self.assertLess(self.longest, 1 << 20)
        self.named("big.fits.fz: it would unpack to", "retile", self.night)
        self.assertLess(self.longest, 1 << 20)

    def test_checksums_of_the_image(self) -> None:
        other = cards_of(1, 10, (10, 1), "HCOMPRESS_1", 10) + (struct.pack(">ii", 10, 0) + bytes(10)).ljust(2880, b"\0")
        self.put(EMPTY + shared(self.one, self.high, (self.wide, self.high), "RICE_1", ("ZDATASUM", "1")) + other)
        self.named("the checksums of its image were not compared", "adopt", self.night)
        self.assertLess(self.longest, 1 << 20)

    def test_after_a_faulty_tile(self) -> None:
        self.put(EMPTY + shared(self.one, self.high, (self.wide, self.high), "RICE_1", bad=True))
        self.named("were not tried", "adopt", self.night)
        self.assertLess(self.longest, 1 << 20)


class Tracebacks(Strangers):
    """What no row has room for is named, and ends no command."""

    def test_a_time_before_1678(self) -> None:
        with contextlib.ExitStack() as rooms:
            tops = (rooms.enter_context(tempfile.TemporaryDirectory(dir=it)) for it in ("/dev/shm", "/tmp") if os.access(it, os.W_OK))
            for top in tops:
                path = Path(top) / "far" / "a.fits"
                path.parent.mkdir()
                path.write_bytes(image(3))
                os.utime(path, (-99_999_999_999, -99_999_999_999))
                if path.stat().st_mtime == -99_999_999_999:
                    break
            else:
                self.skipTest("no file system here has such times")
            (path.parent / "b.fits").write_bytes(image(4))
            for words in (("adopt",), ("status",), ("missing",), ("pack", "--beside")):
                self.named("has a time after the year 2262 or before 1678", *words, path.parent)

    def test_lengths_that_add_up(self) -> None:
        with contextlib.closing(sqlite3.connect(self.manifest)) as it:
            names = [one[1] for one in it.execute("PRAGMA table_info(folders)")]
            count = total = 0
            for values in it.execute("SELECT * FROM folders").fetchall():
                made = [*values[:-1]]
                made[names.index("bytes")] = (1 << 63) - 1
                digest = checks.hash_of("folders", made)
                it.execute("UPDATE folders SET bytes = ?, hash = ? WHERE path = ?", ((1 << 63) - 1, digest, values[0]))
                count, total = count + 1, checks.added(total, digest)
            it.execute("UPDATE seal SET value = ? WHERE name = 'folders'", (checks.seal_of(count, total),))
            it.commit()
        self.put(image(3), "new.fits")
        status, said = self.run_it("adopt", self.night)
        self.assertEqual((status, "cannot be written" in said), (2, True), said)

    def test_folders_in_folders(self) -> None:
        here = os.getcwd()
        try:
            os.chdir(self.night)
            for _ in range(1100):
                os.mkdir("d")
                os.chdir("d")
        finally:
            os.chdir(here)
        self.addCleanup(subprocess.run, ["rm", "-rf", self.night / "d"], check=True)
        self.assertEqual(self.run_it("adopt", self.night)[0], 0)
        self.assertEqual(self.run_it("retile", self.night, "--sums")[0], 0)
        self.assertEqual(len(list(scan.folders_of(os.fsencode(self.night)))), 1102)


class AnotherProgram(Strangers):
    """A program that answers 0 to everything makes no file right."""

    def test_it_says_nothing(self) -> None:
        self.put(bytes(range(256)) * 20, "noise.fits")
        with mock.patch.object(test_adopted, "FZ", "/bin/true"):
            self.named("noise.fits: fz says nothing", "adopt", self.night)
        self.named("noise.fits", "missing", self.night)


if __name__ == "__main__":
    unittest.main()
