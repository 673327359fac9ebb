"""Rights and times there and back, and what small input may cost."""
from __future__ import annotations

import os
import stat
import subprocess
import sys
import time
import unittest
from pathlib import Path

sys.path[:0] = [str(Path(__file__).resolve().parents[1])]

from batch.two_files import FZ, SAMPLES, Archive  # noqa: E402
from fzfits.batch import checks, expansion, manifest, messages, record  # noqa: E402
from making.fits import BLOCK, card, filled, header  # noqa: E402


class RightsAndTimes(Archive):
    """A packed file has the rights of its plain file, and gives them back."""

    def test_rights_and_times_there_and_back(self) -> None:
        os.chmod(self.plain, 0o700)
        os.chmod(self.plain / "n", 0o750)
        os.chmod(self.plain / "a.fits", 0o600)
        os.chmod(self.plain / "n" / "b.fits", 0o640)
        before = os.umask(0o022)
        try:
            self.packs()
            modes = {it: stat.S_IMODE((self.packed / it).stat().st_mode) for it in (".", "n", "a.fits.fz", "n/b.fits.fz", "fzbatch.sqlite", "fzbatch.sqlite.copy", "fzbatch.lock", "SHA256SUMS")}
            self.assertEqual(modes, {".": 0o700, "n": 0o750, "a.fits.fz": 0o600, "n/b.fits.fz": 0o640, "fzbatch.sqlite": 0o600, "fzbatch.sqlite.copy": 0o600, "fzbatch.lock": 0o600, "SHA256SUMS": 0o600})
            back = self.room / "back"
            self.assertEqual(self.run_it("restore", back, self.packed)[0], 0)
        finally:
            os.umask(before)
        for it in (".", "n", "a.fits", "n/b.fits"):
            self.assertEqual(stat.S_IMODE((back / it).stat().st_mode), stat.S_IMODE((self.plain / it).stat().st_mode), it)
        for it in ("a.fits", "n/b.fits"):
            self.assertEqual((back / it).stat().st_mtime_ns, (self.plain / it).stat().st_mtime_ns)


class SmallInputLargeCost(Archive):
    """Small input that would cost much."""

    def test_a_run_leaves_no_file_open(self) -> None:
        self.packs()
        before = len(os.listdir("/proc/self/fd"))
        for _ in range(3):
            self.assertEqual(self.run_it("verify", self.packed)[0], 0)
        self.assertEqual(len(os.listdir("/proc/self/fd")), before)

    def script(self, text: str) -> str:
        path = self.room / "other-fz"
        path.write_text(f"#!/bin/sh\n{text}\n")
        path.chmod(0o755)
        return str(path)

    def test_a_length_may_have_its_sign(self) -> None:
        """What a packed file would become is known as `fz` reads its header."""
        cards = [card("SIMPLE", True), card("BITPIX", 8), card("NAXIS", 0)]
        more = [b"XTENSION= 'BINTABLE'".ljust(80), card("BITPIX", 8), card("NAXIS", 2), card("NAXIS1", 8), card("NAXIS2", 1), card("PCOUNT", 0), card("GCOUNT", 1), card("ZIMAGE", True), card("ZBITPIX", 8), card("ZNAXIS", 1)]
        found = []
        for length in ("900000000", "+900000000"):
            path = self.room / "signs"
            path.write_bytes(header(cards) + header([*more, f"ZNAXIS1 = {length:>20}".ljust(80).encode()]) + bytes(2880))
            with path.open("rb") as it:
                found.append(expansion.warning(expansion.unpacked(it.fileno(), path.stat().st_size), path.stat().st_size))
        self.assertIn("it would unpack to 900,00", found[0])
        self.assertEqual(found[0], found[1])

    def test_many_wrong_checksums_are_one_short_line(self) -> None:
        """A row of the manifest has room for it, so the run goes on."""
        cards = [b"XTENSION= 'IMAGE   '".ljust(80), card("BITPIX", 8), card("NAXIS", 0), card("PCOUNT", 0), card("GCOUNT", 1), card("DATASUM", "7")]
        self.write("many.fits", header([card("SIMPLE", True), card("BITPIX", 8), card("NAXIS", 0)]) + header(cards) * 300)
        for words, wanted in (((), 1), (("--accept-wrong-sums",), 0), ((), 0)):
            status, said = self.run_it("pack", self.plain, *words)
            self.assertEqual((status, "and 280 more HDUs" in said, "3 files" in said), (wanted, True, True), said)
        self.assertEqual(self.run_it("verify", self.packed)[0], 0)
        long = messages.Result(b"a.fits", "pack", line="x" * checks.LONGEST, sums_line="x" * checks.LONGEST + "x")
        long.escape()
        with manifest.Manifest(os.fsencode(self.packed / "fzbatch.sqlite")) as it:
            self.assertEqual(record.record(it, None, long, "", "").line[-5:], "xx ..")

    def test_pipes_do_not_hold_a_run(self) -> None:
        self.packs()
        (self.packed / "a.fits.fz").unlink()
        os.mkfifo(self.packed / "a.fits.fz")
        os.mkfifo(self.plain / "pipe.fits")
        for words in (("verify", self.packed), ("compare", self.packed), ("pack", self.plain), ("restore", self.room / "back", self.packed), ("status", self.packed), ("missing", self.packed)):
            status, said = self.starts(*words, seconds=20)
            self.assertEqual(status, 1, f"{words}: {said}")

    def test_a_time_limit_for_each_fz(self) -> None:
        began = time.monotonic()
        status, said = self.run_it("pack", self.plain, "--time-limit", "0.5", fz=self.script("exec sleep 30"))
        self.assertEqual((status, "over time" in said), (1, True), said)
        self.assertLess(time.monotonic() - began, 15)

    def test_memory_is_shared_by_the_jobs(self) -> None:
        from fzfits.batch import machine

        words = self.room / "words"
        self.run_it("pack", self.plain, "--jobs", "2", fz=self.script(f'printf "%s " "$@" >> {words}; exit 1'))
        given = words.read_text().split()
        self.assertEqual(given[given.index("--memory") + 1], str(machine.limit_of_a_job(2)))
        self.assertEqual(machine.limit_of_a_job(64, 256 << 30), 2 << 30)
        self.assertEqual(machine.limit_of_a_job(1, 256 << 30), 4 << 30)

    def test_jobs_follow_affinity_cgroups_and_slurm(self) -> None:
        from fzfits.batch import machine

        top, own = self.room / "cgroup", self.room / "own"
        (top / "a" / "b").mkdir(parents=True)
        own.write_text("0::/a/b\n")
        (top / "a" / "cpu.max").write_text("150000 100000\n")
        (top / "a" / "b" / "cpu.max").write_text("max 100000\n")
        (top / "a" / "b" / "memory.max").write_text("max\n")
        (top / "a" / "memory.max").write_text(f"{1 << 30}\n")
        many = len(os.sched_getaffinity(0))
        self.assertEqual(machine.processors({}, top, own), min(2, many))
        self.assertEqual(machine.processors({"SLURM_CPUS_PER_TASK": "1"}, top, own), 1)
        self.assertEqual(machine.memory({}, top, own), 1 << 30)
        self.assertEqual(machine.memory({"SLURM_MEM_PER_CPU": "100", "SLURM_CPUS_PER_TASK": "2"}, top, own), 200 << 20)
        self.assertEqual(machine.processors({}, self.room / "none", self.room / "none"), many)

    def test_a_file_that_would_unpack_to_a_thousand_times_its_size_is_named(self) -> None:
        wide = 1 << 22
        made = self.room / "wide.fits"
        with open(made, "wb") as it:
            it.write(header([card("SIMPLE", True), card("BITPIX", 8), card("NAXIS", 2), card("NAXIS1", wide), card("NAXIS2", 2)]))
            it.write(filled(bytes(wide * 2)))
        out = self.room / "wide.fz"
        subprocess.run([FZ, "pack", made, out], check=True)
        # as if the image had many more rows: the look at the headers needs no tile
        data = out.read_bytes().replace(b"ZNAXIS2 =                    2", b"ZNAXIS2 =              9000000")
        from fzfits.batch import expansion

        out.write_bytes(data)
        for path, named in ((out, True), (SAMPLES / "packed" / "small.rice.fits", False)):
            number = os.open(path, os.O_RDONLY)
            size = os.fstat(number).st_size
            self.assertEqual("times its size" in expansion.warning(expansion.unpacked(number, size), size), named)
            os.close(number)

    def test_a_fault_with_one_file_does_not_end_the_run(self) -> None:
        from unittest import mock

        from fzfits.batch import tries

        self.packs()
        real = tries.Tries.sums_are_right

        def fails(it: tries.Tries, number: int, now: object) -> object:
            if it.task.path == b"a.fits":
                raise OverflowError("made up")
            return real(it, number, now)  # type: ignore[arg-type,return-value]

        with mock.patch.object(tries.Tries, "sums_are_right", fails):
            status, said = self.run_it("verify", self.packed)
        self.assertEqual((status, said.splitlines()[-1]), (1, "verify: 2 files, 1 done (1 verified), 1 failed, 0 skipped"))
        self.assertIn("a.fits: OverflowError: made up", said)

    def test_the_name_of_such_a_file_is_in_the_summary(self) -> None:
        # rows that share one record: each tile of 65,536 zeros has the same few bytes of the heap
        wide, high = 4096, 8000
        made, whole = self.plain / "zeros.fits", self.room / "whole.fz"
        with open(made, "wb") as it:
            it.write(header([card("SIMPLE", True), card("BITPIX", 8), card("NAXIS", 2), card("NAXIS1", wide), card("NAXIS2", high)]))
            it.write(filled(bytes(wide * high)))
        subprocess.run([FZ, "pack", "--tile", f"{wide},16", made, whole], check=True)
        data = whole.read_bytes()
        table = data.index(b"XTENSION")
        start = table + (data[table:].index(b"END".ljust(80)) // BLOCK + 1) * BLOCK
        rows = high // 16
        wide_row = 16
        first = data[start : start + wide_row]
        length = int.from_bytes(first[:4], "big")
        head = bytearray(data[:start])
        at = head.index(b"PCOUNT  =", table)
        head[at : at + 80] = card("PCOUNT", length)
        self.packed.mkdir()
        (self.packed / "zeros.fits.fz").write_bytes(bytes(head) + filled(first * rows + data[start + wide_row * rows : start + wide_row * rows + length]))
        size = (self.packed / "zeros.fits.fz").stat().st_size
        self.assertGreater(wide * high, 1000 * size)
        self.packs()
        status, said = self.run_it("verify", self.packed)
        self.assertEqual((status, "zeros.fits: it would unpack to" in said), (0, True), said)


if __name__ == "__main__":
    unittest.main()
