"""Many tasks at once in one thread, and files that wait for the disk together."""
from __future__ import annotations

import os
import sys
import threading
import time
import unittest
from pathlib import Path
from unittest import mock

sys.path[:0] = [str(Path(__file__).resolve().parents[1])]

from batch.two_files import FZ, Archive, image  # noqa: E402
from fzfits.batch import calls, engines, files, finishing, manifest, steps, work  # noqa: E402
from fzfits.batch.loop import Loop  # noqa: E402


class Tasks(unittest.TestCase):
    """Tasks that wait for programs and threads."""

    def setUp(self) -> None:
        self.program = calls.Program("/bin/sh")
        self.addCleanup(self.program.close)

    def script(self, text: str, seconds: float = 60.0) -> steps.Call:
        return steps.Call(("-c", text), (), seconds)

    def counted(self, number: int, text: str):
        ended = yield self.script(text)
        return number, ended.status, ended.lines

    def at_once(self, number: int):
        return number
        yield  # pylint: disable=unreachable

    def test_all_end_with_what_they_asked_for(self) -> None:
        with Loop(self.program) as loop:
            found = sorted(loop.each((self.counted(it, f"echo {it}; exit {it % 3}") for it in range(20)), 4))
        self.assertEqual(found, [(it, it % 3, (str(it),)) for it in range(20)])

    def test_tasks_that_wait_for_nothing(self) -> None:
        with Loop(self.program) as loop:
            self.assertEqual(sorted(loop.each((self.at_once(it) for it in range(9)), 2)), list(range(9)))
            self.assertEqual(loop.busy, 0)

    def test_as_many_at_once_as_asked(self) -> None:
        began = time.monotonic()
        with Loop(self.program) as loop:
            self.assertEqual(len(list(loop.each((self.counted(it, "sleep 1") for it in range(8)), 8))), 8)
        self.assertLess(time.monotonic() - began, 7)

    def test_a_task_is_told_what_went_wrong(self) -> None:
        def task(step):
            try:
                yield step
            except (calls.OverTime, calls.NoProgram, OSError) as error:
                return type(error).__name__
            return "nothing"

        def fails() -> None:
            raise OSError(5, "made up")

        with Loop(self.program) as loop:
            self.assertEqual(list(loop.each(iter([task(self.script("sleep 60", 0.2))]), 1)), ["OverTime"])
            self.assertEqual(list(loop.each(iter([task(steps.Apart(fails))]), 1)), ["OSError"])
        gone = calls.Program("/nowhere/fz")
        self.addCleanup(gone.close)
        with Loop(gone) as loop:
            self.assertEqual(list(loop.each(iter([task(self.script("x"))]), 1)), ["NoProgram"])
        self.assertEqual(steps.alone(task(steps.Apart(fails)), self.program), "OSError")

    def test_what_takes_long_is_done_apart(self) -> None:
        def task():
            return (yield steps.Apart(threading.get_ident))

        with Loop(self.program) as loop:
            self.assertNotEqual(next(iter(loop.each(iter([task()]), 1))), threading.get_ident())

    def test_waiting_has_an_end(self) -> None:
        with Loop(self.program) as loop:
            loop.begin(self.counted(1, "sleep 2"))
            self.assertEqual(loop.ended(0.05), [])
            self.assertEqual(loop.busy, 1)
            self.assertEqual(loop.ended(), [(1, 0, ())])


class Batches(Archive):
    """Files are synced together, and the manifest says that they are packed only after that."""

    def test_no_row_before_the_sync(self) -> None:
        for it in range(6):
            self.write(f"{it}.fits", image(it))
        told: "list[str]" = []

        def finish(settings, batch):
            real(settings, batch)
            told.extend(["synced"] * len(batch))

        def put(self, row):
            told.append("put")
            return row_put(self, row)

        real, row_put = finishing.finish, manifest.Manifest.put
        with mock.patch.object(work, "finish", finish), mock.patch.object(manifest.Manifest, "put", put), mock.patch.object(engines, "MANY", 3):
            self.packs("--jobs", "2")
        self.assertEqual((told.count("put"), told.count("synced")), (8, 8))
        self.assertTrue(all(told[:at].count("put") < told[:at].count("synced") for at, it in enumerate(told) if it == "put"), told)

    def test_one_sync_for_many_files(self) -> None:
        for it in range(20):
            self.write(f"{it}.fits", image(it))
        syncs = []
        real = files.sync_disk
        with mock.patch.object(files, "sync_disk", lambda number: syncs.append(number) or real(number)):
            self.packs()
        self.assertLessEqual(len(syncs), 5)

    def test_runs_of_fz(self) -> None:
        """One to pack and one to verify what was packed; one to verify later."""
        log = self.room / "calls"
        counted = self.room / "counted"
        counted.write_text(f'#!/bin/sh\necho "$1" >> {log}\nexec {FZ} "$@"\n')
        counted.chmod(0o755)
        for words, wanted in ((("pack", self.plain), ["pack", "pack", "verify", "verify"]), (("verify", self.packed), ["verify", "verify"]), (("compare", self.packed), ["unpack", "unpack"]), (("pack", self.plain), [])):
            log.write_text("")
            status, said = self.run_it(*words, fz=str(counted))
            self.assertEqual((status, sorted(log.read_text().split())), (0, wanted), said)

    def test_no_file_stays_open(self) -> None:
        self.packs()
        before = sorted(os.listdir("/proc/self/fd"))
        self.write("new.fits", image(5))
        self.packs("--jobs", "3")
        self.assertEqual(sorted(os.listdir("/proc/self/fd")), before)


if __name__ == "__main__":
    unittest.main()
