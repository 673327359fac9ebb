"""The table of states, commands and statuses of docs/ADOPTED.md: each row is a test."""
from __future__ import annotations

import contextlib
import os
import re
import shutil
import sqlite3
import subprocess
import sys
import unittest
from pathlib import Path
from typing import Callable, Dict

sys.path[:0] = [str(Path(__file__).resolve().parents[1])]

from batch.test_adopted import SAMPLES, TOP, Adopted  # noqa: E402
from making import strange_faults  # noqa: E402

COMMANDS = (("adopt",), ("adopt", "--reread", "0"), ("verify",), ("status",), ("missing",), ("report",))
LINE = re.compile(r"^\| (.+?) \| ([0-9]) \| ([0-9]) \| ([0-9]) \| ([0-9]) \| ([0-9]) \| ([0-9]) \|", re.M)
KILLED_IN_COMMIT = """
import os, sqlite3, sys
it = sqlite3.connect(sys.argv[1], isolation_level=None)
it.execute("PRAGMA cache_spill = 1")
it.execute("PRAGMA cache_size = 1")
it.execute("BEGIN IMMEDIATE")
it.execute("UPDATE files SET found = ?", ("x" * 200000,))
os.kill(os.getpid(), 9)
"""


def table() -> "Dict[str, tuple[int, ...]]":
    """The rows of the table: the state, and the status of each command."""
    text = (TOP / "docs" / "ADOPTED.md").read_text(encoding="utf-8")
    return {found[0]: tuple(map(int, found[1:])) for found in LINE.findall(text)}


class States(Adopted):
    """An adopted folder of three whole files in each state."""

    def state(self, name: str) -> Callable[[], None]:
        night, small = self.night, self.night / "small.fits"

        def changed(later: int, bit: int = 1) -> None:
            it, data = small.stat(), bytearray(small.read_bytes())
            data[2900] ^= bit
            small.write_bytes(data)
            os.utime(small, ns=(it.st_atime_ns, it.st_mtime_ns + later))

        def float_file() -> None:
            source = (night / "a.fits.fz").read_bytes()
            (night / "float.fits.fz").write_bytes(source.replace(b"ZCMPTYPE= 'RICE_1  '   ", b"ZCMPTYPE= 'HCOMPRESS_1'"))

        def new(data: bytes, name: str = "new.fits") -> None:
            (night / name).write_bytes(data)

        def faulty() -> None:
            new(small.read_bytes()[:-100])

        def then(*calls: Callable[[], object]) -> Callable[[], None]:
            def both() -> None:
                for it in calls:
                    it()

            return both

        def grain() -> None:
            small.write_bytes(small.read_bytes())
            self.run_it("adopt", night)
            changed(0)

        def row(statement: str) -> Callable[[], None]:
            def does() -> None:
                with contextlib.closing(sqlite3.connect(self.manifest)) as it:
                    it.execute(statement)
                    it.commit()

            return does

        def damaged() -> None:
            data = bytearray(self.manifest.read_bytes())
            data[len(data) // 2 : len(data) // 2 + 3000] = bytes(3000)
            self.manifest.write_bytes(data)

        def lost(*endings: str) -> None:
            for it in ("", *endings):
                Path(f"{self.manifest}{it}").unlink()

        def older() -> None:
            before = self.manifest.read_bytes()
            self.run_it("verify", night)
            self.manifest.write_bytes(before)

        def killed() -> None:
            subprocess.run([sys.executable, "-c", KILLED_IN_COMMIT, self.manifest], check=False)
            self.assertTrue(Path(f"{self.manifest}-journal").exists())

        def linked_lock() -> None:
            lock = Path(f"{self.manifest}.lock")
            lock.unlink()
            lock.symlink_to(small)

        def empty_folder() -> None:
            shutil.rmtree(night)
            night.mkdir()

        adopt: Callable[[], object] = lambda: self.run_it("adopt", night)
        return {
            "all is well": lambda: None,
            "an HDU is not decoded": then(float_file, adopt),
            "a file is new": lambda: new((SAMPLES / "flags.fits").read_bytes()) or os.utime(night / "new.fits", (1, 1)),
            "a new file is faulty": faulty,
            "a file was faulty when it was adopted": then(faulty, adopt),
            "a file has another time, and the same bytes": lambda: os.utime(small, (1, 1)),
            "a file has other bytes, and another time": lambda: changed(5_000_000_000),
            "a bit changed, and not the time": lambda: changed(0),
            "the same, after `verify` found it": then(lambda: changed(0), lambda: self.run_it("verify", night)),
            "a bit changed within 2 s of the reading, and not the time": grain,
            "two files are swapped": lambda: strange_faults.swapped(night / "a.fits.fz", night / "n" / "b.fits.fz"),
            "a file has another name": lambda: small.rename(night / "n" / "other.fits"),
            "a file is gone": small.unlink,
            "a file is empty": lambda: small.write_bytes(b""),
            "a link is in the folder": lambda: (night / "link.fits").symlink_to("small.fits"),
            "a link may be left out (`--skip-links`)": then(lambda: (night / "link.fits").symlink_to("small.fits"), lambda: self.run_it("adopt", night, "--skip-links")),
            "a pipe has the name of a FITS file": lambda: os.mkfifo(night / "pipe.fits"),
            "the folder is gone": lambda: shutil.rmtree(night),
            "the folder is empty": empty_folder,
            "a row of the manifest is gone or changed": row("DELETE FROM files WHERE name = CAST('small.fits' AS BLOB)"),
            "the manifest is damaged": damaged,
            "the manifest is empty": lambda: self.manifest.write_bytes(b"") and None,
            "an older manifest is in the place of the manifest": older,
            "the manifest is lost": lost,
            "the manifest and its second copy are lost": lambda: lost(".copy"),
            "the manifest, its second copy and its list are lost": lambda: lost(".copy", ".SHA256SUMS"),
            "a run was killed while it wrote the manifest": killed,
            "the lock is a link": linked_lock,
        }[name]

    def test_each_state(self) -> None:
        found = table()
        self.assertGreater(len(found), 20)
        for name, statuses in found.items():
            # the commands that only look do so before one that writes
            for words, wanted in zip(COMMANDS[3:] + COMMANDS[:3], statuses[3:] + statuses[:3]):
                with self.subTest(state=name, command=" ".join(words)):
                    if words in (COMMANDS[3], COMMANDS[1], COMMANDS[2]):
                        self.doCleanups()
                        self.setUp()
                        self.whole()
                        self.state(name)()
                    more = ["-o", self.room / "page.html"] if words[0] == "report" else []
                    status, said = self.run_it(words[0], self.night, *words[1:], *more)
                    self.assertEqual(status, wanted, said)


if __name__ == "__main__":
    unittest.main()
