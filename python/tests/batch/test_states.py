"""The table of states, commands and statuses of docs/ARCHIVE.md: each row is a test."""
from __future__ import annotations

import os
import re
import shutil
import signal
import subprocess
import sys
import unittest
from pathlib import Path
from typing import Callable, Dict

sys.path[:0] = [str(Path(__file__).resolve().parents[1])]

from batch.two_files import FZ, KILLED_IN_COMMIT, TOP, Archive, image, zipped  # noqa: E402

COMMANDS = ("pack", "verify", "compare", "restore", "status", "missing", "report")
LINE = re.compile(r"^\| (.+?) \| ([0-9]) \| ([0-9]) \| ([0-9]) \| ([0-9]) \| ([0-9]) \| ([0-9]) \| ([0-9]) \|", re.M)


def table() -> "Dict[str, tuple[int, ...]]":
    """The rows of the table: the state, and the status of each command."""
    text = (TOP / "docs" / "ARCHIVE.md").read_text(encoding="utf-8")
    return {found[0]: tuple(map(int, found[1:])) for found in LINE.findall(text)}


def changed(path: Path, at: int, keeps_time: bool) -> None:
    """Changes a bit of a file."""
    it = path.stat()
    data = bytearray(path.read_bytes())
    data[at] ^= 1
    path.write_bytes(data)
    later = 0 if keeps_time else 5_000_000_000
    os.utime(path, ns=(it.st_atime_ns, it.st_mtime_ns + later))


class States(Archive):
    """An archive of two files in each state."""

    def state(self, name: str) -> Callable[[], None]:
        plain, packed = self.plain, self.packed

        def refused() -> None:
            self.write("bad.fits", b"")
            self.run_it("pack", plain)

        def refused_and_gone() -> None:
            refused()
            (plain / "bad.fits").unlink()

        def wrong(*words: str) -> None:
            data = bytearray(image(3, sums_too=True))
            data[2880 + 100] ^= 1
            self.write("wrong.fits", bytes(data))
            self.run_it("pack", plain, *words)

        def compressed(*words: str) -> None:
            zipped(plain / "raw.fits.gz")
            if words:
                self.run_it("pack", plain, *words)

        def link(*words: str) -> None:
            os.symlink("a.fits", plain / "link.fits")
            if words:
                self.run_it("pack", plain, *words)

        def within_the_grain() -> None:
            self.write("a.fits", image(1), age=0.0)
            self.run_it("pack", plain)
            changed(plain / "a.fits", 2890, True)

        def verified() -> None:
            changed(packed / "a.fits.fz", 6000, True)
            self.run_it("verify", plain)

        def in_the_place(make: Callable[[Path], None]) -> None:
            (packed / "a.fits.fz").unlink()
            make(packed / "a.fits.fz")

        def empty_and_gone() -> None:
            (packed / "a.fits.fz").write_bytes(b"")
            (plain / "a.fits").unlink()

        def folder_is_a_link() -> None:
            shutil.move(packed / "n", self.room / "elsewhere")
            os.symlink(self.room / "elsewhere", packed / "n")

        def row_is_gone() -> None:
            import sqlite3

            sql = sqlite3.connect(packed / "fzbatch.sqlite")
            sql.execute("DELETE FROM files WHERE path = CAST('a.fits' AS BLOB)")
            sql.commit()
            sql.close()

        def lost(*names: str) -> None:
            for it in names:
                (packed / it).unlink()

        def older() -> None:
            before = (packed / "fzbatch.sqlite").read_bytes()
            self.run_it("verify", plain)
            (packed / "fzbatch.sqlite").write_bytes(before)

        def journal() -> None:
            ended = subprocess.run([sys.executable, "-c", KILLED_IN_COMMIT, str(packed / "fzbatch.sqlite")], check=False)
            self.assertEqual(ended.returncode, -signal.SIGKILL)

        def tasks() -> None:
            self.write("new.fits", image(5))
            self.run_it("pack", plain, "--engine", "slurm")

        def lock_is_a_link() -> None:
            (packed / "fzbatch.lock").unlink()
            os.symlink(self.victim / "precious", packed / "fzbatch.lock")

        def two_names() -> None:
            self.write("A.fits", image(7))
            os.link(packed / "a.fits.fz", packed / "A.fits.fz")

        return {
            "all is well": lambda: None,
            "a plain file was not packed yet": lambda: self.write("new.fits", image(5)),
            "`fz` rejects a plain file": refused,
            "a rejected plain file is gone": refused_and_gone,
            "a plain file has a wrong checksum": wrong,
            "a wrong checksum was accepted (`--accept-wrong-sums`)": lambda: wrong("--accept-wrong-sums"),
            "a compressed FITS file is in `DIR`": compressed,
            "a compressed FITS file may be left out (`--skip-compressed`)": lambda: compressed("--skip-compressed"),
            "a symbolic link is in `DIR`": link,
            "a symbolic link may be left out (`--skip-links`)": lambda: link("--skip-links"),
            "a pipe with a FITS name is in `DIR`": lambda: os.mkfifo(plain / "pipe.fits"),
            "a plain file has another size or time": lambda: changed(plain / "a.fits", 2890, False),
            "a plain file changed within 2 s of its packing, with the same time": within_the_grain,
            "a plain file is gone": (plain / "a.fits").unlink,
            "`DIR` is gone": lambda: shutil.rmtree(plain),
            "a packed file is lost": (packed / "a.fits.fz").unlink,
            "a packed file is empty": lambda: (packed / "a.fits.fz").write_bytes(b""),
            "a packed file is empty, and its plain file is gone": empty_and_gone,
            "a bit of a packed file changed, and its time": lambda: changed(packed / "a.fits.fz", 6000, False),
            "a bit of a packed file changed, and not its time": lambda: changed(packed / "a.fits.fz", 6000, True),
            "the same, after `verify` found it": verified,
            "a link is in the place of a packed file": lambda: in_the_place(lambda it: os.symlink("/dev/null", it)),
            "a folder is in the place of a packed file": lambda: in_the_place(os.mkdir),
            "a pipe is in the place of a packed file": lambda: in_the_place(os.mkfifo),
            "a folder of packed files is a link": folder_is_a_link,
            "a link is among the packed files, and no file of the manifest": lambda: os.symlink("/dev/null", packed / "more.fits.fz"),
            "a packed file is not in the manifest": lambda: shutil.copy(packed / "a.fits.fz", packed / "n" / "x.fits.fz"),
            "two names have one packed file": two_names,
            "a row of the manifest is gone or changed": row_is_gone,
            "the manifest is damaged": lambda: (packed / "fzbatch.sqlite").write_bytes(b"garbage" * 999),
            "the manifest is empty": lambda: (packed / "fzbatch.sqlite").write_bytes(b""),
            "an older manifest is in the place of the manifest": older,
            "the manifest is lost": lambda: lost("fzbatch.sqlite"),
            "the manifest and its second copy are lost": lambda: lost("fzbatch.sqlite", "fzbatch.sqlite.copy"),
            "a run was killed while it wrote the manifest": journal,
            "tasks of a Slurm array wait": tasks,
            "the lock is a link": lock_is_a_link,
        }[name]

    def statuses(self, name: str) -> "tuple[int, ...]":
        self.packs()
        self.state(name)()
        found = []
        for verb in COMMANDS:
            trial = self.room / "trial"
            shutil.rmtree(trial, ignore_errors=True)
            trial.mkdir()
            self._copy(self.packed, trial / "packed")
            if self.plain.exists():
                self._copy(self.plain, trial / "plain")
            folders = (trial / "back" if verb == "restore" else trial / "plain", trial / "packed")
            status, said = self.run_it(verb, *folders, *(("-o", trial / "r.html") if verb == "report" else ()))
            self.assertNotIn("Traceback", said)
            found.append(status)
        return tuple(found)

    @staticmethod
    def _copy(source: Path, to: Path) -> None:
        subprocess.run(["cp", "-a", source, to], check=True)


def _of_row(name: str, wanted: "tuple[int, ...]") -> Callable[[States], None]:
    def test(self: States) -> None:
        self.assertEqual(dict(zip(COMMANDS, self.statuses(name))), dict(zip(COMMANDS, wanted)), name)

    return test


for _number, (_name, _wanted) in enumerate(table().items()):
    setattr(States, f"test_row_{_number:02}_" + re.sub(r"\W+", "_", _name).strip("_"), _of_row(_name, _wanted))


@unittest.skipUnless(FZ, "the program fz is not there")
class WholeTable(unittest.TestCase):
    def test_the_table_has_rows(self) -> None:
        self.assertGreater(len(table()), 30)


if __name__ == "__main__":
    if sys.argv[1:] == ["--print"]:
        # the table as it is, for the document
        it = States("setUp")
        for state in re.findall(r'^            "(.+)": ', Path(__file__).read_text(encoding="utf-8"), re.M):
            it.setUp()
            print("|", state, "|", " | ".join(map(str, it.statuses(state))), "|", flush=True)
            it.doCleanups()
    else:
        unittest.main()
