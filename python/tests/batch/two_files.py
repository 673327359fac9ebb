"""What the tests of fzbatch as a whole share: an archive of two files, calls of commands on it, and what they may not touch."""
from __future__ import annotations

import contextlib
import io
import os
import random
import stat
import subprocess
import sys
import tempfile
import time
import unittest
from pathlib import Path

TOP = Path(__file__).resolve().parents[3]
sys.path[:0] = [str(TOP / "python"), str(TOP / "tools"), str(TOP / "python" / "tests")]

from fzfits import program, sums  # noqa: E402
from fzfits.batch import cli, manifest  # noqa: E402
from fzfits.errors import NoProgram  # noqa: E402
from making.fits import card, filled, header, plain_bytes  # noqa: E402

SAMPLES = TOP / "samples"
FZBATCH = TOP / "tools" / "fzbatch"
CALLS_FZ = ("pack", "verify", "compare", "restore", "look", "rebuild", "share")
try:
    FZ = program.find()
except NoProgram:
    FZ = ""


def image(seed: int = 1, sums_too: bool = False, wide: int = 40, high: int = 30) -> bytes:
    """An image of counts, with DATASUM and CHECKSUM if asked."""
    rng = random.Random(seed)
    data = filled(plain_bytes(16, [rng.randint(90, 110) for _ in range(wide * high)]))
    cards = [card("SIMPLE", True), card("BITPIX", 16), card("NAXIS", 2), card("NAXIS1", wide), card("NAXIS2", high)]
    if not sums_too:
        return header(cards) + data
    made = [*cards, card("DATASUM", str(sums.sum_of([data]))), card("CHECKSUM", "0" * 16)]
    total = sums.added(sums.sum_of([header(made)]), data)
    return header([*made[:-1], card("CHECKSUM", sums.text_of(total))]) + data


def zipped(path: Path) -> None:
    import gzip

    path.write_bytes(gzip.compress(image(9)))


@unittest.skipUnless(FZ, "the program fz is not there: rt ci builds it, and FZ names another one")
class Archive(unittest.TestCase):
    """Each test has a folder of plain files with a.fits and n/b.fits, and somebody's file beside both folders."""

    def setUp(self) -> None:
        room = tempfile.TemporaryDirectory()
        self.addCleanup(room.cleanup)
        self.room = Path(room.name)
        self.plain, self.packed, self.victim = self.room / "plain", self.room / "plain.fz", self.room / "victim"
        (self.plain / "n").mkdir(parents=True)
        self.victim.mkdir()
        (self.victim / "precious").write_bytes(b"precious\n")
        self.write("a.fits", image(1))
        self.write("n/b.fits", image(2))

    def write(self, name: str, data: bytes, age: float = 60.0) -> Path:
        """Writes a plain file that was last changed so many seconds ago."""
        path = self.plain / name
        path.write_bytes(data)
        then = time.time_ns() - int(age * 1e9)
        os.utime(path, ns=(then, then))
        return path

    def run_it(self, *words: object, fz: str = "") -> "tuple[int, str]":
        """The status of fzbatch, and what it printed."""
        said = io.StringIO()
        more = ["--fz", fz or FZ] if words[0] in CALLS_FZ and "--fz" not in words else []
        with contextlib.redirect_stdout(said), contextlib.redirect_stderr(said):
            try:
                status = cli.main([*map(str, words), *more])
            except SystemExit as ended:
                status = int(ended.code or 0)
        return status, said.getvalue()

    def starts(self, *words: object, env: "dict[str, str] | None" = None, seconds: float = 60.0) -> "tuple[int, str]":
        """The same by a process of its own; status -1 if it does not end."""
        try:
            ended = subprocess.run([sys.executable, str(FZBATCH), *map(str, words)], env={**os.environ, "FZ": FZ, **(env or {})}, capture_output=True, timeout=seconds, check=False)
        except subprocess.TimeoutExpired:
            return -1, "it did not end"
        return ended.returncode, (ended.stdout + ended.stderr).decode(errors="replace")

    def packs(self, *words: object) -> None:
        status, said = self.run_it("pack", self.plain, *words)
        self.assertEqual(status, 0, said)

    def named(self, wanted: str, *words: object) -> None:
        """The command ends with 1 and names what is wanted."""
        status, said = self.run_it(*words)
        self.assertEqual(status, 1, f"{words}: {said}")
        self.assertIn(wanted, said, f"{words}")

    def looks(self, wanted: str) -> None:
        """`missing`, `status` and `report` all end with 1 and name the same."""
        page = self.room / "r.html"
        for verb in ("missing", "status", "report"):
            page.unlink(missing_ok=True)
            status, said = self.run_it(verb, self.plain, self.packed, *(("-o", page) if verb == "report" else ()))
            said += page.read_text() if verb == "report" else ""
            self.assertEqual(status, 1, f"{verb}: {said[-2000:]}")
            self.assertIn(wanted, said, verb)

    def put(self, name: bytes, **fields: object) -> None:
        """Changes the row of a file as fzbatch itself would write it."""
        with manifest.Manifest(os.fsencode(self.packed / "fzbatch.sqlite")) as it:
            row = next(row for row in it.rows() if row.path == name)
            for field, value in fields.items():
                setattr(row, field, value)
            it.put(row)


KILLED_IN_COMMIT = """
import os, signal, sqlite3, sys
sql = sqlite3.connect(sys.argv[1], isolation_level=None)
sql.execute("PRAGMA cache_size = 2")
sql.execute("PRAGMA cache_spill = 2")
sql.execute("BEGIN IMMEDIATE")
for it in range(400):
    sql.execute("INSERT INTO others VALUES (?, 1)", ("." + str(it) * 40,))
sql.execute("DELETE FROM files")
os.kill(os.getpid(), signal.SIGKILL)
"""


def tree(root: Path) -> "dict[str, tuple]":
    """All names below a folder, with what they are and what they have."""
    found = {}
    for folder, folders, here in os.walk(root):
        for name in folders + here:
            path = os.path.join(folder, name)
            it = os.lstat(path)
            found[os.path.relpath(path, root)] = (it.st_mode, Path(path).read_bytes() if stat.S_ISREG(it.st_mode) else b"")
    return found
