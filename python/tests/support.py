"""What the tests share: the repository, the program, a folder of their own, and what is installed."""
from __future__ import annotations

import importlib
import os
import stat
import subprocess
import sys
import tempfile
import unittest
from pathlib import Path

TOP = Path(__file__).resolve().parents[2]
SAMPLES = TOP / "samples"
PACKED = SAMPLES / "packed"
sys.path[:0] = [str(TOP / "python"), str(TOP / "tools")]

from fzfits import errors, library, program  # noqa: E402


def imported(name):
    """A module, or None if it is not installed."""
    try:
        return importlib.import_module(name)
    except ImportError:
        return None


np = imported("numpy")
fits = imported("astropy.io.fits")
needs_numpy = unittest.skipUnless(np, "numpy is not installed")
needs_astropy = unittest.skipUnless(np and fits, "astropy is not installed")

try:
    FZ = program.find()
except errors.NoProgram:
    FZ = ""
try:
    library.load()
    HAS_LIBRARY = True
except errors.NoLibrary:
    HAS_LIBRARY = False
needs_library = unittest.skipUnless(HAS_LIBRARY, "libfz is not there: make lib builds it, and FZ_LIBRARY names another one")
needs_program = unittest.skipUnless(FZ, "the program fz is not there: rt ci builds it, and FZ names another one")


class InAFolder(unittest.TestCase):
    """Tests that work in a folder of their own."""

    def setUp(self):
        room = tempfile.TemporaryDirectory(prefix="fzfits-test-")
        self.addCleanup(room.cleanup)
        self.folder = Path(room.name)
        before = os.getcwd()
        self.addCleanup(os.chdir, before)
        os.chdir(self.folder)

    def left(self):
        """The names of all files in the folder."""
        return sorted(os.listdir(os.fsencode(self.folder)))

    def copy(self, source, name):
        """A copy of a file in the folder."""
        Path(os.fsdecode(name)).write_bytes(Path(source).read_bytes())
        return name

    def script(self, text, name="other-fz"):
        """A program that stands in for fz."""
        path = self.folder / name
        path.write_text(f"#!/bin/sh\n{text}\n", encoding="utf-8")
        path.chmod(path.stat().st_mode | stat.S_IXUSR)
        return str(path)


def refused_files(folder):
    """A file for each kind of refusal, by the tool of the repository that writes them."""
    words = [sys.executable, str(TOP / "tools" / "make_refused.py"), str(folder)]
    subprocess.run(words, stdin=subprocess.DEVNULL, capture_output=True, check=True)
    return {int(it.name[:2]): it for it in sorted(Path(folder).iterdir())}
