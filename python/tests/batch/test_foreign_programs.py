"""What lies in the current folder starts no program and writes no file: it may be the archive of a stranger. Each class is one find."""
from __future__ import annotations

import os
import shutil
import subprocess
import sys
import unittest
from pathlib import Path

sys.path[:0] = [str(Path(__file__).resolve().parents[1])]

from batch.two_files import FZ, FZBATCH, Archive  # noqa: E402


class InTheFolder(Archive):
    """A command in a folder of packed files that others made."""

    def here(self, *words: str, **variables: "str | None") -> "tuple[int, str]":
        """The command in PACKED. A variable of the value None is taken away."""
        given = {**os.environ, "FZ": FZ, **variables}
        ended = subprocess.run([sys.executable, str(FZBATCH), *words], cwd=self.packed, env={name: it for name, it in given.items() if it is not None}, capture_output=True, text=True, timeout=120, check=False)
        return ended.returncode, ended.stdout + ended.stderr

    def test_a_bare_name_of_the_program_is_looked_for_in_path_only(self) -> None:
        self.packs()
        made = self.packed / "fz"
        made.write_text(f"#!/bin/sh\ntouch {self.victim}/ran\n")
        made.chmod(0o755)
        elsewhere = {"PATH": f"{os.path.dirname(sys.executable)}:/usr/bin:/bin"}
        for words, variables in ((("verify", "."), {"FZ": "fz"}), (("verify", ".", "--fz", "fz"), {}), (("rebuild", ".", "--again", "--fz", "fz"), {})):
            self.here(*words, **{**variables, **elsewhere})
            self.assertEqual(os.listdir(self.victim), ["precious"], words)
        self.assertEqual(self.here("verify", ".", "--fz", "./fz")[0], 0)
        self.assertEqual(sorted(os.listdir(self.victim)), ["precious", "ran"])

    @unittest.skipUnless(shutil.which("parallel"), "GNU parallel is not installed")
    def test_parallel_reads_no_options_of_the_folder(self) -> None:
        self.packs()
        (self.packed / ".parallel").mkdir()
        (self.packed / ".parallel" / "config").write_text(f"--joblog {self.victim}/precious\n")
        status, said = self.here("verify", ".", "--engine", "parallel", "--sshlogin", ":", HOME=None)
        self.assertEqual((self.victim / "precious").read_bytes(), b"precious\n")
        self.assertEqual(status, 0, said)


if __name__ == "__main__":
    unittest.main()
