"""Finding and calling the program."""
import os
import unittest
from unittest import mock

from support import FZ, InAFolder, needs_program

import fzfits
from fzfits import diagnose, program


class Finding(InAFolder):
    def test_argument_before_variable_before_path(self):
        first, second, third = (self.script("exit 0", it) for it in ("one", "two", "fz"))
        environment = {"FZ": second, "PATH": str(self.folder)}
        self.assertEqual(program.find(first, environment), first)
        self.assertEqual(program.find(None, environment), second)
        self.assertEqual(program.find(None, {"PATH": str(self.folder)}), third)

    def test_checkout_comes_last(self):
        built = self.script("exit 0", "built")
        with mock.patch.object(program, "IN_A_CHECKOUT", built), mock.patch.object(program, "from_the_wheel", lambda: None):
            self.assertEqual(program.find(None, {"PATH": ""}), built)

    def test_what_came_with_the_wheel_comes_before_the_checkout(self):
        beside = self.script("exit 0", "fz")
        with mock.patch("sysconfig.get_path", lambda *_: str(self.folder)), mock.patch.object(program, "IN_A_CHECKOUT", self.script("exit 0", "built")):
            self.assertEqual(program.find(None, {"PATH": ""}), beside)

    def test_a_named_program_that_is_not_there_is_an_error(self):
        other = self.script("exit 0", "fz")
        with self.assertRaisesRegex(fzfits.NoProgram, "variable FZ names '/nowhere/fz'"):
            program.find(None, {"FZ": "/nowhere/fz", "PATH": str(self.folder)})
        with self.assertRaisesRegex(fzfits.NoProgram, "argument program"):
            program.find("nowhere/fz", {"FZ": other})
        nowhere = mock.patch.multiple(program, IN_A_CHECKOUT="nowhere", from_the_wheel=lambda: None)
        with nowhere, self.assertRaisesRegex(fzfits.NoProgram, "not in PATH"):
            program.find(None, {"PATH": ""})

    def test_a_name_without_a_folder_is_looked_for_in_path(self):
        other = self.script("exit 0", "fz-2")
        os.chdir("/")
        self.assertEqual(program.find("fz-2", {"PATH": str(self.folder)}), other)

    def test_what_cannot_be_started_is_no_program(self):
        bad = self.folder / "bad"
        bad.write_bytes(b"\x7fELF nothing")
        bad.chmod(0o700)
        with self.assertRaisesRegex(fzfits.NoProgram, "could not be started"):
            program.run(["list"], program=bad)


class Ending(InAFolder):
    def ended(self, text):
        return program.run(["list", "--", "a"], program=self.script(text))

    def test_lines_and_status(self):
        outcome = self.ended("echo one; echo two; echo more >&2; exit 3")
        self.assertEqual((outcome.status, outcome.lines, outcome.line, outcome.signal), (3, ("one", "two"), "two", None))
        self.assertEqual((outcome.errors, outcome.words), ("more\n", (b"list", b"--", b"a")))

    def test_signals(self):
        outcome = self.ended("kill -9 $$")
        self.assertEqual((outcome.status, outcome.signal), (-9, "SIGKILL"))
        error = diagnose.error_of(outcome, diagnose.Call("list", "a"))
        self.assertIsInstance(error, fzfits.Killed)
        self.assertIn("out of memory", str(error))

    def test_a_shell_that_reports_a_signal(self):
        error = diagnose.error_of(self.ended("exit 153"), diagnose.Call("list", "a"))
        self.assertEqual((type(error), error.signal), (fzfits.Killed, "SIGXFSZ"))
        self.assertIn("ulimit -f", str(error))

    def test_what_the_manual_does_not_have(self):
        for text in ("exit 9", "echo refused: nonsense; exit 3", "echo over; exit 6"):
            error = diagnose.error_of(self.ended(text), diagnose.Call("list", "a"))
            self.assertIsInstance(error, fzfits.Unexpected, text)

    def test_words_of_any_sort(self):
        outcome = program.run(["a", b"\xff", self.folder, 7], program=self.script("exit 0"))
        self.assertEqual(outcome.words, (b"a", b"\xff", os.fsencode(self.folder), b"7"))

    @needs_program
    def test_the_program_itself(self):
        self.assertEqual(program.run(["list", "--", "missing"], program=FZ).lines, ("read fault",))


if __name__ == "__main__":
    unittest.main()
