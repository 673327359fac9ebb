"""The command that is given is the only one that gets its options, and is as it is among all of them."""
from __future__ import annotations

import argparse
import subprocess
import sys
import unittest
from pathlib import Path

PYTHON = Path(__file__).resolve().parents[2]
sys.path[:0] = [str(PYTHON)]

from fzfits.batch import cli, verbs  # noqa: E402


def commands_of(made: argparse.ArgumentParser) -> "dict[str, argparse.ArgumentParser]":
    """The commands of a parser, by their names."""
    return dict(next(it.choices for it in made._actions if isinstance(it, argparse._SubParsersAction)))


class Given(unittest.TestCase):
    """A line with a command, and all commands."""

    def test_each_command_alone_is_as_it_is_among_all(self) -> None:
        every = commands_of(cli._parser())
        self.assertEqual(set(cli.ALL), set(every))
        for name, whole in every.items():
            alone = commands_of(cli._parser([name, "--quiet"]))
            self.assertEqual(list(alone), [name])
            self.assertEqual(alone[name].format_help(), whole.format_help())

    def test_all_are_made_if_none_is_given(self) -> None:
        for words in ([], ["--help"], ["--version", "verify"], ["nosuch"], ["-q", "pack"]):
            self.assertIsNone(verbs.given(words, cli.ALL), words)
        self.assertEqual(verbs.given(["pack", "adopt"], cli.ALL), "pack")

    def test_a_run_imports_nothing_that_it_does_not_need(self) -> None:
        code = "import sys; from fzfits.batch import cli; cli._parsed(['verify', 'x']); print(*sys.modules)"
        found = subprocess.run([sys.executable, "-c", code], env={"PYTHONPATH": str(PYTHON)}, capture_output=True, text=True, check=True).stdout.split()
        unneeded = {"concurrent.futures", "fzfits.batch.adopt.commands", "fzfits.batch.adopt.store", "fzfits.batch.report", "fzfits.batch.submit", "fzfits.pictures.drawing", "multiprocessing"}
        self.assertEqual(unneeded & set(found), set())


if __name__ == "__main__":
    unittest.main()
