"""The one place that finds the program `fz` and calls it.

`find` looks for the program in this order: the argument, the environment variable FZ, the folders of PATH, the program that came
with the wheel of this package, and the one that a checkout of the project has built (crates/fz/out/fz above this file). A program
that is named and is not there is an error: the next place is not tried instead.
"""
from __future__ import annotations

import os
import shutil
import signal as signals
import subprocess
from dataclasses import dataclass, field
from pathlib import Path
from typing import Mapping, Optional, Sequence, Union

from .errors import NoProgram

Word = Union[str, bytes, "os.PathLike[str]", "os.PathLike[bytes]", int]

IN_A_CHECKOUT = Path(__file__).resolve().parents[2] / "crates" / "fz" / "out" / "fz"


@dataclass(frozen=True)
class Outcome:
    """How one call of the program ended.

    `status` is the exit status, 0 to 7 (see `man fz`); if the program was killed it is minus the number of the signal.
    `lines` are the lines of standard output without their line feeds. The last one is the line of the status if `status` is 2
    or above. `errors` is what came on standard error: after the statuses 2 to 6 a line or two for people, of the file and the cause.
    """

    status: int
    lines: tuple[str, ...] = ()
    errors: str = ""
    program: str = ""
    words: tuple[bytes, ...] = field(default=(), repr=False)

    @property
    def signal(self) -> Optional[str]:
        """The name of the signal that ended the program, or None."""
        if self.status >= 0:
            return None
        try:
            return signals.Signals(-self.status).name
        except ValueError:
            return f"signal {-self.status}"

    @property
    def line(self) -> str:
        """The last line, which is that of the status if the status is 2 or above, or the empty text."""
        return self.lines[-1] if self.lines else ""


def is_program(path: object) -> bool:
    """Whether the path is a file that may be executed."""
    return os.path.isfile(path) and os.access(path, os.X_OK)  # type: ignore[arg-type]


def from_the_wheel() -> Optional[str]:
    """The program that pip put among the scripts of this Python, which need not be in PATH."""
    import sysconfig

    folders = [sysconfig.get_path("scripts"), sysconfig.get_path("scripts", "posix_user"), str(Path(__file__).resolve().parents[1] / "bin")]
    return next((os.path.join(it, "fz") for it in folders if it and is_program(os.path.join(it, "fz"))), None)


def find(program: Optional[Word] = None, environment: Optional[Mapping[str, str]] = None) -> str:
    """The path of the program, absolute. Raises `NoProgram` if there is none."""
    environment = os.environ if environment is None else environment
    named = os.fsdecode(program) if program is not None else environment.get("FZ")  # type: ignore[arg-type]
    if named:
        # a name without a folder is never a file of the current one, which may be the folder of a stranger
        found = named if os.sep in named else shutil.which(named, path=environment.get("PATH"))
        if found is None or not is_program(found):
            origin = "the argument program" if program is not None else "the environment variable FZ"
            raise NoProgram(f"{origin} names {named!r}, which is not a program")
        return os.path.abspath(found)
    found = shutil.which("fz", path=environment.get("PATH")) or from_the_wheel()
    if found is not None:
        return os.path.abspath(found)
    if is_program(IN_A_CHECKOUT):
        return str(IN_A_CHECKOUT)
    raise NoProgram("the program fz is not in PATH: install it, or name it by program=... or the environment variable FZ")


def encoded(word: Word) -> bytes:
    """A word of the command line as the bytes that the program gets."""
    return str(word).encode() if isinstance(word, int) else os.fsencode(word)


def run(words: Sequence[Word], *, program: Optional[Word] = None, timeout: Optional[float] = None, cwd: Optional[Word] = None) -> Outcome:
    """Calls the program with these words and waits until it ends.

    Put `--` before names, so that a name that begins with `-` is not taken for an option. The program takes names in UTF-8
    only; `fzfits.names` gives others a second name. Nothing is raised for a status other than 0: look at it, or hand the
    outcome to `fzfits.errors`. `subprocess.TimeoutExpired` is raised after `timeout` seconds, and the program is then killed,
    as it is if an exception such as KeyboardInterrupt comes.
    """
    path = find(program)
    line = tuple(encoded(it) for it in words)
    try:
        # Standard input is empty, and the two others are pipes.
        ended = subprocess.run([os.fsencode(path), *line], stdin=subprocess.DEVNULL, capture_output=True, timeout=timeout, cwd=cwd, check=False)  # type: ignore[arg-type]
    except OSError as error:
        raise NoProgram(f"{path} could not be started: {error}") from error
    said = ended.stdout.decode("utf-8", "replace")
    return Outcome(ended.returncode, tuple(said.split("\n")[:-1]), ended.stderr.decode("utf-8", "replace"), path, line)
