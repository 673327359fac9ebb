"""What goes to other processes and machines as a word: what is asked of them, a file that is to be read, and what was found of it."""
from __future__ import annotations

from dataclasses import dataclass
from typing import Optional

from .. import names
from ..messages import BadMessage, Message
from . import forms


def _expect(holds: bool, what: str) -> None:
    if not holds:
        raise BadMessage(what)


@dataclass(frozen=True)
class Asked(Message):
    """What all files of a run have in common: the folder, the program, its limits, and whether only SHA-256 are compared."""

    folder: bytes
    token: str
    program: str
    memory: int = 0
    time_limit: float = 0.0
    jobs: int = 1
    sha256_only: bool = False

    def check(self) -> None:
        _expect(self.folder.startswith(b"/") and b"\0" not in self.folder, "the folder is no whole path")
        _expect(names.TOKEN.fullmatch(self.token) is not None, "the token is none")
        _expect(self.memory >= 0 and 1 <= self.jobs <= 4096, "a limit is none")


@dataclass(frozen=True)
class One(Message):
    """A file that is to be read, and its SHA-256 by the manifest, or no bytes if it is new."""

    folder: bytes
    name: bytes
    size: int
    sha256: bytes = b""

    @property
    def path(self) -> bytes:
        """The path in the adopted folder."""
        return self.folder + b"/" + self.name if self.folder else self.name

    def check(self) -> None:
        _expect(forms.folder_path(self.folder) and forms.file_name(self.name), "a path is none")
        _expect(self.size >= 0 and len(self.sha256) in (0, 32), "a length or a SHA-256 is none")


@dataclass
class Found(Message):
    """What was found of a file. `outcome` is read, same (its SHA-256 was compared, and nothing else), unread or stopped."""

    folder: bytes
    name: bytes
    outcome: str = "unread"
    size: int = 0
    mtime: int = 0
    looked: int = 0
    sha256: bytes = b""
    sort: str = "plain"
    hdus: str = "[]"
    found: str = "[]"
    cause: str = ""
    line: str = ""
    advice: str = ""
    error: Optional[int] = None
    seconds: float = 0.0

    @property
    def path(self) -> bytes:
        """The path in the adopted folder."""
        return self.folder + b"/" + self.name if self.folder else self.name

    def check(self) -> None:
        _expect(self.outcome in ("read", "same", "unread", "stopped"), "the outcome is none")
        for name in ("folder", "name", "size", "mtime", "looked", "sort", "hdus", "found"):
            _expect(forms.FORMS["files"][name](getattr(self, name)), f"{name} has another form")
        _expect(all(forms.DEEP[name](getattr(self, name)) for name in ("hdus", "found")), "a line of JSON has another form")
        _expect(len(self.sha256) == (32 if self.outcome in ("read", "same") else 0), "the SHA-256 is none")
        self.cause, self.line, self.advice = map(names.told, (self.cause, self.line, self.advice))
