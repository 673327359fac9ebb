"""What goes to other processes and machines as a word: the settings of a run, a task, and a result.

A word may come from a file of the folder of packed files, so the type and the form of each field are checked.
"""
from __future__ import annotations

import base64
import binascii
import json
from dataclasses import asdict, dataclass, field, fields
from typing import Any, Optional, Type, TypeVar

from . import checks, names

GOOD = ("packed", "copied", "there", "right", "same", "unpacked", "restored")
BAD = ("refused", "failed", "changed", "damaged", "lost", "differs", "gone", "killed")
VERBS = ("pack", "verify", "compare", "restore")
VERIFIED, CAME_BACK = 1, 2
LONGEST = 1 << 20
# No text of a result is longer.
LONG = 20_000


class BadMessage(Exception):
    """A word that fzbatch did not write."""


def _plainly(value: Any) -> Any:
    return {"b": base64.b64encode(value).decode()} if isinstance(value, bytes) else value


def _again(value: Any) -> Any:
    return base64.b64decode(value["b"], validate=True) if isinstance(value, dict) else value


def is_of(value: Any, kind: str) -> bool:
    """Whether a value has the type of this name."""
    if kind.startswith("Optional["):
        return value is None or is_of(value, kind[len("Optional[") : -1])
    if kind == "list[str]":
        return isinstance(value, list) and all(isinstance(it, str) for it in value)
    if kind == "float":
        return isinstance(value, (int, float)) and not isinstance(value, bool) and 0 <= value < 1e12
    if kind == "int":
        return isinstance(value, int) and not isinstance(value, bool) and -(1 << 63) <= value < 1 << 63
    return type(value) is {"bytes": bytes, "str": str, "bool": bool}[kind]


M = TypeVar("M", bound="Message")


class Message:
    """Something that goes to another process as a word or a line of text."""

    def word(self) -> str:
        """As one word of letters and digits, which no shell changes."""
        text = json.dumps({name: _plainly(it) for name, it in asdict(self).items()})  # type: ignore[call-overload]
        return base64.urlsafe_b64encode(text.encode()).decode()

    @classmethod
    def of(cls: "Type[M]", line: str) -> "M":
        """From such a word. Raises `BadMessage` if a field has another type or form than fzbatch gives it."""
        try:
            found = json.loads(base64.urlsafe_b64decode(line.strip()[:LONGEST]))
            known = {it.name: _again(found[it.name]) for it in fields(cls) if it.name in found}  # type: ignore[arg-type]
            made = cls(**known)
        except (ValueError, TypeError, KeyError, RecursionError, binascii.Error) as error:
            raise BadMessage(f"it is no {cls.__name__.lower()} of fzbatch") from error
        for it in fields(cls):  # type: ignore[arg-type]
            if not is_of(getattr(made, it.name), str(it.type)):
                raise BadMessage(f"{it.name} has another type")
        made.check()
        return made

    def check(self) -> None:
        """Raises `BadMessage` if a field has a form that fzbatch does not write."""


def _expect(holds: bool, what: str) -> None:
    if not holds:
        raise BadMessage(what)


@dataclass(frozen=True)
class Settings(Message):
    """What all tasks of a run have in common. `after_update` says that an earlier run with --update was killed."""

    verb: str
    plain: bytes
    packed: bytes
    token: str
    program: str
    identity: str
    options: list[str] = field(default_factory=lambda: ["--sums"])
    memory: int = 0
    compare: bool = False
    replace: bool = False
    accept_wrong_sums: bool = False
    sha256_only: bool = False
    without_plain: bool = False
    time_limit: float = 0.0
    after_update: bool = False

    def check(self) -> None:
        _expect(self.verb in VERBS, "the verb is none")
        _expect(names.TOKEN.fullmatch(self.token) is not None, "the token is none")
        _expect(self.memory >= 0, "the memory is negative")
        _expect(all(b"\0" not in it and it.startswith(b"/") for it in (self.plain, self.packed)), "a folder is no whole path")


@dataclass(frozen=True)
class Task(Message):
    """A file, and what the manifest knows of it. `shared` says that its packed file is also that of another file."""

    path: bytes
    number: int
    sha256: Optional[str] = None
    packed_sha256: Optional[str] = None
    size: Optional[int] = None
    mtime: Optional[int] = None
    mode: Optional[int] = None
    wrong_sums: int = 0
    shared: bool = False
    packed_size: Optional[int] = None

    def check(self) -> None:
        fault = names.fault_of(self.path)
        _expect(not fault, f"the path of a file: {fault}")
        _expect(self.number >= 0, "the number of a task is negative")


@dataclass
class Result(Message):
    """What became of a task. `outcome` is one of GOOD or BAD.

    `tests` says how the packed file was tested: VERIFIED if `fz verify` found it right, CAME_BACK if it was unpacked to the plain
    file, their sum for both, and 0 if its SHA-256 was compared at most.
    """

    path: bytes
    verb: str
    outcome: str = "failed"
    cause: str = ""
    line: str = ""
    advice: str = ""
    kind: int = 0
    size: Optional[int] = None
    mtime: Optional[int] = None
    mode: Optional[int] = None
    looked: Optional[int] = None
    sha256: Optional[str] = None
    packed_size: Optional[int] = None
    packed_mtime: Optional[int] = None
    packed_sha256: Optional[str] = None
    wrong_sums: int = 0
    sums_line: str = ""
    warning: str = ""
    seconds: float = 0.0
    tests: int = 0

    @property
    def good(self) -> bool:
        """Whether the task did what was asked."""
        return self.outcome in GOOD

    def check(self) -> None:
        fault = names.fault_of(self.path)
        _expect(not fault, f"the path of a file: {fault}")
        _expect(self.verb in VERBS and self.outcome in GOOD + BAD, "the outcome is none")
        for name in ("size", "mtime", "mode", "looked", "sha256", "packed_size", "packed_mtime", "packed_sha256", "wrong_sums"):
            _expect(checks.FORMS["files"][name](getattr(self, name)), f"{name} has another form")
        made = self.verb == "pack" and self.outcome in ("packed", "copied")
        _expect(not made or None not in (self.size, self.sha256, self.packed_size, self.packed_sha256), "it lacks what was made")
        _expect(0 <= self.tests <= VERIFIED + CAME_BACK, "the tests are none")
        _expect(0 <= self.kind < 100, "the kind of a refusal is none")
        self.escape()

    def escape(self) -> None:
        """Shows characters that control a terminal by their numbers, in all text, and cuts what no row of a manifest has room for."""
        for name in ("cause", "line", "advice", "sums_line", "warning"):
            text = names.told(getattr(self, name))
            setattr(self, name, text if len(text) <= LONG else f"{text[:LONG]} ..")
