"""What can go wrong: one class for each way in which the program ends, all of them `FzError`.

Each error is made by `fzfits.diagnose` from the line of the program and a look at the files. Its text says what happened to which
file, and what to do. All can be pickled, so they come through process pools.
"""
from __future__ import annotations

import os
from typing import Optional, Sequence, Tuple, Union

from .headers import Card, Name
from .results import Place, Verdict


def shown(name: Optional[Name]) -> str:
    """The name of a file in a form that can be printed: as it is, or in quotes with escapes if it has odd characters."""
    if name is None:
        return "?"
    text = os.fsdecode(name)
    if text.isprintable() and text == text.strip() and text:
        return text
    return repr(os.fsencode(name))[1:] if any("\ud800" <= it <= "\udfff" for it in text) else repr(text)


class FzError(Exception):
    """Any failure that this package reports.

    `path` is the file that is at fault, as it was named, `command` the command of the program, `line` the line that the program
    printed, and `advice` what to do about this very file, where more is known than the kind of the error.
    """

    path: Optional[Name] = None
    command: str = ""
    line: str = ""
    advice: str = ""

    def __init__(self, *facts: object, **more: object) -> None:
        super().__init__(*facts)
        self.__dict__.update(more)

    def what(self) -> str:
        """What happened, without the name of the file."""
        return str(self.args[0]) if self.args else type(self).__name__

    def remedy(self) -> str:
        """What to do."""
        return self.advice

    def __str__(self) -> str:
        first = self.what() if self.path is None else f"{shown(self.path)}: {self.what()}"
        return "\n".join(it for it in (first, self.remedy()) if it)


class NoProgram(FzError):
    """The program fz was not found, or could not be started."""


class NoSuchHdu(FzError, KeyError):
    """The file has no HDU with that EXTNAME or number. `names` are those that it has."""

    def __init__(self, asked: Union[int, str], names: Sequence[str] = (), **more: object) -> None:
        super().__init__(asked, tuple(names), **more)
        self.asked, self.names = asked, tuple(names)

    def what(self) -> str:
        return f"there is no HDU {self.asked}" if isinstance(self.asked, int) else f"no HDU has the EXTNAME {self.asked}"

    def remedy(self) -> str:
        return f"The names are {', '.join(self.names)}." if isinstance(self.asked, int) and self.names else f"It has {', '.join(self.names) or 'none'}." if isinstance(self.asked, str) else ""


class Refused(FzError):
    """The file was rejected for its first fault (status 3).

    `kind` is the name of the fault and `number` its fixed number; `hdu` and `place` say where it is. `card` is the card at the
    place, read from the header, if the place is a card before END; `earlier` is the card that it repeats (5 Duplicate). `codec`
    is ZCMPTYPE of the HDU, if it is a packed image. `limit` names the limit that is exceeded (11 Limit), and `missing` the
    keywords that a packed header lacks (4 BadCard). `verdicts` are the lines that `verify` printed before. `mends` is the option
    of `mend` that removes this fault, or None. `meaning` is what docs/REFUSALS.md says of the kind.
    """

    card: Optional[Card] = None
    earlier: Optional[Card] = None
    codec: Optional[str] = None
    limit: Optional[str] = None
    missing: Tuple[str, ...] = ()
    verdicts: Tuple[Verdict, ...] = ()
    mends: Optional[str] = None
    meaning: str = ""

    def __init__(self, kind: str, number: int, hdu: int, place: Place, **more: object) -> None:
        super().__init__(kind, number, hdu, place, **more)
        self.kind, self.number, self.hdu, self.place = kind, number, hdu, place

    def what(self) -> str:
        about = [str(self.card)] if self.card else []
        about += [f"repeats card {self.earlier.number}, {self.earlier}"] if self.earlier else []
        about += [f"missing: {', '.join(self.missing)}"] if self.missing else []
        about += [f"codec {self.codec}"] if self.codec and not (self.card and self.card.keyword == "ZCMPTYPE") else []
        about += [f"limit: {self.limit}"] if self.limit else []
        return f"refused: {self.number} {self.kind}, HDU {self.hdu}, {self.place}" + (f" ({'; '.join(about)})" if about else "")

    def remedy(self) -> str:
        mended = f"fzfits.mend(.., {self.mends}=True), or fzfits mend --{self.mends.replace('_', '-')}, makes a copy without this fault." if self.mends else ""
        return "\n".join(it for it in (self.advice, mended, self.meaning) if it)


class ReadFault(FzError):
    """The input could not be read (status 4). `reason` says why, and `errno` is the system's number, if the file shows it."""

    def __init__(self, reason: str, errno: Optional[int] = None, **more: object) -> None:
        super().__init__(reason, errno, **more)
        self.reason, self.errno = reason, errno

    def what(self) -> str:
        return f"cannot be read: {self.reason}"


class WriteFault(FzError):
    """The output could not be made or written (status 5).

    `cause` is `exists` (there is a file of that name already), `no folder`, `not allowed`, `no room`, `read-only` or `other`.
    """

    def __init__(self, cause: str, reason: str, errno: Optional[int] = None, **more: object) -> None:
        super().__init__(cause, reason, errno, **more)
        self.cause, self.reason, self.errno = cause, reason, errno

    def what(self) -> str:
        return f"cannot be written: {self.reason}"


class OverLimit(FzError):
    """A buffer would have exceeded `memory` (status 6): `live` bytes were in use, `asked` more were wanted, `limit` is allowed.

    `enough` is a value of `memory` that is enough for this file and these options, or None if the headers do not say it.
    """

    def __init__(self, live: int, asked: int, limit: int, enough: Optional[int] = None, **more: object) -> None:
        super().__init__(live, asked, limit, enough, **more)
        self.live, self.asked, self.limit, self.enough = live, asked, limit, enough

    def what(self) -> str:
        return f"needs more memory: {self.live:,} bytes in use and {self.asked:,} more exceed the limit of {self.limit:,}"

    def remedy(self) -> str:
        enough = f"memory={self.enough} is enough; fewer workers or smaller tiles need less." if self.enough else ""
        return "\n".join(it for it in (enough, self.advice) if it)


class NoMemory(FzError):
    """The system had no memory (status 7)."""

    def what(self) -> str:
        return "the system had no memory"

    def remedy(self) -> str:
        return "Try again with fewer processes at once, or on a machine that has more."


class Usage(FzError):
    """The program, or this package, does not take these words (status 2). `words` are those that the program was called with."""

    words: Sequence[str] = ()

    def what(self) -> str:
        return str(self.args[0]) if self.args else "these words are not taken"


class Killed(FzError):
    """The program was ended by a signal. `signal` is its name."""

    def __init__(self, signal: str, **more: object) -> None:
        super().__init__(signal, **more)
        self.signal = signal

    def what(self) -> str:
        return f"the program was ended by {self.signal}"


class Unexpected(FzError):
    """The program ended in a way that its manual does not have: `status` and `lines` are what it said."""

    def __init__(self, status: int, lines: Sequence[str] = (), **more: object) -> None:
        super().__init__(status, tuple(lines), **more)
        self.status, self.lines = status, tuple(lines)

    def what(self) -> str:
        return f"the program ended with status {self.status} and said {' / '.join(self.lines[-2:]) or 'nothing'}"


class NoLibrary(FzError):
    """libfz was not found, or is of another version. `looked` are the places where it was looked for."""

    def __init__(self, reason: str, looked: Sequence[str] = (), **more: object) -> None:
        super().__init__(reason, tuple(looked), **more)
        self.reason, self.looked = reason, tuple(looked)

    def what(self) -> str:
        return f"{self.reason}; looked for in: {', '.join(self.looked)}" if self.looked else self.reason


class BadCode(FzError, ValueError):
    """The bytes of a tile are refused by libfz: `number` and `kind` are those of docs/REFUSALS.md, and `meaning` is what it says of the kind."""

    meaning: str = ""

    def __init__(self, number: int, kind: str, **more: object) -> None:
        super().__init__(number, kind, **more)
        self.number, self.kind = number, kind

    def what(self) -> str:
        return f"the tile is damaged: {self.number} {self.kind}"

    def remedy(self) -> str:
        return "\n".join(it for it in (self.advice, self.meaning) if it)


class BadArgument(FzError, ValueError):
    """libfz, or this package, has no codec, tile or room as it was asked for. `answer` is that of libfz, or None if it was not called."""

    def __init__(self, reason: str, answer: Optional[int] = None, **more: object) -> None:
        super().__init__(reason, answer, **more)
        self.reason, self.answer = reason, answer
