"""How far a run is: a bar by tqdm or rich on a terminal, if one of them is installed, otherwise a line each second there, and a line
each minute anywhere else."""
from __future__ import annotations

import threading
import time
from typing import Any, Protocol, TextIO

SECOND, MINUTE = 1.0, 60.0


class Progress(Protocol):
    """What shows how far a run is."""

    def step(self, size: int, good: bool = True) -> None:
        """One more file is through, of so many bytes."""

    def close(self) -> None:
        """The run is over."""


def amount(size: float) -> str:
    """A number of bytes for people: 1,234 MB."""
    for unit, one in (("TB", 1e12), ("GB", 1e9), ("MB", 1e6), ("kB", 1e3)):
        if size >= one:
            return f"{size / one:.1f} {unit}"
    return f"{size:.0f} bytes"


def length(seconds: float) -> str:
    """A time for people: 1 h 02 min, 3 min 04 s, 5 s."""
    whole = round(seconds)
    if whole >= 3600:
        return f"{whole // 3600} h {whole % 3600 // 60:02} min"
    return f"{whole // 60} min {whole % 60:02} s" if whole >= 60 else f"{whole} s"


class Silent:
    """Nothing is shown."""

    def step(self, size: int, good: bool = True) -> None:
        pass

    def close(self) -> None:
        pass


class Lines:
    """A line every so many seconds, also while no file ends. On a terminal the next line takes the place of the one before."""

    def __init__(self, verb: str, count: int, size: int, to: TextIO, every: float = MINUTE, over: bool = False):
        self.verb, self.count, self.size, self.to, self.over = verb, count, size, to, over
        self.done = self.failed = self.bytes = self.longest = 0
        self.began = time.monotonic()
        self._ended = threading.Event()
        self._ticks = threading.Thread(target=self._tick, args=(every,), daemon=True)
        self._ticks.start()

    def _tick(self, every: float) -> None:
        while not self._ended.wait(every):
            self.tell()

    def step(self, size: int, good: bool = True) -> None:
        self.done += 1
        self.failed += not good
        self.bytes += size

    def line(self) -> str:
        """How far it is, and about how long it will take."""
        taken = max(time.monotonic() - self.began, 1e-9)
        failed = f", {self.failed} failed" if self.failed else ""
        left = f", about {length(taken * (self.size - self.bytes) / self.bytes)} left" if self.bytes else ""
        return f"{self.verb}: {self.done} of {self.count} files{failed}, {amount(self.bytes)} of {amount(self.size)}, {amount(self.bytes / taken)}/s{left}"

    def tell(self) -> None:
        """Prints a line."""
        line = self.line()
        blanks = " " * max(0, self.longest - len(line))
        self.longest = max(self.longest, len(line))
        print(f"\r{line}{blanks}" if self.over else line, end="" if self.over else "\n", file=self.to, flush=True)

    def close(self) -> None:
        self._ended.set()
        self._ticks.join()
        if self.over and self.longest:
            print(f"\r{' ' * self.longest}\r", end="", file=self.to, flush=True)


class Tqdm:
    """A bar of tqdm, in bytes."""

    def __init__(self, module: Any, verb: str, count: int, size: int, to: TextIO):
        self._bar = module.tqdm(total=size, unit="B", unit_scale=True, desc=verb, file=to, dynamic_ncols=True)
        self.count, self.done, self.failed = count, 0, 0

    def step(self, size: int, good: bool = True) -> None:
        self.done += 1
        self.failed += not good
        failed = f", {self.failed} failed" if self.failed else ""
        self._bar.set_postfix_str(f"{self.done}/{self.count} files{failed}", refresh=False)
        self._bar.update(size)

    def close(self) -> None:
        self._bar.close()


class Rich:
    """A bar of rich, in bytes."""

    def __init__(self, module: Any, verb: str, size: int, to: TextIO):
        from rich.console import Console

        columns = (module.TextColumn("{task.description}"), module.BarColumn(), module.DownloadColumn(), module.TransferSpeedColumn(), module.TimeRemainingColumn())
        self._bar = module.Progress(*columns, console=Console(file=to))
        self._verb, self._failed = verb, 0
        self._task = self._bar.add_task(verb, total=size)
        self._bar.start()

    def step(self, size: int, good: bool = True) -> None:
        self._failed += not good
        self._bar.update(self._task, advance=size, description=f"{self._verb}, {self._failed} failed" if self._failed else self._verb)

    def close(self) -> None:
        self._bar.stop()


def progress(verb: str, count: int, size: int, to: TextIO, quiet: bool = False) -> Progress:
    """The best that there is for this output."""
    if quiet or not count:
        return Silent()
    if not to.isatty():
        return Lines(verb, count, size, to)
    try:
        import tqdm

        return Tqdm(tqdm, verb, count, size, to)
    except ImportError:
        pass
    try:
        import rich.progress

        return Rich(rich.progress, verb, size, to)
    except ImportError:
        return Lines(verb, count, size, to, SECOND, over=True)
