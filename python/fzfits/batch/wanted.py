"""What a run is asked for, and what it begins with: its manifest, its folders, and the signals that stop it."""
from __future__ import annotations

import os
import signal
from dataclasses import dataclass, field
from typing import TYPE_CHECKING, Any, Callable, Optional

from . import files, names, older
from .manifest import Manifest

if TYPE_CHECKING:
    from .chosen import Chosen

# The statuses of fzbatch: all is done, a file is not, nothing was begun, a disk failed, and (if asked) all was done before.
DONE, NOT_DONE, NOTHING_DONE, DISK_FAILED, IDLE = range(5)


class Refuse(Exception):
    """The run does not begin."""


@dataclass
class Wanted:
    """What the command line asks for."""

    verb: str
    plain: bytes
    packed: bytes
    program: Optional[str] = None
    options: list[str] = field(default_factory=lambda: ["--sums"])
    memory: int = 0
    jobs: int = 1
    engine: str = "local"
    machines: list[str] = field(default_factory=list)
    scheduler: str = ""
    compare: bool = False
    update: bool = False
    retry: bool = False
    allow_empty: bool = False
    skip_links: bool = False
    skip_compressed: bool = False
    skip_nothing: bool = False
    accept_wrong_sums: bool = False
    sha256_only: bool = False
    without_plain: bool = False
    time_limit: float = 0.0
    all_names: bool = False
    chosen: "Optional[Chosen]" = None
    quiet: bool = False
    dry_run: bool = False
    log: Optional[str] = None
    tells_idle: bool = False


def find_manifest(packed: bytes) -> bytes:
    """Where the manifest of a folder of packed files is. Raises `Refuse` if it has none."""
    path = os.path.join(packed, names.MANIFEST)
    if not os.path.isdir(packed):
        raise Refuse(f"{names.shown(packed)}: no such folder; is its disk mounted?")
    if not files.there(path):
        made = "fzbatch rebuild makes one from the packed files, and fzbatch pack from the plain and the packed files"
        raise Refuse(f"{names.shown(packed)} was not made by fzbatch, or its disk is not mounted: it has no manifest ({names.MANIFEST.decode()}). {made}")
    return path


def open_manifest(packed: bytes, writes: bool = True) -> Manifest:
    """The manifest of a folder of packed files, which has to be there."""
    return checked(Manifest(find_manifest(packed), writes), packed)


def checked(manifest: Manifest, packed: bytes) -> Manifest:
    """The manifest, which is not older than its second copy. Raises `BadManifest` if it is."""
    try:
        older.check(manifest, packed)
    except BaseException:
        manifest.close()
        raise
    return manifest


def place(path: bytes) -> Optional[tuple[int, int]]:
    """Which folder has this name: it is another one after its disk was unmounted."""
    try:
        it = os.stat(path)
    except OSError:
        return None
    return it.st_dev, it.st_ino


class signals:
    """While the block runs, SIGINT and SIGTERM stop the run after the files that are being done; the second of a kind ends it at once."""

    def __init__(self, call: Callable[[int], None]):
        self.call = call
        self.before: "dict[int, Any]" = {}

    def __enter__(self) -> None:
        for number in (signal.SIGINT, signal.SIGTERM):
            self.before[number] = signal.signal(number, self._come)

    def _come(self, number: int, _: object) -> None:
        # a file may be so long that nothing else ends the run
        signal.signal(number, signal.SIG_DFL)
        self.call(number)

    def __exit__(self, *_: object) -> None:
        for number, handler in self.before.items():
            signal.signal(number, handler)
