"""What there is to do: the rows of the manifest beside what is in the folders."""
from __future__ import annotations

from collections import Counter
from dataclasses import dataclass, field, replace
from typing import Callable, Iterable, Optional

from . import inside, names
from .manifest import Row
from .messages import Task
from .scan import SHUT, Found, Scan, scan_packed


@dataclass
class Plan:
    """The tasks, and what is known without one."""

    tasks: list[Task] = field(default_factory=list)
    sizes: dict[bytes, int] = field(default_factory=dict)
    there: list[Row] = field(default_factory=list)
    refused: list[Row] = field(default_factory=list)
    gone: list[Row] = field(default_factory=list)
    never_packed: list[Row] = field(default_factory=list)

    def add(self, path: bytes, size: Optional[int], row: Optional[Row] = None, shared: bool = False) -> None:
        """One more task."""
        known = row if row is not None and row.done else Row(path)
        number = len(self.tasks)
        self.tasks.append(Task(path, number, known.sha256, known.packed_sha256, known.size, known.mtime, known.mode, known.wrong_sums, shared, known.packed_size))
        self.sizes[path] = size or 0


def to_pack(found: Scan, rows: dict[bytes, Row], packed: bytes, identity: str, options: str, retry: bool, wanted: Callable[[bytes], bool] = lambda path: True) -> Plan:
    """Each wanted file of the source that is not known to be packed, or whose plain or packed file looks otherwise than it did.

    A plain file that was read within two seconds of its last change is read once more: its time may be the same after a change.
    """
    plan = Plan()
    # no link is followed, also none in the place of a folder
    here = scan_packed(packed).files if rows else {}
    for path, it in found.files.items():
        if not wanted(path):
            continue
        row = rows.get(path)
        same = row is not None and (row.size, row.mtime) == (it.size, it.mtime)
        if row is None or not same:
            plan.add(path, it.size, row)
        elif row.done and not row.fault and not row.unsure and _looks_the_same(here.get(names.packed_name(path)), row):
            plan.there.append(row)
        elif row.status == "refused" and not retry and (row.program, row.options) == (identity, options):
            plan.refused.append(row)
        else:
            plan.add(path, it.size, row)
    _mark_shared(plan, rows, packed)
    unread = [it.path for it in found.left if it.sort == SHUT]
    for path, row in rows.items():
        if path not in found.files and wanted(path) and not any(_is_in(path, it) for it in unread):
            (plan.gone if row.done else plan.never_packed).append(row)
    return plan


def _mark_shared(plan: Plan, rows: dict[bytes, Row], packed: bytes) -> None:
    """Marks each task whose packed file is also that of another file: it is never replaced."""
    if not plan.tasks:
        return
    wanted = {it.path for it in plan.tasks}
    places = {path: place for path in wanted | {it.path for it in rows.values() if it.done} if (place := _place(packed, path)) is not None}
    count = Counter(places.values())
    for number, it in enumerate(plan.tasks):
        place = places.get(it.path)
        if place is not None and count[place] > 1:
            plan.tasks[number] = replace(it, shared=True)


def _place(packed: bytes, path: bytes) -> Optional[tuple[int, int]]:
    try:
        found = inside.state(packed, names.packed_name(path))
    except OSError:
        return None
    return (found.st_dev, found.st_ino) if found is not None else None


def of_packed(rows: Iterable[Row]) -> Plan:
    """Each file that was packed."""
    plan = Plan()
    for row in rows:
        if row.done:
            plan.add(row.path, row.packed_size, row)
        else:
            plan.never_packed.append(row)
    return plan


def _looks_the_same(found: Optional[Found], row: Row) -> bool:
    return found is not None and (found.size, found.mtime) == (row.packed_size, row.packed_mtime)


def _is_in(path: bytes, folder: bytes) -> bool:
    return path == folder or path.startswith(folder + b"/")
