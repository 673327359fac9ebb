"""Whether a manifest is one that fzbatch wrote, byte for byte: its tables, the form of each field, and the hashes of its rows."""
from __future__ import annotations

import hashlib
import math
import re
import sqlite3
from typing import Any, Callable, Iterable, Sequence

from . import names

SHA256 = re.compile(r"[0-9a-f]{64}")
TIME = re.compile(r"([12][0-9]{3}-(0[1-9]|1[0-2])-(0[1-9]|[12][0-9]|3[01])T[0-2][0-9]:[0-5][0-9]:[0-6][0-9]Z)?")
FAULTS = ("", "refused", "failed", "changed", "damaged", "lost", "differs", "killed")
LONGEST = 1 << 20
WIDE = 1 << 256


class Odd(Exception):
    """Something that fzbatch does not write."""


def hash_of(table: str, values: Sequence[Any]) -> bytes:
    """The hash of a row, from its values in a form that does not depend on the version of Python."""
    return hashlib.sha256(ascii((table, *values)).encode()).digest()


def added(total: int, digest: bytes, sign: int = 1) -> int:
    """A sum of hashes, with one more or one less."""
    return (total + sign * int.from_bytes(digest, "big")) % WIDE


def whole(value: Any) -> bool:
    return isinstance(value, int) and not isinstance(value, bool)


def text(value: Any) -> bool:
    """One line that controls no terminal."""
    return isinstance(value, str) and len(value) <= LONGEST and value.isprintable()


def number(value: Any) -> bool:
    return isinstance(value, (int, float)) and not isinstance(value, bool) and math.isfinite(value) and 0 <= value < 1e12


def size(value: Any) -> bool:
    return whole(value) and value >= 0


def path(value: Any) -> bool:
    return isinstance(value, bytes) and not names.fault_of(value)


def left_path(value: Any) -> bool:
    """A path of something that was left out, which may be a folder or a pipe."""
    return isinstance(value, bytes) and b"\0" not in value and not value.startswith(b"/") and ".." not in value.decode("latin-1").split("/")


def or_none(kind: Callable[[Any], bool]) -> Callable[[Any], bool]:
    return lambda value: value is None or kind(value)


def one_of(*known: Any) -> Callable[[Any], bool]:
    return lambda value: type(value) in (str, int) and value in known


def of_form(form: "re.Pattern[str]") -> Callable[[Any], bool]:
    return lambda value: isinstance(value, str) and form.fullmatch(value) is not None


# The form of each column, in the order of the columns.
FORMS: dict[str, dict[str, Callable[[Any], bool]]] = {
    "files": {
        "path": path, "size": or_none(size), "mtime": or_none(whole), "mode": or_none(lambda it: whole(it) and 0 <= it < 0o10000), "looked": or_none(whole),
        "sha256": or_none(of_form(SHA256)), "packed_size": or_none(size), "packed_mtime": or_none(whole), "packed_sha256": or_none(of_form(SHA256)),
        "status": one_of("packed", "copied", "refused", "failed"), "kind": or_none(lambda it: whole(it) and 0 < it < 100), "cause": text, "line": text, "advice": text,
        "fault": one_of(*FAULTS), "program": text, "options": text, "wrong_sums": one_of(0, 1), "sums_line": text, "seconds": number,
        "packed_at": of_form(TIME), "checked_at": of_form(TIME), "check_line": text,
    },
    "facts": {"name": text, "value": lambda it: whole(it) or text(it) or (isinstance(it, bytes) and b"\0" not in it)},
    "left_out": {"path": left_path, "why": text, "advice": text},
    "others": {"suffix": text, "count": size},
    "runs": {"token": of_form(names.TOKEN), "verb": text, "host": text, "process": size, "began": of_form(TIME), "ended": or_none(of_form(TIME)), "said": or_none(text)},
    "seal": {"name": one_of("files", "rest"), "value": of_form(re.compile(r"[0-9]{1,18} [0-9a-f]{64}"))},
}


# The form of each fact that fzbatch notes.
FACTS: dict[str, Callable[[Any], bool]] = {
    "version": whole, "source": lambda it: isinstance(it, bytes) and it.startswith(b"/") and b"\0" not in it, "skip_links": one_of(0, 1), "skip_compressed": one_of(0, 1),
}


def check_row(table: str, values: Sequence[Any]) -> None:
    """Raises `Odd` if a field has another type or form than fzbatch gives it."""
    if table == "facts" and not FACTS.get(values[0], lambda it: False)(values[1]):
        raise Odd("a fact that fzbatch does not note")
    for (name, holds), value in zip(FORMS[table].items(), values):
        if not holds(value):
            raise Odd(f"a row of the table {table} has a value in {name} that fzbatch does not write")


def check_file(row: Any) -> None:
    """Raises `Odd` if the fields of the row of a file do not fit together."""
    if row.done and (row.size is None or row.packed_size is None or row.sha256 is None or row.packed_sha256 is None):
        raise Odd(f"the row of {names.shown(row.path)} is packed and lacks a size or a SHA-256")
    if bool(row.fault) and not row.done:
        raise Odd(f"the row of {names.shown(row.path)} has a fault and is not packed")


def check_tables(sql: sqlite3.Connection, schemas: Iterable[dict[str, str]]) -> None:
    """Raises `Odd` if the database has other tables, or anything else than tables: a view or a trigger runs what its author wants."""
    found = {name: (kind, made) for kind, name, made in sql.execute("SELECT type, name, sql FROM sqlite_master")}
    odd = sorted(names.told(str(name)) for name, (kind, _) in found.items() if kind != "table")
    if odd:
        raise Odd(f"it has views, triggers or indexes, which fzbatch does not make: {', '.join(odd[:3])}")
    known = {name: made for name, (_, made) in found.items()}
    if known not in list(schemas):
        raise Odd("its tables are not those that fzbatch makes")


def seal_of(count: int, total: int) -> str:
    """The seal of a table: how many rows it has, and the sum of their hashes."""
    return f"{count} {total:064x}"
