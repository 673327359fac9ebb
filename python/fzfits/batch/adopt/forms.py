"""Whether a manifest of an adopted folder is one that fzbatch wrote: its tables, the form of each field, and what a path may be."""
from __future__ import annotations

import json
import re
import sqlite3
from functools import lru_cache
from typing import Any, Callable, Sequence

from .. import checks, names
from ..checks import Odd, of_form, one_of, or_none, size, text, whole
from .rows import NOT_WELL, STATUSES, Finding, Hdu, Plain, Row

VERSION = 1
STRICT = sqlite3.sqlite_version_info >= (3, 37)
TABLES = {
    "facts": "name TEXT PRIMARY KEY, value ANY",
    "folders": "path BLOB PRIMARY KEY, files INTEGER NOT NULL, bytes INTEGER NOT NULL, counts TEXT NOT NULL, unsure INTEGER NOT NULL, look TEXT NOT NULL, seal TEXT NOT NULL, hash BLOB NOT NULL",
    "files": """folder BLOB NOT NULL, name BLOB NOT NULL, size INTEGER NOT NULL, mtime INTEGER NOT NULL, looked INTEGER NOT NULL, sha256 BLOB NOT NULL,
    sort TEXT NOT NULL, status TEXT NOT NULL, was BLOB NOT NULL, hdus TEXT NOT NULL, found TEXT NOT NULL, made_of TEXT NOT NULL, next BLOB NOT NULL,
    adopted INTEGER NOT NULL, read_in INTEGER NOT NULL, hash BLOB NOT NULL, PRIMARY KEY (folder, name)""",
    "left_out": "path BLOB PRIMARY KEY, why TEXT NOT NULL, advice TEXT NOT NULL",
    "others": "suffix TEXT PRIMARY KEY, count INTEGER NOT NULL",
    "runs": "number INTEGER PRIMARY KEY, token TEXT NOT NULL, verb TEXT NOT NULL, host TEXT NOT NULL, process INTEGER NOT NULL, program TEXT NOT NULL, began TEXT NOT NULL, ended TEXT, said TEXT",
    "seal": "name TEXT PRIMARY KEY, value TEXT NOT NULL",
}
# What is not well is found without a look at all rows.
INDEX = f"CREATE INDEX not_well ON files (status) WHERE status IN ({', '.join(repr(it) for it in NOT_WELL)})"
SORTS = ("packed", "plain", "gzip", "compressed")
SUM = re.compile(r"[0-9]{1,18} [0-9a-f]{1,64}")


def schema(strict: bool = STRICT) -> "dict[str, str]":
    """The statement that makes each table and the index."""
    end = ") WITHOUT ROWID, STRICT" if strict else ") WITHOUT ROWID"
    made = {name: f"CREATE TABLE {name} ({columns if strict else columns.replace(' ANY', '')}{end}" for name, columns in TABLES.items()}
    return {**made, "not_well": INDEX}


def blob(value: Any) -> bool:
    """Bytes without a zero byte."""
    return isinstance(value, bytes) and b"\0" not in value


def folder_path(value: Any) -> bool:
    """The path of a folder in the adopted one: the empty one for itself."""
    return value == b"" or (blob(value) and not fault_of_parts(value))


def file_name(value: Any) -> bool:
    """The name of a file in its folder."""
    return blob(value) and value != b"" and b"/" not in value and value not in (b".", b"..")


def fault_of_parts(path: bytes) -> str:
    """Why a path leads outside of its folder, or the empty text."""
    return "it is absolute, or has an empty part, . or .." if any(it in (b"", b".", b"..") for it in path.split(b"/")) else ""


def former(value: Any) -> bool:
    """The path that a file had, or none."""
    return value == b"" or (blob(value) and not fault_of_parts(value))


def counts(value: Any) -> bool:
    """How many files have each status, as JSON."""
    try:
        found = json.loads(value)
    except (ValueError, TypeError, RecursionError):
        return False
    return isinstance(found, dict) and set(found) <= set(STATUSES) and all(size(it) for it in found.values())


def line(value: Any) -> bool:
    """A line of JSON, or nothing, as far as its characters say."""
    return isinstance(value, str) and len(value) <= checks.LONGEST and value.isprintable()


def plain_file(value: Any) -> bool:
    """What is kept of a plain file, as JSON, or the empty text."""
    if value == "":
        return True
    try:
        it = Plain(**json.loads(value))
    except (ValueError, TypeError, RecursionError):
        return False
    return text(value) and of_form(checks.SHA256)(it.sha256) and size(it.size) and whole(it.mtime) and whole(it.mode) and 0 <= it.mode < 0o10000


def list_of(kind: type) -> Callable[[Any], bool]:
    """A line of JSON with HDUs or findings."""

    def holds(value: Any) -> bool:
        if not text(value):
            return False
        try:
            found = json.loads(value)
            made = [kind(**it) for it in found]
        except (ValueError, TypeError, RecursionError):
            return False
        return all(_typed(it) for it in made)

    return holds


def _typed(it: Any) -> bool:
    kinds: "dict[str, Callable[[Any], bool]]" = {"str": text, "int": whole, "Optional[int]": or_none(whole), "List[int]": lambda value: isinstance(value, list) and all(map(whole, value))}
    return all(kinds[str(type(it).__dataclass_fields__[name].type)](value) for name, value in vars(it).items())


# The form of each column, in the order of the columns.
FORMS: "dict[str, dict[str, Callable[[Any], bool]]]" = {
    "facts": {"name": text, "value": lambda it: whole(it) or text(it) or blob(it)},
    "folders": {"path": folder_path, "files": size, "bytes": size, "counts": counts, "unsure": size, "look": of_form(SUM), "seal": of_form(SUM)},
    "files": {
        "folder": folder_path, "name": file_name, "size": size, "mtime": whole, "looked": whole, "sha256": lambda it: isinstance(it, bytes) and len(it) == 32,
        "sort": one_of(*SORTS), "status": one_of(*STATUSES), "was": former, "hdus": line, "found": line, "made_of": line, "next": lambda it: isinstance(it, bytes) and len(it) in (0, 32), "adopted": size, "read_in": size,
    },
    "left_out": {"path": checks.left_path, "why": text, "advice": text},
    "others": {"suffix": text, "count": size},
    "runs": {
        "number": size, "token": of_form(names.TOKEN), "verb": text, "host": text, "process": size, "program": text,
        "began": of_form(checks.TIME), "ended": or_none(of_form(checks.TIME)), "said": or_none(text),
    },
    "seal": {"name": one_of("folders", "rest"), "value": of_form(SUM)},
}
FACTS: "dict[str, Callable[[Any], bool]]" = {
    "version": whole, "folder": lambda it: blob(it) and it.startswith(b"/") and (it == b"/" or not fault_of_parts(it[1:])), "skip_links": one_of(0, 1), "skip_compressed": one_of(0, 1),
}


# What the lines of JSON of a row have in them: it is looked at when they are used or written.
DEEP: "dict[str, Callable[[Any], bool]]" = {"hdus": list_of(Hdu), "found": list_of(Finding), "made_of": plain_file}


def check_lines(row: Row) -> None:
    """Raises `Odd` if a line of JSON of a row has something that fzbatch does not write."""
    for name, holds in DEEP.items():
        if not holds(getattr(row, name)):
            raise Odd(f"a row of the table files has a value in {name} that fzbatch does not write")


# The same of bytes: rows come folder by folder.
_usual_path = lru_cache(maxsize=256)(folder_path)


def _is_usual(values: Sequence[Any]) -> bool:
    """Whether a row of a file is as most are: what FORMS says of it in one look, since manifests have millions of them."""
    folder, name, length, mtime, looked, sha256, sort, status, was, hdus, found, made_of, following, adopted, read_in = values
    return (
        type(length) is type(mtime) is type(looked) is type(adopted) is type(read_in) is int
        and length >= 0 <= adopted
        and read_in >= 0
        and type(sha256) is bytes
        and len(sha256) == 32
        and type(sort) is type(status) is str
        and sort in SORTS
        and status in STATUSES
        and was == following == b""
        and made_of == ""
        and file_name(name)
        and type(folder) is bytes
        and _usual_path(folder)
        and line(hdus)
        and line(found)
    )


def check_row(table: str, values: Sequence[Any]) -> None:
    """Raises `Odd` if a field has another type or form than fzbatch gives it."""
    if table == "files" and len(values) == len(FORMS["files"]) and _is_usual(values):
        return
    if table == "facts" and not FACTS.get(values[0], lambda it: False)(values[1]):
        raise Odd("a fact that fzbatch does not note")
    for (name, holds), value in zip(FORMS[table].items(), values):
        if not holds(value):
            raise Odd(f"a row of the table {table} has a value in {name} that fzbatch does not write")


def _kinds(strict: bool) -> "list[tuple[str, str, str]]":
    """What is in a manifest: the kind, the name, and the statement that made it."""
    return [("index" if name == "not_well" else "table", name, made) for name, made in schema(strict).items()]


def check_tables(sql: sqlite3.Connection) -> None:
    """Raises `Odd` if the database has anything else than these tables and the index."""
    found = [(kind, name, made) for kind, name, made in sql.execute("SELECT type, name, sql FROM sqlite_master")]
    # a trigger may have the name of a table
    if not any(sorted(map(str, found)) == sorted(map(str, _kinds(it))) for it in (True, False)):
        odd = sorted({names.told(f"{kind} {name}") for kind, name, _ in {*found} ^ {*_kinds(STRICT)}})
        raise Odd(f"its tables are not those that fzbatch makes of an adopted folder{': ' + ', '.join(odd[:3]) if odd else ''}")
