"""Two parts of the page of `fzbatch report`: a line for each night or folder, and all files, which the reader can sort.

The page runs no script: each file has its place in every order as a number in its style, and the choice of an order says by which of
them the browser arranges the files.
"""
from __future__ import annotations

import os
import time
from collections import defaultdict
from html import escape
from typing import Any, Callable, Dict, List, Sequence

from . import names, tally
from .manifest import Row
from .progress import amount
from .survey import Survey

# So many files are in the table, those first that are not well.
LISTED = 20000
ORDERS = {"state": "not well first", "name": "by name", "plain": "largest first", "best": "best ratio first", "worst": "worst ratio first", "check": "oldest check first"}
STYLE = """
.rows { display: flex; flex-direction: column; margin-top: .5em; } .row { display: grid; grid-template-columns: minmax(9em, 3fr) 2.2fr 1fr 1fr .7fr 1.3fr; gap: 0 .8em; padding: .1em .2em; order: var(--state); }
.row > * { overflow-wrap: anywhere; } .row.head { font-weight: 600; order: -1; border-bottom: 1px solid var(--line); } .row:not(.head):hover { background: var(--faint); }
.orders label { margin-right: .9em; white-space: nowrap; } .orders input { margin: 0 .3em 0 0; }
@media (max-width: 40em) { .row { grid-template-columns: 2fr 1fr 1fr; border-bottom: 1px solid var(--faint); } .row > :nth-child(1) { grid-column: 1 / -1; font-weight: 600; } .row > :nth-child(2) { grid-column: 1 / -1; } .row.head > :nth-child(-n+2) { display: none; } .row > :nth-child(6) { display: none; } }
""" + "".join(f".files:has(#by-{it}:checked) .row:not(.head) {{ order: var(--{it}); }}\n" for it in ORDERS)
NOON = 12 * 3600


def ratio_of(row: Row) -> float:
    """How many times as long the plain file is, or 0."""
    return (row.size or 0) / row.packed_size if row.done and row.packed_size else 0.0


def night_of(row: Row) -> str:
    """The night of a plain file by its time, from noon to noon (UTC)."""
    return time.strftime("%Y-%m-%d", time.gmtime(row.mtime / 1e9 - NOON)) if row.mtime is not None else "no time"


def nights(found: Survey) -> str:
    """A line for each folder, or if all files are in one folder, for each night."""
    folders = {os.path.dirname(it.path) for it in found.rows}
    rows: Dict[str, List[Row]] = defaultdict(list)
    for it in found.rows:
        rows[names.shown(os.path.dirname(it.path) or b".") if len(folders) > 1 else night_of(it)].append(it)
    bad = {it.path for it in found.findings}
    lines = [_night(name, here, bad) for name, here in sorted(rows.items())]
    what = "Folders" if len(folders) > 1 else "Nights"
    head = f'<tr><th>{what[:-1].lower()}</th><th class="n">files</th><th class="n">not well</th><th class="n">plain</th><th class="n">packed</th><th class="n">ratio</th><th>oldest check</th></tr>'
    return f'<h2>{what}</h2><div class="wide"><table>{head}{"".join(lines)}</table></div>' if lines else ""


def _night(name: str, here: Sequence[Row], bad: "set[bytes]") -> str:
    done = [it for it in here if it.done and it.packed_size]
    plain, packed = sum(it.size or 0 for it in done), sum(it.packed_size or 0 for it in done)
    wrong = sum(it.path in bad for it in here)
    checks = [it.checked_at for it in done]
    oldest = min(checks)[:10] if checks and all(checks) else "when packed" if checks else ""
    cells = [f"{len(here):,}", f'<span class="{"bad" if wrong else "good"}">{wrong:,}</span>', amount(plain), amount(packed), f"{plain / packed:.2f}" if packed else ""]
    return f"<tr><td>{escape(name)}</td>" + "".join(f'<td class="n">{it}</td>' for it in cells) + f"<td>{escape(oldest)}</td></tr>"


def files(found: Survey) -> str:
    """All files of the manifest and those of the folder that it does not have, in an order that the reader chooses."""
    causes = {it.path: it.cause for it in found.findings}
    rows = [*found.rows, *(Row(it) for it in sorted(causes.keys() - {row.path for row in found.rows}))]
    rows.sort(key=lambda it: (it.path not in causes, it.path))
    shown = rows[:LISTED]
    keys: Dict[str, Callable[[int], Any]] = {
        "name": lambda it: shown[it].path,
        "plain": lambda it: -(shown[it].size or 0),
        "best": lambda it: -ratio_of(shown[it]),
        "worst": lambda it: ratio_of(shown[it]) or float("inf"),
        "check": lambda it: shown[it].checked_at,
    }
    places = {name: {at: place for place, at in enumerate(sorted(range(len(shown)), key=key))} for name, key in keys.items()}
    lines = [_row(at, it, causes.get(it.path, ""), {"state": at, **{name: place[at] for name, place in places.items()}}) for at, it in enumerate(shown)]
    more = f'<p class="note">and {len(rows) - LISTED:,} more, which fzbatch status --json prints</p>' if len(rows) > LISTED else ""
    picks = "".join(f'<label><input type="radio" name="by" id="by-{name}"{" checked" if name == "state" else ""}>{says}</label>' for name, says in ORDERS.items())
    head = '<div class="row head"><span>file</span><span>state</span><span class="n">plain</span><span class="n">packed</span><span class="n">ratio</span><span>last check</span></div>'
    return f'<section class="files"><h2>All files</h2><div class="orders">{picks}</div><div class="rows">{head}{"".join(lines)}</div>{more}</section>' if lines else ""


def _row(number: int, row: Row, cause: str, places: "dict[str, int]") -> str:
    state = f'<span class="bad">{escape(names.told(tally.shown(cause)))}</span>' if cause else f"<span>{escape(tally.WORDS.get(row.status, row.status))}</span>"
    style = ";".join(f"--{name}:{place}" for name, place in places.items())
    ratio = f"{ratio_of(row):.2f}" if ratio_of(row) else ""
    sizes = "".join(f'<span class="n">{it}</span>' for it in (amount(row.size or 0) if row.size is not None else "", amount(row.packed_size) if row.done and row.packed_size else "", ratio))
    return f'<div class="row" style="{style}"><code>{escape(names.shown(row.path))}</code>{state}{sizes}<span>{escape(names.told(row.checked_at[:10] or ("when packed" if row.done else "")))}</span></div>'
