"""`fzbatch report`: the state of an archive as one page of HTML that needs nothing beside it, and runs no script."""
from __future__ import annotations

import calendar
import re
from collections import Counter
from html import escape
from typing import Any, Callable, Iterable, List, Sequence, Tuple

from ..pictures import INSTALL, NoPicture, charts
from . import listed, names
from .manifest import Manifest, Row, now
from .progress import amount
from .safe import verdict_of
from .survey import Finding, Survey
from .tally import WORDS, shown

# So many names are in the page for each cause.
NAMED = 200
OPTION = re.compile(r"(?<![\w-])--[a-z][a-z0-9-]*")
STYLE = """
:root { color-scheme: light dark; --good: #1d7a5a; --bad: #b5352f; --line: #8886; --faint: #8882; }
@media (prefers-color-scheme: dark) { :root { --good: #5fd0a5; --bad: #ff8a80; } }
body { font: 15px/1.5 system-ui, sans-serif; max-width: 64em; margin: 1.5em auto; padding: 0 1em; }
h1 { font-size: 1.5em; margin: 0; overflow-wrap: anywhere; } h2 { font-size: 1.15em; margin: 2em 0 .4em; border-bottom: 1px solid var(--line); }
h3 { font-size: 1em; margin: 1.2em 0 0; overflow-wrap: anywhere; } p { margin: .4em 0; } p, li, details td { overflow-wrap: anywhere; } .note { opacity: .75; }
.verdict { font-size: 1.35em; font-weight: 600; margin: .6em 0 .2em; } .option { white-space: nowrap; } .good { color: var(--good); } .bad { color: var(--bad); }
table { border-collapse: collapse; } .wide .n, .wide td:first-child { white-space: nowrap; } td, th { padding: .15em 1em .15em 0; text-align: left; vertical-align: top; }
.n { text-align: right; font-variant-numeric: tabular-nums; } code { font-size: .92em; overflow-wrap: anywhere; }
.wide { overflow-x: auto; } svg { display: block; width: 100%; max-width: 36em; height: auto; margin: .6em 0; }
details { margin: .4em 0 .4em 1em; } summary { cursor: pointer; } details table { width: 100%; table-layout: fixed; } details td:first-child { width: 36%; }
"""

# What a page of fzbatch begins with: no other file is written over.
HEAD = '<!DOCTYPE html>\n<html lang="en"><head><meta charset="utf-8"><meta name="generator" content="fzbatch report">'
POLICY = "<meta http-equiv=\"Content-Security-Policy\" content=\"default-src 'none'; style-src 'unsafe-inline'\"><meta name=\"viewport\" content=\"width=device-width, initial-scale=1\">"


def page(manifest: Manifest, packed: bytes, found: Survey) -> str:
    """The page. `found` is what the look at the archive found."""
    parts = [_head(packed, found), _not_well(found), _left(found), _sizes(found.rows), listed.nights(found), listed.files(found), _notes(found), _runs(manifest)]
    body = "\n".join(it for it in parts if it)
    return f"{HEAD}{POLICY}<title>Archive {name_of(packed)}</title><style>{STYLE}{listed.STYLE}</style></head><body>\n{body}\n</body></html>\n"


def name_of(path: bytes) -> str:
    return escape(names.shown(path))


def text_of(text: str) -> str:
    """Text that others may have written, for the page. An option is not broken after its hyphens."""
    return OPTION.sub(r'<span class="option">\g<0></span>', escape(names.told(text)))


def files_of(count: int) -> str:
    return f"{count:,} file" if count == 1 else f"{count:,} files"


def states_of(states: "Counter[str]") -> str:
    """A bar for each state, the most frequent one first."""
    return _chart(charts.bars, "states", [(state, count, f"{count:,}") for state, count in sorted(states.items(), key=lambda it: -it[1])])


def _chart(draw: Callable[..., str], *words: Any) -> str:
    """A chart, or why there is none."""
    try:
        return draw(*words)
    except NoPicture:
        return f'<p class="note">A chart is left out: matplotlib is not there. {text_of(INSTALL[0].upper() + INSTALL[1:])}.</p>'


def _head(packed: bytes, found: Survey) -> str:
    verdict = verdict_of(found)
    states = Counter(shown(it.cause) for it in found.findings)
    named = {it.path for it in found.findings}
    states.update(WORDS.get(it.status, it.status) for it in found.rows if it.path not in named)
    checked = min((it for it in found.rows if it.done and it.checked_at), key=lambda it: it.checked_at, default=None)
    when = f"<p>Oldest check: {day(checked.checked_at)} (<code>{name_of(checked.path)}</code>).</p>" if checked else ""
    source = f"Plain files: <code>{name_of(found.found.root)}</code>. " if found.found else "The folder of plain files is not there. "
    lines = [f'<h1>Archive {name_of(packed)}</h1><p class="verdict {"good" if verdict.safe else "bad"}">{text_of(verdict.line)}</p>']
    lines += [f"<p>{text_of(it)}</p>" for it in verdict.why]
    lines.append(f'<p class="note">{source}State of {now()}.</p>')
    lines.append(states_of(states))
    return "\n".join((*lines, when))


def day(text: str) -> str:
    """The day of a time of the manifest: 1 Dec 2026."""
    return f"{int(text[8:10])} {calendar.month_abbr[int(text[5:7])]} {text[:4]}"


def _sizes(rows: Sequence[Row]) -> str:
    done = [it for it in rows if it.done and it.packed_size]
    if not done:
        return ""
    plain, packed = sum(it.size or 0 for it in done), sum(it.packed_size or 0 for it in done)
    copied = [it for it in done if it.status == "copied"]
    lines = [f"<h2>Size</h2><p>{amount(plain)} became {amount(packed)}: {plain / packed:.2f} to 1."]
    if copied:
        lines.append(f" {files_of(len(copied))} ({amount(sum(it.size or 0 for it in copied))}) had nothing to pack, and each packed file is a copy.")
    lines.append("</p>")
    found = [it.size / it.packed_size for it in done if it.status == "packed" and it.packed_size and it.size]
    lines.append(_chart(charts.ratios, "ratios", found, "length of the plain file by that of the packed one"))
    spent = sum(it.seconds for it in done)
    slow = max(done, key=lambda it: it.seconds)
    if spent:
        lines.append(f"<p>{spent:,.0f} s of work, {amount(plain / spent)}/s; slowest file: <code>{name_of(slow.path)}</code> ({slow.seconds:.1f} s).</p>")
    return "".join(lines)


def _not_well(found: Survey) -> str:
    causes: dict[Tuple[str, str], List[Finding]] = {}
    for it in found.findings:
        causes.setdefault((it.cause, it.advice), []).append(it)
    if not causes:
        return ""
    lines = ["<h2>Not well</h2>"]
    for (cause, what), here in sorted(causes.items(), key=lambda it: -len(it[1])):
        lines.append(f"<h3>{text_of(shown(cause))}: {files_of(len(here))}</h3><p><b>What to do:</b> {text_of(what)}.</p>")
        lines.append(_names((it.path, it.line) for it in here))
    return "\n".join(lines)


def _names(found: Iterable[Tuple[bytes, str]]) -> str:
    every = list(found)
    rows = "".join(f"<tr><td><code>{name_of(path)}</code></td><td>{text_of(line)}</td></tr>" for path, line in every[:NAMED])
    more = f'<p class="note">and {len(every) - NAMED:,} more, which fzbatch status --all names</p>' if len(every) > NAMED else ""
    return f"<details{' open' if len(every) <= 10 else ''}><summary>{files_of(len(every))}</summary><table>{rows}</table>{more}</details>"


def _left(found: Survey) -> str:
    lines = []
    if found.left:
        lines.append(f"<h2>Skipped</h2>{_names((it.path, it.why + '. What to do: ' + it.advice + '.') for it in found.left)}")
    if found.others:
        counts = ", ".join(f"{count:,} {text_of(suffix)}" for suffix, count in found.others.items())
        lines.append(f"<p>Files with other names, which are not packed: {counts}.</p>")
    return "\n".join(lines)


def _notes(found: Survey) -> str:
    return "<h2>To know</h2><ul>" + "".join(f"<li>{text_of(it)}</li>" for it in found.notes) + "</ul>" if found.notes else ""


def _runs(manifest: Manifest) -> str:
    lines = []
    for _, verb, host, process, began, ended, said in manifest.runs()[-30:][::-1]:
        state = text_of(said or "") if ended else '<span class="bad">did not end by itself</span>'
        lines.append(f"<tr><td>{text_of(began)}</td><td>{text_of(verb)}</td><td>{text_of(host)} {text_of(str(process))}</td><td>{state}</td></tr>")
    return f'<h2>Runs</h2><div class="wide"><table><tr><th>began</th><th></th><th>machine, process</th><th>said</th></tr>{"".join(lines)}</table></div>'
