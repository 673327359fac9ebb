"""`fzbatch report` of adopted folders: one page of HTML, whose length does not grow with the number of files."""
from __future__ import annotations

import json
from collections import Counter
from typing import Dict, List, Tuple

from .. import names
from ..manifest import now
from ..progress import amount
from ..report import HEAD, POLICY, STYLE, files_of, name_of, states_of, text_of
from . import boxes
from .count import line_of
from .rows import WELL
from .store import Store
from .survey import Survey

# So many names are on the page for each cause, so many folders, and so many runs.
NAMED, FOLDERS, RUNS = 50, 400, 30
LONGEST = 300


class Page:
    """A page while it is made: a folder with its manifest, one after another."""

    def __init__(self, root: bytes):
        self.root, self.files, self.bytes, self.whole = root, 0, 0, True
        self.states: "Counter[str]" = Counter()
        self.causes: "Dict[str, Tuple[int, str, int, List[Tuple[bytes, str]]]]" = {}
        self.nights: "List[Tuple[int, bytes, int, int, str]]" = []
        self.folders = self.bad_folders = 0
        self.notes: List[str] = []
        self.runs: List[str] = []

    def add(self, folder: bytes, store: Store, found: Survey, before: bytes = b"") -> None:
        """Takes in one folder. `before` is what its paths have before them on the page."""
        self.files, self.bytes = self.files + store.files, self.bytes + store.bytes
        for it in store.folders():
            counts = it.of_status
            self.states.update(counts)
            bad = sum(count for status, count in counts.items() if status not in WELL)
            self.folders, self.bad_folders = self.folders + 1, self.bad_folders + bool(bad)
            self._night((bad, before + it.path if it.path else folder, it.files, it.bytes, json.dumps(counts)))
        for path, what in found.findings():
            self.whole = False
            for one in what:
                many, advice, lost, named = self.causes.get(one.cause, (0, one.advice, 0, []))
                if len(named) < NAMED:
                    named.append((before + path, line_of(one)[:LONGEST]))
                self.causes[one.cause] = (many + 1, advice, lost + one.lost, named)
        self.whole = self.whole and not found.left and not found.lost
        self.notes += [*found.notes, *([found.lost + "."] if found.lost else [])]
        self.notes += [f"Left out: {names.shown(before + it.path)} {it.why}." for it in found.left[:NAMED]]
        self.runs += [_run(it) for it in store.runs()[-RUNS:][::-1]]

    def leave_out(self, lines: "List[str]") -> None:
        """Takes in lines about folders that no manifest has."""
        self.whole = self.whole and not lines
        self.notes = [f"{it}." for it in lines] + self.notes

    def _night(self, it: "Tuple[int, bytes, int, int, str]") -> None:
        """Keeps the folders with the most files that are not well, and of the others the largest."""
        self.nights.append(it)
        if len(self.nights) > 4 * FOLDERS:
            self._thin()

    def _thin(self) -> None:
        self.nights = sorted(self.nights, key=lambda it: (-it[0], -it[3], it[1]))[:FOLDERS]

    def text(self) -> str:
        """The page."""
        self._thin()
        parts = [self._head(), self._not_well(), self._folders(), self._notes(), self._of_runs()]
        body = "\n".join(it for it in parts if it)
        return f"{HEAD}{POLICY}<title>Adopted {name_of(self.root)}</title><style>{STYLE}</style></head><body>\n{body}\n</body></html>\n"

    def _head(self) -> str:
        bad = sum(count for status, count in self.states.items() if status not in WELL)
        said = '<p class="good">Nothing is known to be wrong.</p>' if self.whole else f'<p class="bad">Files that are not well by the manifest: {bad:,} of {self.files:,}. What is named below needs attention.</p>'
        part = f" Files with an HDU that fz does not decode: {self.states['part']:,}; its checksums were compared." if self.states["part"] else ""
        strip = states_of(self.states)
        return f'<h1>Adopted folder {name_of(self.root)}</h1>\n<p class="note">State of {now()}. {files_of(self.files)}, {amount(self.bytes)}, folders: {self.folders:,}.{part}</p>\n{said}\n{strip}'

    def _not_well(self) -> str:
        lines = []
        for cause, (many, advice, lost, named) in sorted(self.causes.items(), key=lambda it: -it[1][0]):
            said = boxes.lost_of(lost) if lost else cause
            lines.append(f"<h3>{text_of(said)}: {many:,} {'finding' if many == 1 else 'findings'}</h3><p><b>What to do:</b> {text_of(advice)}.</p>")
            rows = "".join(f"<tr><td><code>{name_of(path)}</code></td><td>{text_of(line)}</td></tr>" for path, line in named)
            more = f'<p class="note">and {many - len(named):,} more, which fzbatch missing names</p>' if many > len(named) else ""
            lines.append(f"<details{' open' if many <= 10 else ''}><summary>{len(named):,} of them</summary><table>{rows}</table>{more}</details>")
        return "<h2>Not well</h2>" + "\n".join(lines) if lines else ""

    def _folders(self) -> str:
        rows = "".join(
            f'<tr><td><code>{name_of(path)}</code></td><td class="n">{files:,}</td><td class="n">{amount(size)}</td><td class="n{" bad" if bad else ""}">{bad:,}</td></tr>'
            for bad, path, files, size, _ in self.nights
        )
        said = f"Folders with files that are not well: {self.bad_folders:,} of {self.folders:,}."
        said += f" The table has the {len(self.nights):,} with the most of them, and then the largest." if self.folders > len(self.nights) else ""
        head = '<tr><th>folder</th><th class="n">files</th><th class="n">size</th><th class="n">not well</th></tr>'
        return f'<h2>Folders</h2><p>{said}</p><div class="wide"><table>{head}{rows}</table></div>'

    def _notes(self) -> str:
        return "<h2>To know</h2><ul>" + "".join(f"<li>{text_of(it)}</li>" for it in self.notes[:NAMED]) + "</ul>" if self.notes else ""

    def _of_runs(self) -> str:
        return f'<h2>Runs</h2><div class="wide"><table><tr><th>began</th><th></th><th>machine, process</th><th>said</th></tr>{"".join(self.runs[:RUNS])}</table></div>'


def _run(it: "tuple[object, ...]") -> str:
    _, _, verb, host, process, _, began, ended, said = map(str, it)
    state = text_of(said) if ended != "None" else '<span class="bad">did not end by itself</span>'
    return f"<tr><td>{text_of(began)}</td><td>{text_of(verb)}</td><td>{text_of(host)} {text_of(process)}</td><td>{state}</td></tr>"
