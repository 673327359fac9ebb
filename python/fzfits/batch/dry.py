"""What a run would do, by the same look at the folders and the manifest, without doing it."""
from __future__ import annotations

import os
from typing import Optional, TextIO

from . import files, names, start
from .manifest import Row
from .progress import amount
from .scan import Scan
from .tally import Tally, counted
from .wanted import DONE, IDLE, NOT_DONE, Wanted, open_manifest


def run(wanted: Wanted, found: Optional[Scan], identity: str, out: TextIO) -> int:
    """Prints each file that the run would work on, and the counts. Nothing is written."""
    tally = Tally(wanted.verb)
    rows: "dict[bytes, Row]" = {}
    facts: "dict[str, object]" = {}
    if found is None or files.there(os.path.join(wanted.packed, names.MANIFEST)):
        with open_manifest(wanted.packed, writes=False) as manifest:
            rows = {it.path: it for it in manifest.rows()}
            facts = {it: manifest.fact(it) for it in ("skip_links", "skip_compressed")}
    if found is None:
        todo = start.to_read(wanted, rows, tally)
    else:
        todo = start.to_pack(wanted, found, rows, identity, tally)
        for fact, on in (("skip_links", wanted.skip_links), ("skip_compressed", wanted.skip_compressed)):
            if on or wanted.skip_nothing:
                facts[fact] = int(on)
        start.count_left(wanted, found, facts.get, tally)
    tasks = [it for it in todo.tasks if wanted.verb != "restore" or not start.is_restored(wanted, it.path)]
    for it in tasks:
        print(f"would {wanted.verb} {names.shown(it.path)}", file=out)
    tally.print_bad(out, wanted.all_names)
    size = sum(todo.sizes.get(it.path, 0) for it in tasks)
    there = tally.outcomes["there"] + len(todo.tasks) - len(tasks)
    print(f"{wanted.verb} --dry-run: {counted(len(tasks))} to do ({amount(size)}), {there} up to date, {tally.failed} failed before, {len(tally.left)} skipped; nothing was written", file=out)
    return NOT_DONE if tally.failed else IDLE if wanted.tells_idle and not tasks and tally.whole else DONE
