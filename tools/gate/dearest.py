"""Which functions of a crate take longest, by the times at which a check wrote the files of their proofs.

A check that keeps its work (`--incremental FOLDER`) writes a file for each part of the proof of each function, one after another
if it has one job. The time from one file to the next is what the part took, on the clock.
"""
import re
from collections import defaultdict

# Rattle-CRATE.proofs.MODULE.FUNCTION.PART.oantt, with - for . in some
NAMED = re.compile(r"Rattle[-.](\w+)[-.]proofs\.([\w.]+?)\.(Proof|Answers|Lts|Code|Symbol|Statement|Invariants|The\w+)(?:\.|$)")
# A pause that is longer belongs to no part: the check waited, or another one began.
LONGEST = 300


def functions_of(folder, crate):
    """The seconds of each function of the crate, most first: (seconds, function)."""
    files = []
    for it in folder.rglob("*.oantt"):
        try:
            files.append((it.stat().st_mtime, it.name))
        except OSError:
            continue
    took, before = defaultdict(float), None
    for at, name in sorted(files):
        found = NAMED.match(name)
        if found and found[1] == crate and before is not None and at - before < LONGEST:
            took[found[2]] += at - before
        before = at
    return sorted(((seconds, function) for function, seconds in took.items()), reverse=True)
