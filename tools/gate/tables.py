"""Tables of the processor seconds of a gate."""
import csv
from pathlib import Path

KINDS = ("proof", "tests", "edit")
TABLE = Path(__file__).resolve().parent.parent / "gate_times.csv"
# The crate whose proof is the unit in which runs on different machines are compared.
UNIT = "fz_plio"
# How many of each kind, and how many functions of a crate, are named with their seconds.
NAMED = 10


def by_crate(seconds):
    """For each crate the seconds of its proof, tests and edits, and the number of checks of edits."""
    rows = []
    for crate in sorted({crate for crate, _, _ in seconds}):
        of_kind = [sum(it for (name, kind, _), it in seconds.items() if (name, kind) == (crate, wanted)) for wanted in KINDS]
        rows.append((crate, *of_kind, sum(name == crate and kind == "edit" for name, kind, _ in seconds)))
    return rows


def keep(seconds):
    """Writes the seconds of a run to the table that progress is measured by."""
    with TABLE.open("w", newline="", encoding="utf-8") as file:
        table = csv.writer(file, lineterminator="\n")
        table.writerow(["crate", *KINDS])
        table.writerows([crate, *(round(it) for it in took)] for crate, *took, _ in by_crate(seconds))


def kept():
    """The seconds of the run that was kept, by crate and kind."""
    with TABLE.open(newline="", encoding="utf-8") as file:
        return {(row["crate"], kind): int(row[kind]) for row in csv.DictReader(file) for kind in KINDS}


def show(watch):
    """The table of the crates, what took longest, and how busy the machine was."""
    seconds = watch.seconds()
    rows = by_crate(seconds)
    print("\n| Crate | Proof, s | Tests, s | Edits, s | Checks of edits | All, s |\n|---|---|---|---|---|---|")
    for crate, proof, tests, edits, count in sorted(rows, key=lambda it: -sum(it[1:4])):
        print(f"| `{crate}` | {proof:.0f} | {tests:.0f} | {edits:.0f} | {count} | {proof + tests + edits:.0f} |")
    sums = [sum(it[at] for it in rows) for at in (1, 2, 3, 4)]
    whole = sum(sums[:3])
    print(f"| all | {sums[0]:.0f} | {sums[1]:.0f} | {sums[2]:.0f} | {sums[3]:.0f} | {whole:.0f} |")
    unit = seconds.get((UNIT, "proof", ""), 0)
    if unit:
        print(f"\n{whole / unit:.0f} times the proof of {UNIT} ({unit:.0f} s of a processor) in the same run")
    print(f"{watch.minutes():.0f} minutes on the clock; the load of the machine was {watch.load():.1f} (the middle of its values)")
    show_longest(seconds)
    show_edits(seconds)
    show_functions(watch.dearest)


def show_longest(seconds):
    for kind in KINDS:
        longest = sorted(((it, name, edit) for (name, found, edit), it in seconds.items() if found == kind), reverse=True)[:NAMED]
        if longest:
            print(f"\nMost processor seconds, {kind}: " + ", ".join(f"`{name}{'/' + edit if edit else ''}` {it:.0f}" for it, name, edit in longest))


def show_edits(seconds):
    """Each edit's seconds, in the order in which they were tried: the first of a crate has the check of the crate from nothing."""
    crates = sorted({name for name, kind, _ in seconds if kind == "edit"})
    if crates:
        print("\n| Crate | Its edits, s |\n|---|---|")
    for crate in crates:
        tried = [(edit, it) for (name, kind, edit), it in seconds.items() if (name, kind) == (crate, "edit")]
        print(f"| `{crate}` | " + ", ".join(f"{edit} {it:.0f}" for edit, it in tried) + " |")


def show_functions(dearest):
    """The functions of each crate with two edits or more that took longest in its check from nothing."""
    if dearest:
        print("\n| Crate | Its dearest functions, s on the clock |\n|---|---|")
    for crate, found in sorted(dearest.items()):
        print(f"| `{crate}` | " + ", ".join(f"{name} {it:.1f}" for it, name in found[:NAMED]) + " |")
