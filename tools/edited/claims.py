"""The edits that the tables of docs/CLAIMS.md name."""
import re


def rows_of(page, heading):
    """The cells of the rows of the table below a heading."""
    below = page.partition(f"\n## {heading}\n")[2].partition("\n## ")[0]
    table = [it for it in below.splitlines() if it.startswith("|")]
    return [[cell.strip() for cell in it.strip("|").split(" | ")] for it in table[2:]]


def names_in(text):
    return re.findall(r"`(\w+)`", text)


def named(cell, crates_of_row, crates):
    """The edits that a cell names, each with the crates that it may be of: those named before it, or those of the row."""
    found = crates_of_row
    for piece in cell.split("; "):
        here = names_in(piece.partition(", by ")[0].partition(" (")[0])
        found = [it for it in here if it in crates] or found
        yield from ((found, it) for it in here if it not in crates)


def named_edits(page, crates):
    """All edits that the two tables name, as `named` has them."""
    for crate, *_, shown in rows_of(page, "The promises"):
        if shown.startswith("e "):
            own = [it for it in names_in(crate) if it in crates] or sorted(crates)
            yield from named(shown.removeprefix("e ").partition(" t ")[0], own, crates)
    for row in rows_of(page, "Wrong bodies"):
        yield from named(row[2], sorted(crates), crates)
