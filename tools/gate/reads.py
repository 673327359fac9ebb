"""How many bytes `rt ci` of kit 13b reads to see whether a library is the one that was proved.

For each library, before and after its proof, that `rt` reads the crate's files and, in the same way, those of each crate that its
line of crates.txt names: each file once for every path through crates.txt. Programs are not summed.
"""
import re
from functools import lru_cache
from pathlib import Path

PARTS = ("src", "specs", "proofs")


def listed():
    """What each crate of crates.txt stands on, of the repository's own."""
    lines = (it.split("#")[0].strip() for it in Path("crates.txt").read_text().splitlines())
    named = {name.split()[0]: below.split() for name, _, below in (it.partition(":") for it in lines if it)}
    return {name: [it for it in below if it in named] for name, below in named.items()}


@lru_cache(None)
def size_of(crate):
    """The bytes of the crate's files."""
    return sum(it.stat().st_size for part in PARTS for it in Path("crates", crate, part).rglob("*") if it.is_file())


def reads(below=None):
    """For each library how often it is reached and how many bytes a sum of it reads: (crate, paths, bytes)."""
    below = below or listed()

    @lru_cache(None)
    def paths(crate):
        return 1 + sum(paths(it) for it in below[crate])

    @lru_cache(None)
    def bytes_of(crate):
        return size_of(crate) + sum(bytes_of(it) for it in below[crate])

    libraries = [it for it in below if not Path("crates", it, "src/main.rt").is_file()]
    return [(it, paths(it), bytes_of(it)) for it in libraries]


def total(below):
    return sum(size for _, _, size in reads(below))


def lines_that_name(crate, other):
    """How many lines of a crate name another one, but for comments."""
    files = [it for part in PARTS for it in Path("crates", crate, part).rglob("*") if it.is_file()]
    lines = (line for it in files for line in it.read_text().splitlines() if not line.lstrip().startswith(("//", "--")))
    return sum(bool(re.search(rf"\b{other}\b", line)) for line in lines)


def reached_twice():
    """The listed crates that another listed crate of the same line stands on, so that it could pass on what is used of them (`pub use`): what
    all sums read less without one, and how many lines name it: (bytes, crate, other, lines)."""
    below = listed()

    @lru_cache(None)
    def all_below(crate):
        return frozenset(below[crate]).union(*(all_below(it) for it in below[crate]))

    everything = total(below)
    pairs = [(one, it) for one, others in below.items() for it in others if any(it in all_below(by) for by in others)]
    found = [(everything - total({**below, one: [by for by in below[one] if by != it]}), one, it) for one, it in pairs]
    return [(size, one, it, lines_that_name(one, it)) for size, one, it in sorted(found, reverse=True) if size]


def show_reads():
    rows = reads()
    print("| Library | Paths | Read for one sum, MB |\n|---|---|---|")
    for crate, paths, size in sorted(rows, key=lambda it: -it[2]):
        print(f"| `{crate}` | {paths} | {size / 1e6:.1f} |")
    print(f"| all | | {sum(size for _, _, size in rows) / 1e6:.0f}, twice in a gate |")
    print("\n| Listed by | Another crate of its line stands on it | Less to read, MB | Lines that name it |\n|---|---|---|---|")
    for size, one, it, lines in reached_twice()[:20]:
        print(f"| `{one}` | `{it}` | {size / 1e6:.0f} | {lines} |")
