"""The tables of a comparison, as Markdown."""
from trials import VERIFY

OUTCOMES = ("same", "rejected", "other", "crashed")
DAMAGED = ("rejected", "the same pixels", "other pixels, status 0", "crashed")
READ = ("right", "error", "wrong", "crashed")


def of(systems, date, short, speed, returned, damaged, readers):
    """The tables of the parts that are given, by their names; the summary is of all. A system's C tools are named by their version."""
    says = versions(systems, date, short)
    titles = {it.name: f"cfitsio {it.versions.get('cfitsio', '')} ({it.name})" for it in systems}
    returned, damaged = (made and {titles.get(name, name): it for name, it in made.items()} for made in (returned, damaged))
    speed = speed and [(title, {titles.get(name, name): it for name, it in sizes.items()}, {job: {titles.get(name, name): it for name, it in ended.items()} for job, ended in jobs.items()}) for title, sizes, jobs in speed]
    made = {
        "summary": speed and returned and damaged and readers and summary(speed, returned, damaged, says),
        "speed": speed and f"{speeds(speed)}\n\n{says}",
        "returned": returned and counted("packer", returned, OUTCOMES, ("come back byte for byte", "rejected", "come back changed, status 0", "crashed")),
        "damaged": damaged and f"{counted('unpacker', damaged, DAMAGED, DAMAGED)}\n\n{says}",
        "readers": readers and f"{counted('reader', readers, READ, ('reads right', 'fails', 'other pixels, no error', 'crashes'))}\n\n{says}",
    }
    return {name: it for name, it in made.items() if it}


def versions(systems, date, short):
    """With what the tables were made."""
    each = [f"{it.name}: " + ", ".join(f"{name} {version}" for name, version in it.versions.items()) for it in systems if it.versions]
    return f"`bench/compare/run`, {date}{', a short run with small images' if short else ''}. {'; '.join(each)[:1].upper()}{'; '.join(each)[1:]}."


def row(*cells):
    return "| " + " | ".join(map(str, cells)) + " |"


def table(head, rows):
    return "\n".join((row(*head), row(*["---"] * len(head)), *(row(*it) for it in rows)))


def times(fz, other):
    """How many times as fast fz is."""
    return f"{other.processor / fz.processor:.1f}" if fz.processor else "?"


def newest(speed):
    """The last system that has fpack."""
    return [it for it in speed[0][1] if it not in ("plain", "fz")][-1:]


def crashes(counts):
    return f", {counts['crashed']} crash it" if counts["crashed"] else ""


def speeds(speed):
    names = [it for it in speed[0][1] if it not in ("plain", "fz")]
    rows = []
    for title, sizes, jobs in speed:
        for job, ended in jobs.items():
            mine = ended["fz"]
            theirs = [f"{ended[it].processor * 1000:.0f} ms, {ended[it].memory:.0f} MB" if it in ended else "" for it in names]
            rows.append((title, f"`{job}`", f"{mine.processor * 1000:.0f} ms, {mine.memory:.0f} MB", *theirs))
        rows.append((title, "size", f"{sizes['fz'] / 1e6:.2f} of {sizes['plain'] / 1e6:.2f} MB", *(f"{sizes[it] / 1e6:.2f} MB" for it in names)))
    return table(("", "", "fz, one worker", *(f"fpack, funpack of {it}" for it in names)), rows)


def counted(what, made, keys, heads):
    return table((what, *heads), [(name, *(counts.get(it, 0) for it in keys)) for name, counts in made.items()])


def summary(speed, returned, damaged, says):
    """The rows of README.md that are measured."""
    other = newest(speed)
    if not other:
        return f"fpack is not installed. {says}"
    name = other[0]

    def gains(job, against):
        found = [times(jobs[job]["fz"], jobs[against][name]) for _, _, jobs in speed]
        return f"{min(found, key=float)} to {max(found, key=float)} times as fast"

    most = {it: max(ended[it].memory for _, _, jobs in speed for ended in jobs.values() if it in ended) for it in ("fz", name)}
    whole = sum(damaged[VERIFY].values())
    notice = f"; if they were packed with `--sums`, `verify` notices {'all' if damaged[VERIFY]['rejected'] == whole else damaged[VERIFY]['rejected']}"
    packed = {it: sum(sizes[it] for _, sizes, _ in speed) / 1e6 for it in ("fz", name, "plain")}
    rows = [
        ("`pack`, one worker", gains("pack", "pack"), "1"),
        ("`unpack`, one worker", gains("unpack", "unpack"), "1"),
        (f"packed size of {packed['plain']:.1f} MB", f"{packed['fz']:.2f} MB", f"{packed[name]:.2f} MB"),
        ("memory", f"{most['fz']:.0f} MB at most; `--memory` bounds its buffers: proved (`retile` has two sets of buffers, each within the limit)", f"{most[name]:.0f} MB at most"),
        (f"of {sum(returned['fz'].values())} files, many of them with a fault", *(f"{returned[it]['same']} come back byte for byte, {returned[it]['rejected']} are rejected, {returned[it]['other']} come back changed{crashes(returned[it])}" for it in ("fz", name))),
        (f"of {sum(damaged['fz'].values()):,} files with one flipped bit, unpacked", *(f"{damaged[it]['rejected']} rejected, {damaged[it]['other pixels, status 0']} come back with other pixels{crashes(damaged[it])}{notice if it == 'fz' else ''}" for it in ("fz", name))),
        ("codecs; floats and tables", "RICE_1, PLIO_1; copied as they are", "these, GZIP, HCOMPRESS_1; packed, floats with a loss unless `-q 0`"),
        ("exactness of what is restored", "proved for bytes in memory, and tested", "tested"),
    ]
    return f"{table(('', 'fz', f'fpack, funpack of {name}'), rows)}\n\n{says}"
