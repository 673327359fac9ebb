"""What this machine lets a run use: processors and memory, as affinity, cgroups and Slurm limit them."""
from __future__ import annotations

import os
from pathlib import Path
from typing import Iterator, Mapping, Optional

# The limit of fz on its buffers if it is given none.
OF_FZ = 4 << 30
# A share of the memory stays for the system, for Python and for the programs themselves.
SHARE = 0.5
LEAST = 1 << 20
CGROUPS = Path("/sys/fs/cgroup")


def processors(environment: Optional[Mapping[str, str]] = None, cgroups: Path = CGROUPS, own: Path = Path("/proc/self/cgroup")) -> int:
    """How many files to work on at once: the processors of the affinity, at most those of the cgroup and of the Slurm task."""
    environment = os.environ if environment is None else environment
    found = [len(os.sched_getaffinity(0)) if hasattr(os, "sched_getaffinity") else os.cpu_count() or 1]
    given = environment.get("SLURM_CPUS_PER_TASK", "")
    if given.isdigit():
        found.append(int(given))
    for folder in _cgroups("cpu", cgroups, own):
        quota, period = _words(folder / "cpu.max", 2) or (_word(folder / "cpu.cfs_quota_us"), _word(folder / "cpu.cfs_period_us"))
        if quota.isdigit() and period.isdigit() and int(period):
            found.append(-(-int(quota) // int(period)))
    return max(1, min(found))


def memory(environment: Optional[Mapping[str, str]] = None, cgroups: Path = CGROUPS, own: Path = Path("/proc/self/cgroup"), told: Path = Path("/proc/meminfo")) -> int:
    """The bytes of memory that there are for this process and those it starts; that of fz's own limit if nothing says it."""
    environment = os.environ if environment is None else environment
    found = [int(words[1]) * 1024 for words in map(str.split, _text(told).splitlines()) if words[:1] == ["MemTotal:"]]
    for folder in _cgroups("memory", cgroups, own):
        found += [int(it) for it in (_word(folder / "memory.max"), _word(folder / "memory.limit_in_bytes")) if it.isdigit()]
    megabytes = environment.get("SLURM_MEM_PER_NODE", "")
    each, many = environment.get("SLURM_MEM_PER_CPU", ""), environment.get("SLURM_CPUS_PER_TASK", "1")
    found += [int(megabytes) << 20] if megabytes.isdigit() and int(megabytes) else []
    found += [int(each) * int(many) << 20] if each.isdigit() and many.isdigit() and int(each) * int(many) else []
    return min(found, default=OF_FZ)


def limit_of_a_job(jobs: int, whole: Optional[int] = None) -> int:
    """The --memory for each of so many fz at once: together they stay within a share of the memory of the machine."""
    whole = memory() if whole is None else whole
    return max(LEAST, min(OF_FZ, int(whole * SHARE) // max(1, jobs)))


def _cgroups(controller: str, top: Path, own: Path) -> Iterator[Path]:
    """The folders of the cgroups of this process, of version 2 and of version 1, from its own up to the root."""
    for line in _text(own).splitlines():
        number, names, path = (line.split(":", 2) + ["", ""])[:3]
        if number != "0" and controller not in names.split(","):
            continue
        folder = top / (controller if number != "0" else "") / path.lstrip("/")
        while True:
            yield folder
            if folder in (top, top / controller) or top not in folder.parents:
                break
            folder = folder.parent


def _text(path: Path) -> str:
    try:
        return path.read_text(encoding="ascii", errors="replace")
    except OSError:
        return ""


def _word(path: Path) -> str:
    return _text(path).strip()


def _words(path: Path, count: int) -> Optional[list[str]]:
    found = _text(path).split()
    return found if len(found) == count else None
