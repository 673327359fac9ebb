"""The systems whose tools are compared: this one, and other suites of Debian, each unpacked in a folder of its own."""
import os
import shutil
import subprocess
import sys
import threading
from dataclasses import dataclass, field
from pathlib import Path

sys.path.insert(0, str(Path(__file__).resolve().parents[2] / "tools"))
from library import suites  # noqa: E402  # pylint: disable=wrong-import-position

PACKAGES = ("libcfitsio-bin", "python3-astropy", "python3-fitsio")
# With what tools/check_plug uses of a suite, which is in the same folder.
PREPARED = (*PACKAGES, *(it for it in suites.PACKAGES if it not in PACKAGES))
# What a tool may take, in seconds.
LIMIT = 120
VERSIONS = (
    "import importlib\n"
    "for name in ('astropy', 'fitsio'):\n"
    "    try:\n"
    "        it = importlib.import_module(name)\n"
    "        print(name, it.__version__)\n"
    "    except Exception:\n"
    "        pass\n"
)


@dataclass
class Ran:
    """How a run ended: its status (minus the signal that ended it), its seconds of processors, what it printed, and the megabytes it had."""

    status: int
    processor: float
    said: str
    memory: float = 0.0


@dataclass
class System:
    """A system: the name of its suite, the folder in which it is unpacked (none for this one), and the versions of its tools."""

    name: str
    root: Path = None
    versions: dict = field(default_factory=dict)

    def words(self, words):
        """The command as it is run in this system, whose working folder is WORK."""
        return ["chroot", str(self.root), *words] if self.root else list(words)

    def below(self, folder):
        """Where a folder is found in this system."""
        return self.root / str(folder).lstrip("/")

    def shares(self, work):
        """Has this system see the working folder, under the same name. Whether that can be done."""
        self.below(work).mkdir(parents=True, exist_ok=True)
        ended = run(["mount", "--bind", work, self.below(work)])
        if ended.status:
            told(f"left out, since {work} cannot be shown there ({ended.said.strip()}): the tools of {self.name}")
        return ended.status == 0

    def leaves(self, work):
        """Takes the working folder out of this system again."""
        if self.root and os.path.ismount(self.below(work)):
            subprocess.run(["umount", str(self.below(work))], check=False)
        if self.root and self.below(work).is_dir() and not os.path.ismount(self.below(work)):
            self.below(work).rmdir()

    def path(self, name):
        """The path of a tool, or nothing."""
        if self.root is None:
            return shutil.which(name)
        return f"/usr/bin/{name}" if (self.root / "usr/bin" / name).exists() else None


def told(text):
    """Says on standard error what is going on."""
    print(f"bench/compare: {text}", file=sys.stderr, flush=True)


def own():
    """The name of this system, such as bookworm."""
    file = Path("/etc/os-release")
    named = dict(line.split("=", 1) for line in file.read_text().splitlines() if "=" in line) if file.exists() else {}
    return named.get("VERSION_CODENAME", "this system").strip('"')


def run(words, limit=LIMIT):
    """Runs a command to its end, or kills it after so many seconds."""
    child = subprocess.Popen(list(map(str, words)), stdin=subprocess.DEVNULL, stdout=subprocess.PIPE, stderr=subprocess.STDOUT)
    timer = threading.Timer(limit, child.kill)
    timer.start()
    said = child.stdout.read().decode("utf-8", "replace")
    _, status, used = os.wait4(child.pid, 0)
    timer.cancel()
    child.returncode = os.waitstatus_to_exitcode(status)
    return Ran(child.returncode, used.ru_utime + used.ru_stime, said)


def unpacked(suite, room, packages=PACKAGES):
    """Another suite, unpacked in the folder `room` if it is not there; None, with the reason, if that cannot be done."""
    why = suites.made(suite, room / suite, packages)
    if why:
        told(f"left out, since {why}: the tools of {suite}")
        return None
    return System(suite, room / suite)


def known(system):
    """Finds the versions of the tools of a system."""
    if system.path("fpack"):
        package = run(system.words(["dpkg-query", "-W", "-f", "${Version}", "libcfitsio-bin"]))
        system.versions["cfitsio"] = package.said.split("-")[0] if package.status == 0 else "of no package"
    python = "/usr/bin/python3"
    for line in run(system.words([python, "-W", "ignore", "-c", VERSIONS])).said.splitlines():
        name, *rest = line.split()
        if name in ("astropy", "fitsio"):
            system.versions[name] = rest[0].partition("+")[0]  # such as 1.4.2+ds
    return system
