"""Other suites of Debian, each unpacked in a folder, in which programs of it are run on folders of this system."""
import contextlib
import os
import shutil
import signal
import subprocess
import sys
from dataclasses import dataclass
from pathlib import Path

MIRROR = "http://deb.debian.org/debian"
# What astropy's tests of tiled compression use of a suite.
PACKAGES = ("python3-astropy", "python3-fitsio", "python3-pytest", "python3-pytest-astropy", "python3-hypothesis")
# A mirror that is a snapshot of some day says of its lists that they are too old. A folder that can be made again needs no fsync.
OPTIONS = ("-qq", "-o", "APT::Sandbox::User=root", "-o", "Acquire::Check-Valid-Until=false", "-o", "DPkg::Options::=--force-unsafe-io")


@dataclass
class Place:
    """A Python, and the words that come before those for it."""

    name: str
    words: list


def said(words, **more):
    """Runs a command that asks nothing, with what it prints in one text."""
    return subprocess.run(words, stdin=subprocess.DEVNULL, stdout=subprocess.PIPE, stderr=subprocess.STDOUT, text=True, errors="replace", check=False, **more)


def end_in_order():
    """Has SIGTERM end this program as an exception does, so that what it mounted is taken away."""
    signal.signal(signal.SIGTERM, lambda *_: sys.exit(128 + signal.SIGTERM))


def mounted(root, folders):
    """Shows the folders, /proc and /dev in a suite, and gives what was mounted."""
    found = []
    for source in (*map(str, folders), "/proc", "/dev"):
        target = root / source.lstrip("/")
        target.mkdir(parents=True, exist_ok=True)
        subprocess.run(["mount", "--bind", source, str(target)], check=True)
        found.append(target)
    return found


def mounts_below(root):
    """What is mounted in a folder."""
    rows = [it.split() for it in Path("/proc/self/mounts").read_text().splitlines()]
    return [it[1] for it in rows if it[1].startswith(f"{os.path.realpath(root)}/")]


def is_whole(root):
    """Whether debootstrap went to its end there: it removes its own folder last."""
    return (root / "usr/bin/apt-get").exists() and not (root / "debootstrap").exists()


def made(suite, root, packages=PACKAGES):
    """Unpacks a suite with these packages, unless it is there; why not, if that cannot be done."""
    if os.geteuid() != 0:
        return "this is not root"
    if not is_whole(root):
        if not shutil.which("debootstrap"):
            return "debootstrap is not installed"
        if mounts_below(root):
            return f"{mounts_below(root)[0]} is mounted in a suite that is not whole: umount it"
        shutil.rmtree(root, ignore_errors=True)
        ran = said(["debootstrap", "--variant=minbase", suite, str(root), MIRROR])
        for it in reversed(mounts_below(root)):
            # a busy system can leave /proc there
            said(["umount", it])
        if ran.returncode:
            return f"debootstrap failed ({ran.stdout.splitlines()[-1:]})"
    return installed(root, packages)


def installed(root, packages):
    """Installs packages, unless they are there; why not, if that cannot be done. It is apt that does it, since debootstrap knows no virtual packages."""
    within = {"env": {**os.environ, "DEBIAN_FRONTEND": "noninteractive"}}
    found = said(["chroot", str(root), "dpkg-query", "-W", "-f", "${db:Status-Status}\n", *packages], **within)
    if found.stdout.split() == ["installed"] * len(packages):
        return None
    shutil.copy("/etc/resolv.conf", root / "etc")
    for words in (["update"], ["install", "-y", "--no-install-recommends", *packages]):
        ran = said(["chroot", str(root), "apt-get", *OPTIONS, *words], **within)
        if ran.returncode:
            return f"apt-get {words[0]} failed ({ran.stdout.splitlines()[-1:]})"
    return None


@contextlib.contextmanager
def unpacked(suite, room, folders, packages=PACKAGES):
    """The Python of a suite that is unpacked below `room`, and sees `folders`; None, with the reason on standard error, if there is none."""
    root = Path(room) / suite
    root.parent.mkdir(parents=True, exist_ok=True)
    why = made(suite, root, packages)
    if why:
        print(f"{Path(sys.argv[0]).name}: left out, since {why}: what is of {suite}", file=sys.stderr)
        yield None
        return
    found = []
    try:
        found += mounted(root, folders)
        yield Place(suite, ["chroot", str(root), "/usr/bin/python3"])
    finally:
        for it in reversed(found):
            subprocess.run(["umount", str(it)], check=False)
