"""Runs astropy's tests of tiled compression in a place, and compares how they end."""
import os
import re
import subprocess
import xml.etree.ElementTree as tree
from collections import Counter
from concurrent.futures import ThreadPoolExecutor
from dataclasses import dataclass, field

MODULE = "astropy.io.fits.hdu.compressed"
VERSIONS = (
    "import importlib, platform\n"
    "said = ['Python ' + platform.python_version()]\n"
    "for name in ('astropy', 'numpy', 'fitsio', 'pytest', 'pytest_remotedata'):\n"
    "    try:\n"
    "        said.append(name + ' ' + importlib.import_module(name).__version__)\n"
    "    except (ImportError, AttributeError):\n"
    "        said.append('no version of ' + name)\n"
    "print(', '.join(said))"
)
SUPPORTED = "import pytest, fzfits.astropy; fzfits.astropy.table()"
CALLS = re.compile(r"^calls of libfz: .*$", re.M)


@dataclass
class End:
    """How a test ended, and the first line of why."""

    how: str
    why: str = ""


@dataclass
class Ran:
    """How each test ended, what the run said last, and how often libfz was called."""

    ended: dict = field(default_factory=dict)
    last: str = ""
    calls: str = ""


def python(place, work, words):
    """Runs the Python of a place in the folder `work`."""
    env = {**os.environ, "FZ_LIBRARY": str(work / "libfz.so.1"), "PYTHONPATH": f"{work / 'tools/library'}:{work / 'python'}", "PYTHONDONTWRITEBYTECODE": "1", "HOME": str(work)}
    how = {"stdin": subprocess.DEVNULL, "stdout": subprocess.PIPE, "stderr": subprocess.STDOUT, "text": True, "errors": "replace"}
    try:
        return subprocess.run([*place.words, "-W", "ignore", *words], check=False, cwd=work, env=env, **how)
    except OSError as error:
        return subprocess.CompletedProcess(words, 127, str(error))


def why_not(place, work):
    """Why the tests cannot be run with libfz there, or None."""
    ran = python(place, work, ["-c", SUPPORTED])
    return None if ran.returncode == 0 else (ran.stdout.strip().splitlines() or ["it does not start"])[-1]


def versions(place, work):
    return python(place, work, ["-c", VERSIONS]).stdout.strip().splitlines()[-1]


def end_of(case):
    """How a test of a report ended. A report calls what astropy itself expects to fail, and so gives up, skipped too."""
    for how in ("failure", "error", "skipped"):
        found = case.find(how)
        if found is not None:
            why = (found.get("message") or "").strip().splitlines()
            return End("expected" if found.get("type") == "pytest.xfail" else how, why[0] if why else "")
    return End("passed")


def outcomes(place, work, name, words):
    """The tests, by their names, with more words for pytest. The report gets a name of this run, since two are made at the same time."""
    report = work / f"{name}.xml"
    report.unlink(missing_ok=True)
    ran = python(place, work, ["-m", "pytest", "-q", "-p", "no:cacheprovider", "-p", "patient", "-p", "mended", "--pyargs", MODULE, f"--junitxml={report}", "-o", "junit_family=xunit1", *words])
    lines = ran.stdout.strip().splitlines() or [""]
    calls = CALLS.search(ran.stdout)
    found = Ran(last=lines[-1], calls=calls[0] if calls else "libfz was not called")
    if report.exists():
        for it in tree.parse(report).iter("testcase"):
            found.ended[f"{it.get('classname')}.{it.get('name')}"] = end_of(it)
    return found


def both_ways(place, work):
    """How the tests end without libfz, and with it."""
    with ThreadPoolExecutor(2) as pool:
        runs = [pool.submit(outcomes, place, work, name, words) for name, words in (("without", []), ("with", ["-p", "plugged"]))]
        return [it.result() for it in runs]


def counted(ran):
    """How many tests ended how."""
    found = Counter(it.how for it in ran.ended.values())
    words = {"passed": "passed", "failure": "failed", "error": "ended with an error", "skipped": "skipped", "expected": "expected to fail"}
    return ", ".join(f"{found[how]:,} {word}" for how, word in words.items() if found[how] or how in ("passed", "failure")) if found else f"no test ran ({ran.last})"


def has_passed(ran):
    return any(it.how == "passed" for it in ran.ended.values())


def both_fail(plain, plugged):
    bad = ("failure", "error")
    return [name for name, it in plain.ended.items() if it.how in bad and plugged.ended.get(name, it).how in bad]


def differences(plain, plugged):
    """The tests that end otherwise in the second run, a line each."""
    names = [*plain.ended, *(it for it in plugged.ended if it not in plain.ended)]
    none = End("not run")
    pairs = [(name, plain.ended.get(name, none), plugged.ended.get(name, none)) for name in names]
    return [f"{name}: {two.how} ({two.why}), and without {one.how}" for name, one, two in pairs if one.how != two.how]


def times(place, work):
    """What plug_times.py prints in this place."""
    return python(place, work, [str(work / "tools/library/plug_times.py")]).stdout.strip().replace("\n", "; ")
