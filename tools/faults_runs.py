"""What tools/faults, tools/kill, tools/changing, tools/power, tools/races and tools/large have in common: the program, the runs that
they disturb, and how a run may end. It needs only Python's standard library."""
from __future__ import annotations

import hashlib
import mmap
import os
import re
import shutil
import struct
import subprocess
import sys
import tempfile
from dataclasses import dataclass, field
from pathlib import Path

TOP = Path(__file__).resolve().parent.parent
SAMPLES = TOP / "samples"
SECONDS_FOR_A_RUN = 60
# Outputs are synced, which takes long on a disk: if there is a folder in memory, runs are tried there.
IN_MEMORY = "/dev/shm" if os.access("/dev/shm", os.W_OK) else None
CALLS = ("open", "read", "pread", "write", "pwrite", "fsync", "statx", "dup", "malloc", "thread")
LINES = {4: b"read fault\n", 5: b"write fault\n", 7: b"no memory\n"}
STATUS_LINE = re.compile(rb"(usage: [^\n]*|refused: \d+ \w+ hdu \d+ (byte|card|row) \d+|over limit: live \d+ asked \d+ limit \d+)\n")
# What is said to people on standard error: some lines without control characters, or a part of them if a write fails.
HINT = re.compile(rb"(?:fz: [^\x00-\x1f\x7f]*\n){0,3}")
# Words by which a program says whether it has a command: outside its grammar it ends with 2.
ASKED = {
    "pack": ["pack", "in", "out"],
    "unpack": ["unpack", "in", "out"],
    "cut": ["cut", "--box", "1:1", "in", "out"],
    "verify": ["verify", "in"],
    "verify --strict": ["verify", "--strict", "in"],
    "list": ["list", "in"],
    "drill": ["drill", "1"],
    "retile": ["retile", "in", "out"],
    "patch": ["patch", "--at", "1", "in", "out"],
}


class Broken(Exception):
    """Something that a run may not do: what was seen."""


@dataclass
class Ended:
    """How a run ended, and the files that it left."""

    status: int
    text: bytes
    errors: bytes
    output: bytes | None


@dataclass
class Scenario:
    """A command with its files. IN is in.fits, OUT is out.fits; `patch` has PATCH as in.fits and FILE as out.fits, which is there."""

    command: str
    words: list
    file: bytes | None
    target: bytes | None = None
    workers: bool = False
    whole: Ended = None
    counts: dict = field(default_factory=dict)
    # of patch: the program, the boxes of the tiles of FILE, and what was cut out of them so far
    fz: str = ""
    tiles: list = field(default_factory=list)
    cuts: dict = field(default_factory=dict)

    def name(self):
        return "fz " + " ".join(self.words)

    def writes(self):
        return "out.fits" in self.words


def program(tool):
    fz = os.path.abspath(os.environ.get("FZ", TOP / "crates" / "fz" / "out" / "fz"))
    if not os.access(fz, os.X_OK):
        sys.exit(f"tools/{tool}: {fz} is not there: rt ci builds it")
    return fz


def commands_of(fz):
    """The commands that the program has, and whether verify has --strict."""
    with tempfile.TemporaryDirectory() as folder:
        asked = {it: subprocess.run([fz, *words], cwd=folder, capture_output=True, check=False) for it, words in ASKED.items()}
    found = {it for it, told in asked.items() if told.returncode != 2}
    if not found:
        sys.exit(f"{fz} has none of the commands {', '.join(ASKED)}")
    return found


class Room:
    """A folder of its own for the runs of one scenario at a time."""

    def __init__(self, fz, folder=None):
        self.fz = fz
        self.folder = Path(tempfile.mkdtemp(prefix="fz-faults-", dir=folder or IN_MEMORY))
        self.input, self.output = self.folder / "in.fits", self.folder / "out.fits"

    def close(self):
        shutil.rmtree(self.folder, ignore_errors=True)

    def fill(self, scenario):
        """The folder as it is before a run of the scenario."""
        for path, content in ((self.input, scenario.file), (self.output, scenario.target)):
            if content is None:
                path.unlink(missing_ok=True)
            else:
                path.write_bytes(content)

    def start(self, words, before=(), **how):
        return subprocess.Popen(
            [*before, self.fz, *words], cwd=self.folder, stdin=subprocess.DEVNULL, stdout=subprocess.PIPE, stderr=subprocess.PIPE, **how
        )

    def ended(self, running, seconds=SECONDS_FOR_A_RUN):
        try:
            text, errors = running.communicate(timeout=seconds)
        except subprocess.TimeoutExpired:
            running.kill()
            running.communicate()
            raise Broken(f"it did not end within {seconds} seconds") from None
        return Ended(running.returncode, text, errors, self.output.read_bytes() if self.output.exists() else None)

    def run(self, words, before=(), **how):
        return self.ended(self.start(words, before, **how))


def whole_lines(text, of):
    """Whether a text is some whole lines from the front of another one."""
    return of.startswith(text) and (not text or text.endswith(b"\n"))


def check(holds, what):
    if not holds:
        raise Broken(what)


def check_errors(ended, part=False):
    """What was said on standard error: a hint after the statuses 2 to 6, of which a part may be missing, and nothing after others."""
    said = ended.errors if ended.status in range(2, 7) else b""
    whole = said + b"\n" if part and said and not said.endswith(b"\n") else said
    good = said == ended.errors and (HINT.fullmatch(whole) or part and b"fz: ".startswith(said))
    check(good, f"standard error: {ended.errors[-500:].decode('latin-1')}")


def check_left(scenario, ended, may_be_whole):
    """OUT after a run: whole after 0, otherwise not one that begins with S, or whole; none after a refusal of a header and over the limit."""
    if scenario.command == "patch":
        return check_patched(scenario, ended)
    whole = scenario.whole
    if ended.status == 0 or ended.status == whole.status and whole.output is None:
        check(ended.output == whole.output, f"status {ended.status}, and OUT is not as after a run with no fault")
    elif ended.output and ended.output[:1] == b"S":
        check(ended.output == whole.output, f"status {ended.status}, and OUT begins with S and is not whole")
        check(may_be_whole, f"status {ended.status}, and OUT is whole")
    return None


def check_patched(scenario, ended):
    """FILE after `patch`: each tile has its old pixels or its new ones, so each pixel has, if the file can still be unpacked."""
    if ended.status == 0:
        check(ended.output == scenario.whole.output, "status 0, and FILE is not patched as after a run with no fault")
    check(ended.output is not None and ended.output[:1] == b"S", "FILE is gone, or no longer begins with S")
    if ended.output != scenario.target:
        check(patched_part(scenario, ended.output), f"status {ended.status}, and a tile of FILE is neither as it was nor as patched")


def cuts_of(scenario, file):
    """Of each tile of a file how `cut` ends, and the digest of the cutout or of what it prints. It is kept: many files are the same."""
    name = hashlib.sha256(file).digest()
    if name in scenario.cuts:
        return scenario.cuts[name]
    made = []
    with tempfile.TemporaryDirectory(dir=IN_MEMORY) as folder:
        (Path(folder) / "now").write_bytes(file)
        cut = Path(folder) / "cut"
        for box in scenario.tiles:
            told = subprocess.run([scenario.fz, "cut", "--box", box, "now", "cut"], cwd=folder, capture_output=True, check=False)
            made.append((told.returncode, hashlib.sha256(cut.read_bytes() if told.returncode == 0 else told.stdout).digest()))
            cut.unlink(missing_ok=True)
    scenario.cuts[name] = made
    return made


def patched_part(scenario, file):
    """Whether each tile of a file is as in the file before or as in the file after a whole patch, by cutouts of single tiles."""
    return all(it in both for it, *both in zip(*(cuts_of(scenario, it) for it in (file, scenario.target, scenario.whole.output))))


def unpatched_tiles(scenario, file):
    """How many tiles of a file are not as after a whole patch."""
    return sum(it != new for it, new in zip(cuts_of(scenario, file), cuts_of(scenario, scenario.whole.output)))


def check_kept(scenario, room):
    """The input and the folder after a run."""
    if scenario.file is not None:
        check(room.input.read_bytes() == scenario.file, "IN is not as before")
    others = {it.name for it in room.folder.iterdir()} - {"in.fits", "out.fits"}
    check(not others, f"other files were made: {', '.join(sorted(others))}")


def packed(room, plain, *options):
    room.input.write_bytes(plain)
    room.output.unlink(missing_ok=True)
    told = room.run(["pack", *options, "in.fits", "out.fits"])
    if told.status != 0:
        sys.exit(f"fz pack {' '.join(options)} ends with {told.status}: {told.text.decode()}")
    return told.output


def scenarios(room, commands):
    """The runs that are disturbed: each command on files of samples/, done, refused and beyond its limit."""
    star, several, flags = ((SAMPLES / f"{it}.fits").read_bytes() for it in ("star_field", "several", "flags"))
    small, grid = (SAMPLES / "small.fits").read_bytes(), (SAMPLES / "grid.fits").read_bytes()
    stored = (SAMPLES / "packed" / "grid.sums.fits").read_bytes()
    tiles, parts = packed(room, star, "--tile", "32,32", "--sums"), packed(room, several, "--tile", "16,16")
    unsummed = packed(room, star, "--tile", "32,32")
    # one byte of the last row's descriptor, so that the row is refused after OUT was made
    damaged = bytearray(tiles)
    damaged[5760 + 16 * 11] ^= 0x40
    both = ["in.fits", "out.fits"]
    made = [
        Scenario("pack", ["pack", *both], small),
        Scenario("pack", ["pack", "--codec", "none", "--tile", "2,2", "--sums", *both], grid),
        Scenario("pack", ["pack", "--codec", "plio", *both], flags, workers=True),
        Scenario("pack", ["pack", "--sums", *both], star, workers=True),
        Scenario("pack", ["pack", "--tile", "9,9", *both], several, workers=True),
        Scenario("pack", ["pack", "--memory", "70000", *both], star),
        Scenario("pack", ["pack", *both], tiles),
        Scenario("unpack", ["unpack", *both], stored),
        Scenario("unpack", ["unpack", *both], tiles, workers=True),
        Scenario("unpack", ["unpack", *both], parts, workers=True),
        Scenario("unpack", ["unpack", *both], bytes(damaged), workers=True),
        Scenario("cut", ["cut", "--box", "2:4,2:3", *both], stored),
        Scenario("cut", ["cut", "--box", "1:128:3,5:90:7", *both], tiles, workers=True),
        Scenario("verify", ["verify", "in.fits"], tiles),
        Scenario("verify", ["verify", "in.fits"], (SAMPLES / "sums.fits").read_bytes()),
        Scenario("verify", ["verify", "in.fits"], bytes(damaged)),
        Scenario("verify --strict", ["verify", "--strict", "in.fits"], tiles),
        Scenario("verify --strict", ["verify", "--strict", "in.fits"], several),
        Scenario("list", ["list", "in.fits"], parts),
        Scenario("drill", ["drill", "1"], None),
        Scenario("drill", ["drill", "40"], None),
        Scenario("retile", ["retile", "--tile", "50,50", *both], tiles, workers=True),
        Scenario("retile", ["retile", *both], several, workers=True),
    ]
    if "patch" in commands:
        boxes = [f"{x}:{x + 31},{y}:{y + 31}" for y in range(1, 97, 32) for x in range(1, 129, 32)]
        given = packed_part(room, tiles, "1:40,1:20")
        for options, target in (([], tiles), (["--hdu", "1"], unsummed)):
            made.append(Scenario("patch", ["patch", *options, "--at", "50,40", *both], given, target, fz=room.fz, tiles=boxes))
    return [it for it in made if it.command in commands]


def packed_part(room, packed_file, box):
    """A cutout, which serves as the file PATCH."""
    room.input.write_bytes(packed_file)
    room.output.unlink(missing_ok=True)
    return room.run(["cut", "--box", box, "in.fits", "out.fits"]).output


def with_workers(scenario, workers):
    """The words of a scenario with a number of workers, if it takes one."""
    return [scenario.words[0], "--workers", str(workers), *scenario.words[1:]] if scenario.workers else scenario.words


def compiled(tool, folder):
    """The library of tools/faults_preload.c, compiled into the folder; None if there is no C compiler."""
    compiler = shutil.which(os.environ.get("CC", "cc"))
    if compiler is None:
        print(f"tools/{tool}: left out, since there is no C compiler (cc)")
        return None
    library = Path(folder) / "faults_preload.so"
    told = subprocess.run([compiler, "-O2", "-shared", "-fPIC", "-o", library, TOP / "tools" / "faults_preload.c", "-ldl"], capture_output=True, text=True, check=False)
    if told.returncode != 0:
        sys.exit(f"tools/{tool}: {compiler} of tools/faults_preload.c: {told.stderr}")
    return library


class Counts:
    """How often each call was made in a run: the file that the library writes."""

    def __init__(self, folder):
        self.path = Path(folder) / "counts"
        self.path.write_bytes(bytes(4096))
        self.file = self.path.open("r+b")
        self.map = mmap.mmap(self.file.fileno(), 4096)

    def read(self):
        numbers = struct.unpack("64Q", self.map[:512])
        return dict(zip(CALLS, numbers)), numbers[63]


def environment(library, counts, fault=None):
    made = {**os.environ, "LD_PRELOAD": str(library), "FAULT_COUNTS": str(counts.path)}
    return {**made, **(fault or {})}


def left_out(commands):
    missing = [it for it in ASKED if it not in commands]
    if missing:
        print(f"left out, since the program does not have them: {', '.join(missing)}")


def fingerprint(content):
    return "none" if content is None else f"{len(content)} bytes, {hashlib.sha256(content).hexdigest()[:12]}"
