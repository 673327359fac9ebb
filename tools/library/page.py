"""Runs the programs of docs/LIBRARY.md: each block of C or Python, which the page's next console block compiles and calls."""
import os
import re
import shutil
import subprocess
from pathlib import Path

TOP = Path(__file__).resolve().parents[2]
BLOCK = re.compile(r"^```(c|python|console)\n(.*?)^```$", re.S | re.M)
COMPILED = 'gcc tile.c -o tile $(pkg-config --cflags --libs fz)'
NAMES = {"c": "tile.c", "python": "tile.py"}


def commands(console):
    """Pairs of a command and what it prints."""
    found = []
    for line in console.splitlines():
        if line.startswith("$ "):
            found.append((line[2:], []))
        else:
            found[-1][1].append(line)
    return found


def runs(page):
    """Each program of the page with the commands that follow it; a block with no console block after it is no program."""
    blocks = BLOCK.findall(page)
    return [(kind, text, commands(after[1])) for (kind, text), after in zip(blocks, blocks[1:]) if kind in NAMES and after[0] == "console"]


def differences(room, python):
    """How many commands were run, what differs, and what was left out. `room` has libfz.a; `python` has astropy, or is None."""
    count, found, left = 0, [], []
    for kind, text, asked in runs((TOP / "docs/LIBRARY.md").read_text()):
        if kind == "python" and python is None:
            left.append("the example in Python of docs/LIBRARY.md, since astropy is not installed")
            continue
        (room / NAMES[kind]).write_text(text)
        if not (room / "samples").exists():
            (room / "samples").symlink_to(TOP / "samples")
        for command, wanted in asked:
            count += 1
            told = subprocess.run(["bash", "-c", here(command, room, python)], cwd=room, capture_output=True, text=True, check=False, env={**os.environ, "PYTHONPATH": str(TOP / "python"), "ASAN_OPTIONS": "detect_leaks=0"})
            if told.stdout.splitlines() != wanted:
                found.append(f"docs/LIBRARY.md: {command} prints {told.stdout[:200]!r} {told.stderr[-500:]!r}, and not {wanted}")
    return count, found + ["docs/LIBRARY.md: no program was found"] * (count == 0), left


def here(command, room, python):
    """A command of the page with the library that was just made."""
    if command == COMPILED:
        return f"gcc -std=c11 -Wall -Wextra -Werror -fsanitize=address,undefined -fno-sanitize-recover=all -I {TOP / 'include'} tile.c {room / 'libfz.a'} -o tile"
    return re.sub(r"^python3\b", str(python), command) if python else command


def with_astropy():
    """The first Python that has astropy, or None."""
    for it in (os.environ.get("PYTHON"), "python3", "/usr/bin/python3"):
        path = it and shutil.which(it)
        if path and subprocess.run([path, "-W", "ignore", "-c", "import astropy.io.fits"], capture_output=True, check=False).returncode == 0:
            return path
    return None
