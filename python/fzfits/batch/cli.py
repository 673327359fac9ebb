"""The command `fzbatch`: its words, and what each calls."""
from __future__ import annotations

import argparse
import json
import os
import secrets
import sys
from dataclasses import asdict
from typing import Any, Callable, NoReturn, Optional, Sequence

from .. import program, version
from ..errors import FzError
from ..pictures import NoPicture
from . import asking, calls, engines, files, lock, names, run, slurm, survey, verbs, words_of, work
from .adopt import words as adopted
from .manifest import BadManifest
from .messages import Settings
from .scan import NoSource
from .tally import Tally, alone

PROGRAM = "fzbatch"
VERBS = {
    "pack": "pack each FITS file of DIR that is not packed yet into PACKED, and verify it",
    "verify": "check that each packed file is the one that was made, decode its tiles, and verify its checksums",
    "compare": "unpack each packed file, compare it with the plain file, and keep nothing",
    "restore": "restore the plain files that are not in DIR; existing plain files are not touched",
}
ALL = (*VERBS, "status", "missing", "forget", "collect", "share", "rebuild", "report", "look", *adopted.OWN)
EXAMPLES = {"restore": "One file: fzbatch restore night night.fz mef.fits"}


class _Parser(argparse.ArgumentParser):
    """Prints nothing that controls a terminal: a pattern of the shell gives it names of files that others made."""

    def error(self, message: str) -> NoReturn:
        super().error("\n".join(map(names.told, message.split("\n"))))


def main(words: Optional[Sequence[str]] = None, program_name: str = PROGRAM) -> int:
    """Does what the command line says, and gives the status: 0 all done, 1 some files not, 2 nothing was begun, 3 a disk failed."""
    for name in ("stdout", "stderr"):
        # it was closed by the shell
        if getattr(sys, name) is None:
            setattr(sys, name, open(os.devnull, "w", encoding="utf-8"))
    streams = sys.stdout, sys.stderr
    for it in streams:
        # a name that the terminal has no letters for is printed by its numbers
        if hasattr(it, "reconfigure"):
            it.reconfigure(errors="backslashreplace")
    asked = _parsed(words)
    # what controls a terminal is printed by its numbers too, wherever it came from
    sys.stdout, sys.stderr = names.Escaping(sys.stdout), names.Escaping(sys.stderr)  # type: ignore[assignment]
    try:
        return _called(asked, program_name)
    finally:
        sys.stdout, sys.stderr = streams


def _parsed(words: Optional[Sequence[str]]) -> argparse.Namespace:
    """The words of the command line. Those that are no options may be anywhere among the options."""
    parser = _parser(sys.argv[1:] if words is None else words)
    asked, more = parser.parse_known_args(words)
    if more and (not hasattr(asked, "files") or any(it.startswith("-") and it != "-" for it in more)):
        parser.error(f"unrecognized arguments: {' '.join(more)}")
    if more:
        asked.files = [*asked.files, *map(os.fsencode, more)]
    return asked


def _called(asked: argparse.Namespace, program_name: str) -> int:
    try:
        return (adopted.call_of(asked) or asked.call)(asked)
    except (run.Refuse, NoSource, BadManifest, lock.Locked, engines.NoEngine, NoPicture, FzError) as error:
        said = str(error)
    except BrokenPipeError:
        os.dup2(os.open(os.devnull, os.O_WRONLY), sys.stdout.fileno())
        return run.NOT_DONE
    except OSError as error:
        if error.strerror in run.DISK:
            where = _shown(error.filename) if error.filename else "standard output, or a file of this run"
            print(f"{program_name}: {where}: {error.strerror}", file=sys.stderr)
            return run.DISK_FAILED
        said = f"{_shown(error.filename)}: {error.strerror}" if error.filename else str(error)
    print(f"{program_name}: {said}", file=sys.stderr)
    return run.NOTHING_DONE


def _shown(name: "str | bytes | int") -> str:
    return str(name) if isinstance(name, int) else names.shown(os.fsencode(name))


def _parser(words: Sequence[str] = ()) -> argparse.ArgumentParser:
    """What reads the words. Of commands that are not among them there are no options."""
    whole = _Parser(prog=PROGRAM, description="Packs, verifies and restores folders of FITS files by calls of fz.")
    whole.add_argument("--version", action="version", version=version.shown("fzbatch"))
    made = verbs.Verbs(whole, verbs.given(words, ALL))
    for verb, says in VERBS.items():
        words_of.run_words(_verb(made, verb, says, _begin, EXAMPLES.get(verb)), verb)
    status = _verb(made, "status", "print what the manifest says: counts, and each file with which something is not well", _status)
    status.add_argument("--all", action="store_true", help="name all files, not only the first five of each cause")
    words_of.without(status)
    status.add_argument("--json", action="store_true", help="print each row of the manifest as a line of JSON")
    lacks = _verb(made, "missing", "name each file with which something is not well, and why; status 1 if there is one", _missing)
    words_of.without(lacks)
    lacks.add_argument("-0", "--null", action="store_true", help="print names only, as they are, with a null byte after each")
    forget = _verb(made, "forget", "remove files from the manifest that were never packed or whose packed file is gone", _forget)
    forget.add_argument("--name", action="append", required=True, metavar="NAME", help="a name of a file, as fzbatch status shows it")
    collect = _verb(made, "collect", "read the results of a Slurm array into the manifest", _collect)
    collect.add_argument("--drop", action="store_true", help="drop the tasks that have no result")
    collect.add_argument("--all", action="store_true", help="name all files, not only the first five of each cause")
    share = _verb(made, "share", "do the share of one task of a Slurm array", _share)
    share.add_argument("--fz", metavar="PROGRAM", help=words_of.FZ)
    again = _verb(made, "rebuild", "make a lost or damaged manifest again from the packed files", _rebuild)
    words_of.rebuild_words(again)
    page = _verb(made, "report", "write the state of an archive as one page of HTML", _report)
    words_of.without(page)
    page.add_argument("-o", "--out", type=os.fsencode, default=b"report.html", metavar="FILE", help="the page (report.html)")
    if made.wants("look"):
        _look_words(made)
    adopted.add(made)
    return whole


def _look_words(given: Any) -> None:
    from ..pictures import drawing  # pylint: disable=import-outside-toplevel

    says = "write a picture of a FITS file, packed or plain, or a page of small pictures of a folder"
    made = given.add_parser("look", help=says, description=says[0].upper() + says[1:] + ".")
    made.add_argument("file", metavar="FILE", type=words_of.path, help="a FITS file, or a folder of such")
    made.add_argument("--hdu", metavar="K", help="the number of the HDU, or its EXTNAME (all images of the file)")
    made.add_argument("--box", default="", metavar="LO:HI,..", help="a part of the image, counted from 1, axis 1 first; of a cube the third piece names the plane")
    made.add_argument("--size", type=int, default=800, metavar="N", help="pixels of the longer side of the image (800)")
    made.add_argument("--stretch", choices=sorted(drawing.STRETCHES), default="linear", help="how values become greys (linear)")
    made.add_argument("--exact", action="store_true", help="average all pixels, not four of each bin")
    made.add_argument("--no-grid", action="store_true", help="draw no grid of world coordinates")
    made.add_argument("--fz", metavar="PROGRAM", help=words_of.FZ)
    made.add_argument("-o", "--out", type=os.fsencode, metavar="FILE", help="the new picture or page (FILE with .png or .html after it, in this folder)")
    made.set_defaults(call=_look)


def _verb(given: Any, name: str, says: str, call: Callable[[argparse.Namespace], int], example: Optional[str] = None) -> argparse.ArgumentParser:
    made: argparse.ArgumentParser = given.add_parser(name, help=says, description=says[0].upper() + says[1:] + ".", epilog=example)
    made.add_argument("dir", metavar="DIR", type=words_of.path, help="the folder of plain files; or, if it has a manifest, that of packed files")
    made.add_argument("packed", metavar="PACKED", nargs="?", type=words_of.path, help="the folder of packed files (DIR with .fz after it)")
    if name in asking.READS:
        made.add_argument("files", metavar="FILE", nargs="*", type=os.fsencode, help="single files, plain or packed, by their paths below either folder (all files)")
    made.set_defaults(call=call, files=[])
    return made


def _folders(asked: argparse.Namespace, reads: bool = True) -> tuple[bytes, bytes]:
    return asking.folders(asked, reads)


def _begin(asked: argparse.Namespace) -> int:
    return run.begin(asking.wanted_of(asked), sys.stdout, sys.stderr)


def tally_of(found: survey.Survey) -> Tally:
    """The counts of an archive as it was found."""
    tally = Tally("status", left=found.left, others=found.others, notes=list(found.notes))
    bad = {it.path for it in found.findings}
    for row in found.rows:
        if row.path not in bad:
            tally.good(row.status, row.size or 0, row.packed_size or 0)
    for it in found.findings:
        tally.bad(it.path, it.cause, it.line, it.advice)
    return tally


def _status(asked: argparse.Namespace) -> int:
    plain, packed = _folders(asked)
    with run.open_manifest(packed, writes=False) as manifest:
        found = survey.survey(manifest, plain, packed, asked.without_plain)
        tally = tally_of(found)
        if found.found is not None and asked.packed is None and packed == os.path.realpath(asked.dir):
            tally.notes.append(f"The plain files were looked for in {names.shown(plain)}, as the manifest says.")
        for _, verb, _, _, began, ended, said in manifest.runs()[-1:]:
            tally.notes += [f"The last run: {verb} at {began}: {said}"] if ended else []
    if asked.json:
        causes = {it.path: it.cause for it in found.findings}
        for row in found.rows:
            print(json.dumps({**asdict(row), "path": names.shown(row.path), "found": causes.get(row.path, "")}))
    else:
        tally.print(sys.stdout, asked.all)
    _print_lost(found)
    return run.DONE if found.whole else run.NOT_DONE


def _print_lost(found: survey.Survey) -> None:
    if found.lost:
        print(f"{PROGRAM}: {found.lost}", file=sys.stderr)


def _missing(asked: argparse.Namespace) -> int:
    plain, packed = _folders(asked)
    with run.open_manifest(packed, writes=False) as manifest:
        found = survey.survey(manifest, plain, packed, asked.without_plain)
    for it in sorted(found.findings, key=lambda it: it.path):
        if asked.null:
            sys.stdout.buffer.write(it.path + b"\0")
        else:
            print(f"{names.shown(it.path)}: {it.line}")
    for left in found.left:
        print(f"{names.shown(left.path)}: {left.why}", file=sys.stderr if asked.null else sys.stdout)
    for note in [*alone(found.others), *found.notes]:
        print(f"{PROGRAM}: {note}", file=sys.stderr)
    _print_lost(found)
    return run.DONE if found.whole else run.NOT_DONE


def _forget(asked: argparse.Namespace) -> int:
    from . import forget  # pylint: disable=import-outside-toplevel

    forget.forget(_folders(asked)[1], asked.name, sys.stdout)
    return run.DONE


def _report(asked: argparse.Namespace) -> int:
    from . import report, safe  # pylint: disable=import-outside-toplevel

    plain, packed = _folders(asked)
    with run.open_manifest(packed, writes=False) as manifest:
        found = survey.survey(manifest, plain, packed, asked.without_plain)
        text = report.page(manifest, packed, found)
    if not files.write_over_own(asked.out, text.encode(errors="backslashreplace"), len(report.HEAD)):
        raise run.Refuse(f"{names.shown(asked.out)} is there, and is no page of fzbatch: give another name")
    print(names.shown(asked.out))
    print(safe.verdict_of(found).line)
    _print_lost(found)
    return run.DONE if found.whole else run.NOT_DONE


def _look(asked: argparse.Namespace) -> int:
    from ..pictures import drawing  # pylint: disable=import-outside-toplevel
    from . import look  # pylint: disable=import-outside-toplevel

    how = drawing.Look(asked.box, max(16, min(asked.size, 8000)), asked.stretch, asked.exact, not asked.no_grid, asked.fz)
    print(look.look(asked.file, look.out_of(asked.file, asked.out), look.extension_of(asked.hdu) if asked.hdu else None, how))
    return run.DONE


def _collect(asked: argparse.Namespace) -> int:
    from . import submit  # pylint: disable=import-outside-toplevel

    _, packed = _folders(asked)
    return submit.collect(packed, sys.stdout, asked.drop, asked.all)


def _share(asked: argparse.Namespace) -> int:
    plain, packed = _folders(asked, reads=False)
    calls.check_files()
    fz = program.find(asked.fz)
    given = Settings("pack", plain, packed, "0" * 16, fz, work.identity_of(fz))
    with lock.held(os.path.join(packed, names.LOCK), shared=True):
        count, good = slurm.do_share(given, os.environ, lambda: False, lambda it: None if it.good else print(f"{names.shown(it.path)}: {it.line}", file=sys.stderr))
    print(f"share: {count} files, {good} done, {count - good} failed")
    return run.DONE if good == count else run.NOT_DONE


def _rebuild(asked: argparse.Namespace) -> int:
    from . import submit  # pylint: disable=import-outside-toplevel

    packed = os.path.realpath(asked.packed if asked.packed is not None else asked.dir)
    calls.check_files()
    made = submit.settings_for_rebuild(packed, program.find(asked.fz), secrets.token_hex(8), asked.jobs, asked.memory, asked.accept_wrong_sums, max(0.0, asked.time_limit))
    return submit.rebuilt(made, sys.stdout, asked.jobs, asked.ignore_copy, asked.again, asked.all)
