"""The commands on adopted folders: each gives the status of fzbatch."""
from __future__ import annotations

import argparse
import json
import os
import sys
from dataclasses import asdict
from typing import Callable, Iterator, List, Optional, Set, TextIO, Tuple

from .. import files, inside, lock, machine, names
from ..checks import Odd
from ..opening import BadManifest
from ..wanted import Refuse
from . import beside, forms, page, places, run, survey, whole
from .compare import Compare, Wanted
from .retile import Retile
from .rows import GONE, Row
from .run import DONE, NOT_DONE
from .store import Store
from .words import folder_of, is_file_word, words


def adopt(asked: argparse.Namespace) -> int:
    """Takes a folder under a manifest."""
    return run.Run(_wanted(asked), sys.stdout, sys.stderr).status()


def verify(asked: argparse.Namespace) -> int:
    """Reads all files of an adopted folder again."""
    return run.Run(_wanted(asked), sys.stdout, sys.stderr).status()


def _wanted(asked: argparse.Namespace) -> run.Wanted:
    whole.check(asked)
    folder = folder_of(asked)
    made = run.Wanted(asked.verb, folder, places.manifest_of(folder, asked.manifest), asked.fz, asked.memory, asked.jobs, asked.engine)
    if asked.engine == "slurm":
        raise Refuse("an adopted folder has no --engine slurm: an array of fzbatch adopt, each task with a folder and a --manifest of its own, does it (docs/ARCHIVE.md)")
    made.scheduler, made.time_limit, made.all_names, made.allow_empty = asked.scheduler, max(0.0, asked.time_limit), asked.all, asked.allow_empty
    made.quiet, made.log = asked.quiet, asked.log
    for it in asked.sshlogin:
        made.machines += ["--sshlogin", it]
    if asked.sshloginfile:
        made.machines += ["--sshloginfile", asked.sshloginfile]
    if asked.verb == "adopt":
        made.days, made.update, made.moved, made.skip_nothing = asked.reread, asked.update, asked.moved, asked.skip_nothing
        made.skips = {"skip_links": asked.skip_links}
    else:
        made.sha256_only = asked.sha256_only
    return made


def in_place(asked: argparse.Namespace) -> "Optional[Callable[[argparse.Namespace], int]]":
    """What is called for pack and restore: None if it is not --beside."""
    if asked.beside:
        return _beside
    if asked.delete or asked.manifest:
        raise Refuse(f"fzbatch {asked.verb} has --delete and --manifest only with --beside")
    return None


def _beside(asked: argparse.Namespace) -> int:
    """The packed file beside the plain one, or the plain file beside the packed one."""
    whole.check(asked)
    if asked.engine != "local":
        raise Refuse("--beside has the engine local")
    if any(getattr(asked, it, False) for it in ("update", "compare", "retry", "skip_links", "skip_compressed", "skip_nothing", "allow_empty")):
        raise Refuse("--beside always compares, and has none of --update, --retry, --skip-.. and --allow-empty")
    folder = folder_of(asked)
    made = beside.Wanted(asked.verb, folder, places.manifest_of(folder, asked.manifest), asked.fz, asked.memory, asked.jobs, max(0.0, asked.time_limit))
    made.delete, made.all_names, made.quiet, made.log = asked.delete, asked.all, asked.quiet, asked.log
    if asked.verb == "pack":
        made.accept_wrong_sums = asked.accept_wrong_sums
        made.options = ([] if asked.no_sums else ["--sums"]) + _options(asked)
    return beside.Beside(made, sys.stdout, sys.stderr).status()


def _options(asked: argparse.Namespace) -> "List[str]":
    """The options of fz pack that were given."""
    return [word for name in ("codec", "tile", "block", "workers") if getattr(asked, name) is not None for word in (f"--{name}", str(getattr(asked, name)))]


def retile(asked: argparse.Namespace) -> int:
    """Packs the packed files of an adopted folder again, each in its place."""
    whole.check(asked)
    folder = folder_of(asked)
    made = beside.Wanted("retile", folder, places.manifest_of(folder, asked.manifest), asked.fz, asked.memory, asked.jobs, max(0.0, asked.time_limit))
    made.all_names, made.quiet, made.log, made.options = asked.all, asked.quiet, asked.log, (["--sums"] if asked.sums else []) + _options(asked)
    return Retile(made, sys.stdout, sys.stderr).status()


def compare(asked: argparse.Namespace) -> int:
    """Compares an adopted folder with a folder of plain files."""
    if len(words(asked)) < 2 or is_file_word(words(asked)[1]):
        raise Refuse(f"name the folder of plain files too: fzbatch compare PLAIN {names.shown(folder_of(asked))}")
    whole.check(asked, folders=2)
    if asked.engine != "local" or asked.allow_empty:
        raise Refuse("fzbatch compare of an adopted folder has the engine local, and no --allow-empty")
    folder = folder_of(asked)
    made = Wanted(os.path.realpath(asked.dir), folder, places.manifest_of(folder, asked.manifest), asked.fz, asked.memory, asked.jobs, max(0.0, asked.time_limit))
    made.without_plain, made.all_names, made.quiet, made.log = asked.without_plain, asked.all, asked.quiet, asked.log
    return Compare(made, sys.stdout, sys.stderr).status()


class _Opened:
    """The manifests that a command names, one after another, each with its folder."""

    def __init__(self, asked: argparse.Namespace):
        whole.check(asked)
        self.folder, self.jobs = folder_of(asked), machine.processors()
        self.manifests = places.many(asked.manifest) or [places.manifest_of(self.folder, [])]
        self.several = len(self.manifests) > 1 or any(map(os.path.isdir, asked.manifest))
        self._folders: "Set[bytes]" = set()
        self._skips = True

    def each(self) -> "Iterator[Tuple[bytes, Store]]":
        """The one manifest of the folder, or those of folders in it: one at a time is open, since there may be thousands."""
        for path in self.manifests:
            with places.opened(path, self.folder) if not self.several else self._of_several(path) as store:
                folder = store.fact("folder") if self.several else self.folder
                self._folders.add(folder)
                self._skips = self._skips and bool(store.fact("skip_links"))
                yield folder, store

    def _of_several(self, path: bytes) -> Store:
        if not files.there(path):
            raise Refuse(f"{names.shown(path)} is not there: fzbatch adopt makes it")
        store = Store(path, writes=False)
        places.check_not_older(store)
        folder = store.fact("folder")
        if not isinstance(folder, bytes) or not (folder == self.folder or folder.startswith(self.folder.rstrip(b"/") + b"/")):
            store.close()
            raise Refuse(f"{names.shown(path)} is the manifest of {names.shown(folder or b'?')}, which is not in {names.shown(self.folder)}")
        return store

    def before(self, folder: bytes) -> bytes:
        """What the paths of one of several folders have before them."""
        return b"" if folder == self.folder else os.path.relpath(folder, self.folder) + b"/"

    def uncovered(self) -> "List[str]":
        """Lines about folders that none of several manifests has, after `each` gave them all."""
        return sorted(survey.uncovered(self.folder, self._folders, self._skips)) if self.several else []

    def tell_uncovered(self, to: TextIO) -> int:
        """Prints these, and gives the status."""
        lines = self.uncovered()
        for line in lines:
            print(line, file=to)
        return NOT_DONE if lines else DONE


def _told(row: Row, before: bytes) -> "dict[str, object]":
    """A row for JSON: names as bash reads them, hashes as digits, and what is JSON already as it is."""
    try:
        forms.check_lines(row)
    except Odd as error:
        raise BadManifest(f"{names.shown(row.path)}: {error}") from error
    texts = {it: names.shown(getattr(row, it)) if getattr(row, it) else "" for it in ("folder", "name", "was")}
    lines = {it: json.loads(getattr(row, it)) if getattr(row, it) else None for it in ("hdus", "found", "made_of")}
    if before:
        texts["folder"] = names.shown((before + row.folder).rstrip(b"/"))
    return {**asdict(row), **texts, **lines, "sha256": row.sha256.hex(), "next": row.next.hex()}


def status(asked: argparse.Namespace) -> int:
    """Prints what the manifest says, and what a look at the folder adds to it."""
    worst = DONE
    found = _Opened(asked)
    for folder, store in found.each():
        it = survey.Survey(store, folder, found.jobs)
        try:
            if asked.json:
                for row in store.rows():
                    print(json.dumps(_told(row, found.before(folder))))
                worst = max(worst, DONE if it.whole else NOT_DONE)
                continue
            counted = survey.counted(it, "status", asked.all)
        finally:
            it.close()
        for _, _, verb, _, _, _, began, ended, said in store.runs()[-1:]:
            counted.notes += [f"The last run: {verb} at {began}: {said}"] if ended else []
        if found.several:
            print(f"{names.shown(folder)}:")
        counted.print(sys.stdout)
        worst = max(worst, DONE if counted.whole else NOT_DONE)
    return max(worst, found.tell_uncovered(to=sys.stderr if asked.json else sys.stdout))


def missing(asked: argparse.Namespace) -> int:
    """A line for each file with which something is not well."""
    worst = DONE
    found = _Opened(asked)
    for folder, store in found.each():
        before = found.before(folder)
        it = survey.Survey(store, folder, found.jobs)
        try:
            for path, what in it.findings():
                worst = NOT_DONE
                if asked.null:
                    sys.stdout.buffer.write(before + path + b"\0")
                else:
                    print(f"{names.shown(before + path)}: {'; '.join(map(survey.line_of, what))}")
            for left in it.left:
                worst = NOT_DONE
                print(survey.left_line(left, before), file=sys.stderr if asked.null else sys.stdout)
            for note in it.notes:
                print(f"fzbatch: {note}", file=sys.stderr)
            if it.lost:
                worst = NOT_DONE
                print(f"fzbatch: {it.lost}", file=sys.stderr)
        finally:
            it.close()
    return max(worst, found.tell_uncovered(to=sys.stderr if asked.null else sys.stdout))


def report(asked: argparse.Namespace) -> int:
    """Writes the state of adopted folders as one page."""
    found = _Opened(asked)
    made = page.Page(found.folder)
    for folder, store in found.each():
        it = survey.Survey(store, folder, found.jobs)
        try:
            made.add(folder, store, it, found.before(folder))
        finally:
            it.close()
    uncovered = found.uncovered()
    made.leave_out(uncovered)
    if not files.write_over_own(asked.out, made.text().encode(errors="backslashreplace"), len(page.HEAD)):
        raise Refuse(f"{names.shown(asked.out)} is there, and is no page of fzbatch: give another name")
    print("\n".join([names.shown(asked.out), *uncovered]))
    return DONE if made.whole else NOT_DONE


def forget(asked: argparse.Namespace) -> int:
    """Takes files that are gone out of the manifest."""
    whole.check(asked)
    folder = folder_of(asked)
    path = places.manifest_of(folder, asked.manifest)
    with lock.held(path + places.LOCK), places.opened(path, folder, writes=True) as store:
        rows = {names.shown(it.path): it for it in store.not_well()}
        for name in asked.name:
            row = rows.get(name)
            if row is None or row.status != GONE:
                raise Refuse(f"{name} is not among the files that are gone")
            if inside.state(folder, row.path) is not None:
                raise Refuse(f"{name} is there again, and is not forgotten: fzbatch adopt reads it, and says whether it is the file that was gone")
            store.forget(row.folder, row.name)
            print(f"forgotten: {name}")
        for it in places.keep_beside(store):
            print(it)
    return DONE
