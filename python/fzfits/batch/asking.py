"""From the words of the command line to what a run is asked for."""
from __future__ import annotations

import argparse
import os
import shlex
from typing import Optional, Sequence

from . import chosen, files, names
from .manifest import Manifest
from .wanted import Refuse, Wanted, find_manifest

READS = ("verify", "compare", "restore")


def places(asked: argparse.Namespace) -> "tuple[bytes, Optional[bytes], list[bytes]]":
    """The words that are no options: the first folder, the second one if there is one, and names of files."""
    first, rest = asked.dir, [*([asked.packed] if asked.packed is not None else []), *asked.files]
    if rest and (os.path.isdir(rest[0]) or not _has_manifest(first)):
        return first, rest[0], rest[1:]
    return first, None, rest


def typed(path: bytes) -> str:
    """A name as it can be typed in a shell in the current folder."""
    here = os.path.realpath(b".") + b"/"
    text = names.shown(path[len(here) :] if path.startswith(here) else path)
    return text if text.startswith("$'") else shlex.quote(text)


def _check_second(asked: argparse.Namespace, plain: bytes, second: bytes, more: "Sequence[bytes]") -> None:
    """Raises `Refuse`, with the line that works, if what was named as the second folder is a file of the archive of the first."""
    packed = plain + names.PACKED
    if asked.verb in READS and not os.path.isdir(second) and _has_manifest(packed):
        wanted = [os.path.realpath(it) for it in (second, *more)]
        below = [next((it[len(top) + 1 :] for top in (plain, packed) if it.startswith(top + b"/")), name) for it, name in zip(wanted, (second, *more))]
        whole = " ".join(map(typed, (plain, packed, *below)))
        raise Refuse(f"{names.shown(second)} is no folder; for a file of the archive name both folders first: fzbatch {asked.verb} {whole}")


def folders(asked: argparse.Namespace, reads: bool = True) -> "tuple[bytes, bytes]":
    """The folders of plain and of packed files, as whole paths. One is not in the other.

    With `reads` false the folder of plain files has to be named: nothing is written to, or packed from, where a manifest says.
    """
    one, second, names_of_files = places(asked)
    if names_of_files and asked.verb not in READS:
        raise Refuse(f"{asked.verb} takes two folders, and was given {names.shown(names_of_files[0])} too" + ("; --include names files" if asked.verb == "pack" else ""))
    first = os.path.realpath(one)
    if second is not None:
        _check_second(asked, first, second, names_of_files)
        plain, packed = first, os.path.realpath(second)
    elif _has_manifest(first):
        packed = first
        plain = source_of(packed)
        if not reads:
            said = f"the manifest says {names.shown(plain)}, if that is right: " if plain else ""
            whole = " ".join([typed(plain) if plain else "DIR", *map(typed, (packed, *names_of_files))])
            raise Refuse(f"name both folders: {said}fzbatch {asked.verb} {whole}")
    else:
        plain, packed = first, first + names.PACKED
        # a link may lead into the other folder; of one that leads nowhere no folder is made
        packed = os.path.realpath(packed) if os.path.isdir(packed) else packed
        _check_first(one, plain, packed, asked.verb)
    if not plain.startswith(b"/"):
        # as after rebuild: then the plain files are not looked at
        return b"", packed
    for it, other in ((plain, packed), (packed, plain)):
        if it == other or it.startswith(other.rstrip(b"/") + b"/"):
            raise Refuse("the folders of plain and of packed files have to be apart: one is in the other")
    return plain, packed


def _has_manifest(folder: bytes) -> bool:
    return os.path.isdir(folder) and files.there(os.path.join(folder, names.MANIFEST))


def _check_first(named: bytes, plain: bytes, packed: bytes, verb: str) -> None:
    """Raises `Refuse` if the one word for both folders names none, with what may be meant."""
    if os.path.isfile(plain):
        above = os.path.dirname(plain)
        which = f": fzbatch {verb} {names.shown(above)} {names.shown(os.path.basename(plain))}" if verb in READS and _has_manifest(above) else ""
        raise Refuse(f"{names.shown(named)} is a file: name the folder first{which}")
    if not os.path.isdir(plain) and not os.path.isdir(packed):
        raise Refuse(f"{names.shown(named)}: no such folder")
    if verb not in ("pack", "share") and not os.path.isdir(packed):
        raise Refuse(f"{names.shown(named)} is not packed yet, or to another folder than {names.shown(packed)}: name that one too")


def source_of(packed: bytes) -> bytes:
    """The folder of plain files that a manifest names, or nothing. Its rows are looked at by whoever uses them."""
    with Manifest(find_manifest(packed), writes=False, whole=False) as manifest:
        plain = manifest.fact("source") or b""
    return plain if isinstance(plain, bytes) else b""


def wanted_of(asked: argparse.Namespace) -> Wanted:
    """What a run is asked for. Raises `Refuse` if that makes no sense."""
    plain, packed = folders(asked, asked.verb in ("verify", "compare"))
    if asked.verb == "pack" and _has_manifest(plain):
        raise Refuse(f"{names.shown(plain)} has a manifest ({names.MANIFEST.decode()}), so it is a folder of packed files: the folder of plain files is named first, as in fzbatch pack {typed(packed)} {typed(plain)} (if it is none, move the manifest away)")
    wanted = Wanted(asked.verb, plain, packed, program=asked.fz, memory=asked.memory, jobs=asked.jobs, engine=asked.engine)
    wanted.time_limit = max(0.0, asked.time_limit)
    wanted.scheduler, wanted.allow_empty, wanted.all_names = asked.scheduler, asked.allow_empty, asked.all
    wanted.quiet, wanted.dry_run, wanted.log, wanted.tells_idle = asked.quiet, asked.dry_run, asked.log, asked.tell_idle
    wanted.chosen = chosen_of(asked)
    for it in asked.sshlogin:
        wanted.machines += ["--sshlogin", it]
    if asked.sshloginfile:
        wanted.machines += ["--sshloginfile", asked.sshloginfile]
    if asked.verb == "verify":
        wanted.sha256_only = asked.sha256_only
    if asked.verb == "compare":
        wanted.without_plain = asked.without_plain
    if asked.verb == "pack":
        _pack(asked, wanted)
    return wanted


def _pack(asked: argparse.Namespace, wanted: Wanted) -> None:
    wanted.options = [] if asked.no_sums else ["--sums"]
    for name in ("codec", "tile", "block", "workers"):
        if getattr(asked, name) is not None:
            wanted.options += [f"--{name}", str(getattr(asked, name))]
    wanted.compare, wanted.update, wanted.retry = asked.compare, asked.update, asked.retry
    wanted.accept_wrong_sums, wanted.skip_nothing = asked.accept_wrong_sums, asked.skip_nothing
    wanted.skip_links, wanted.skip_compressed = asked.skip_links, asked.skip_compressed


def chosen_of(asked: argparse.Namespace) -> chosen.Chosen:
    """The files that are asked for: by patterns, by a list in a file, or by name."""
    named: Sequence[bytes] = places(asked)[2]
    listed = frozenset(named) if named else None
    if asked.from_list is not None:
        listed = (listed or frozenset()) | chosen.list_of(asked.from_list)
    return chosen.Chosen(tuple(asked.include), tuple(asked.exclude), listed)
