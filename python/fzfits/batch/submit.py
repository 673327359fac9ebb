"""What goes to other tasks and comes back from them: a Slurm array that is to be submitted, its results, and a rebuilt manifest."""
from __future__ import annotations

import os
import shlex
from dataclasses import replace
from typing import Sequence, TextIO

from . import advice, calls, faults, files, inside, keep, lock, machine, names, rebuild, rooms, slurm, survey, tries, work
from .loop import Loop
from .manifest import BadManifest, Manifest, Row, now
from .messages import Result, Settings, Task
from .record import record
from .scan import Left, scan_packed
from .steps import Steps
from .tally import Tally
from .wanted import checked

DONE, NOT_DONE = 0, 1


def hand_over(settings: Settings, tasks: Sequence[Task], out: TextIO) -> None:
    """Writes the tasks of a Slurm array, and prints what to submit."""
    folders = [names.shown(it) for it in (settings.plain, settings.packed)]
    if any(it.startswith("$'") for it in folders):
        raise BadManifest(f"for --engine slurm both folders need names of characters that print, since sbatch hands them to a shell: {' '.join(folders)}")
    slurm.write(settings, tasks)
    count = slurm.array_of(len(tasks))
    plain, packed = map(shlex.quote, folders)
    print(f"{len(tasks)} tasks wait. For an array of {count} tasks with 4 processors each:", file=out)
    wrapped = shlex.quote(f"fzbatch share {plain} {packed}")
    print(f"  sbatch --array=0-{count - 1} --cpus-per-task=4 --mem-per-cpu=200M --requeue --wrap {wrapped}", file=out)
    print(f"When it has ended: fzbatch collect {packed}", file=out)


def collect(packed: bytes, out: TextIO, drop: bool = False, all_names: bool = False) -> int:
    """Reads the results of a Slurm array into the manifest. Tasks without a result are counted, and stay unless they are dropped."""
    if not files.there(slurm.tasks_file(packed)):
        raise BadManifest(f"no tasks of a Slurm array wait in {names.shown(packed)}")
    with lock.held(os.path.join(packed, names.LOCK)), checked(Manifest(os.path.join(packed, names.MANIFEST)), packed) as manifest:
        began = now()
        settings, tasks = slurm.read(packed)
        rows = {it.path: it for it in manifest.rows()}
        tally = Tally(settings.verb)
        results = slurm.result_of_each(packed, settings, tasks)
        done = [(it, record(manifest, rows.get(it.path), it, settings.identity, " ".join(settings.options), settings.plain)) for it in results.values()]
        looks = _others(manifest, packed, {it.path for it in tasks}, tally)
        for result, row in done:
            if result.good and row.fault:
                tally.bad(result.path, row.cause, row.line, row.advice)
            elif result.good and result.path in looks:
                tally.bad(result.path, *looks[result.path])
            elif result.good:
                tally.good(result.outcome, row.size or 0, row.packed_size or 0)
            else:
                tally.bad(result.path, result.cause, result.line, result.advice)
        manifest.save()
        tally.untried = sum(it.path not in results for it in tasks)
        tally.left = [Left(*it) for it in manifest.left_out()]
        tally.notes += survey.accepted(manifest.rows())
        if not tally.untried or drop:
            manifest.end(settings.token, tally.last_line())
            slurm.clear(packed, settings.token)
        else:
            if results:
                manifest.note("collect", began, tally.last_line())
            tally.notes.append("The tasks stay: start the array again and collect once more, or end them by fzbatch collect --drop.")
        tally.notes += keep.keep(manifest, packed)
    tally.print(out, all_names)
    return DONE if tally.whole else NOT_DONE


def _others(manifest: Manifest, packed: bytes, asked: "set[bytes]", tally: Tally) -> "dict[bytes, tuple[str, str, str]]":
    """Names what was no task of the array and is not well: a file that was rejected before, say, or a stranger.

    Gives what a look at the packed files of the tasks finds: one may be lost since its task ended.
    """
    rows = {it.path: it for it in manifest.rows()}
    here, found = scan_packed(packed), survey.Survey()
    for path, row in rows.items():
        if path not in asked and (row.fault or not row.done):
            tally.bad(path, row.cause or survey.NEVER, row.line, row.advice)
        elif row.done:
            survey.look_at_packed(found, row, here, True)
    looks = {it.path: (it.cause, it.line, it.advice) for it in found.findings}
    strange = {**{it: survey.UNKNOWN for it in survey.names_of_unknown(rows, here)}, **{it.path: survey.told_of(it) for it in survey.left_of_packed(rows, here)}}
    for path, told in (*strange.items(), *((it, looks[it]) for it in looks if it not in asked)):
        if path.removesuffix(names.PACKED) not in asked:
            tally.bad(path, *told)
    return looks


def rebuilt(settings: Settings, out: TextIO, jobs: int, ignore_copy: bool = False, again: bool = False, all_names: bool = False) -> int:
    """Makes a manifest from the packed files alone, and what the second copy and SHA256SUMS still say.

    `again` makes it anew although there is a whole one, which then is what the second copy would be.
    """
    packed, tally = settings.packed, Tally("rebuild")
    with lock.held(os.path.join(packed, names.LOCK)):
        old, facts, said = rebuild.known_rows(packed, again)
        if ignore_copy:
            old, facts, said = {}, {}, "The second copy of the manifest was not read."
        tasks, lost, strange = rebuild.tasks_of(packed, old)
        if not tasks and not lost:
            raise BadManifest(f"{names.shown(packed)} has no packed file: is its disk mounted?")
        tally.notes.append(said)
        began = now()
        rebuild.remove_unfinished(packed)
        rooms.remove_of_killed(packed)
        new = os.path.join(packed, names.MANIFEST + b".rebuilt-%s" % settings.token.encode())
        try:
            with Manifest(new) as manifest:
                for name, value in facts.items():
                    if isinstance(value, (int, bytes)):
                        manifest.tell(name, value)
                manifest.take(facts.get("runs", ()))
                _fill(manifest, settings, jobs, tally, old, tasks, lost)
                for it in strange:
                    tally.bad(it, *survey.UNKNOWN)
                for left in scan_packed(packed).left:
                    tally.bad(left.path, *survey.told_of(left))
                manifest.note("rebuild", began, tally.last_line())
            # only now, so that a kill leaves the one that was there, or its second copy
            away = rebuild.move_away(packed)
            os.rename(new, os.path.join(packed, names.MANIFEST))
        except BaseException:
            files.remove(new)
            raise
        above = os.open(packed, inside.FOLDER)
        inside.sync_number(above)
        os.close(above)
        if away:
            tally.notes.append(f"The manifest that was there has the name {names.shown(away)} now.")
        with Manifest(os.path.join(packed, names.MANIFEST)) as manifest:
            tally.notes += survey.notes_of(manifest, list(manifest.rows()), packed)
            tally.notes += keep.keep(manifest, packed)
    tally.print(out, all_names)
    return DONE if tally.whole else NOT_DONE


def _fill(manifest: Manifest, settings: Settings, jobs: int, tally: Tally, old: "dict[bytes, Row]", tasks: Sequence[Task], lost: Sequence[Row]) -> None:
    """Reads each packed file, and writes its row."""
    with files.private(), rooms.rooms(settings.packed, settings.token, jobs) as scratch, Loop(calls.shared.of(settings.program)) as loop:
        for task, result in loop.each((_read(settings, it, scratch) for it in tasks), jobs):
            row = rebuild.row_of(result, old.get(result.path), task.packed_sha256)
            manifest.put(row)
            if result.good and row.fault:
                tally.bad(result.path, row.cause, row.line, row.advice)
            elif result.good:
                tally.good(result.outcome, row.size or 0, row.packed_size or 0)
            else:
                tally.bad(result.path, result.cause, result.line, result.advice)
    for row in lost:
        line = "its packed file is not there, and SHA256SUMS or the second copy names it"
        if row.done:
            faults.add(row, Result(row.path, "verify", "lost", survey.LOST, line, advice.LOST), faults.Place(b"", None))
        else:
            row.cause, row.line, row.advice, row.status = survey.LOST, line, advice.LOST, row.status or "failed"
        manifest.put(row)
        tally.bad(row.path, survey.LOST, line, advice.LOST)
    found = {it.path for it in tasks} | {it.path for it in lost}
    for path, row in old.items():
        if not row.done and path not in found:
            manifest.put(row)
            tally.bad(path, survey.NEVER, f"it was never packed: {row.line}", row.advice)


def _read(settings: Settings, task: Task, scratch: rooms.Rooms) -> "Steps[tuple[Task, Result]]":
    result = Result(task.path, "verify")
    with work.guarded(result), inside.file(settings.packed, names.packed_name(task.path)) as number:
        yield from rebuild.look(settings, task, result, tries.Tries(settings, task, result, scratch), number)
    return task, result


def settings_for_rebuild(packed: bytes, program: str, token: str, jobs: int, memory: int, accept: bool, limit: float) -> Settings:
    """The settings of a run that reads packed files only."""
    made = Settings("verify", packed, packed, token, program, "", memory=memory or machine.limit_of_a_job(jobs))
    return replace(made, accept_wrong_sums=accept, time_limit=limit)


