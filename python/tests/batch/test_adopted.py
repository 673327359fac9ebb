"""Folders of strangers' files: adopt, verify, status, missing, report and forget, by the program fz."""
from __future__ import annotations

import contextlib
import hashlib
import importlib.util
import io
import json
import os
import shutil
import sqlite3
import subprocess
import sys
import tempfile
import time
import unittest
import unittest.mock
from pathlib import Path

TOP = Path(__file__).resolve().parents[3]
sys.path[:0] = [str(TOP / "python"), str(TOP / "tools")]

from fzfits import program  # noqa: E402
from fzfits.batch import cli  # noqa: E402
from fzfits.batch.adopt import boxes, forms, walk  # noqa: E402
from fzfits.batch.adopt.store import Store  # noqa: E402
from fzfits.errors import NoProgram  # noqa: E402
from making import strange_faults  # noqa: E402

SAMPLES = TOP / "samples"
try:
    FZ = program.find()
except NoProgram:
    FZ = ""


@unittest.skipUnless(FZ, "the program fz is not there: rt ci builds it, and FZ names another one")
class Adopted(unittest.TestCase):
    """Each test has a folder `night` with packed and plain files."""

    def setUp(self) -> None:
        room = tempfile.TemporaryDirectory()
        self.addCleanup(room.cleanup)
        self.room = Path(room.name)
        self.night, self.manifest = self.room / "night", self.room / "night.fzbatch.sqlite"
        (self.night / "n").mkdir(parents=True)
        self.pack("star_field.fits", "a.fits.fz", "--tile", "32,32")
        self.pack("several.fits", "n/b.fits.fz", "--sums")
        shutil.copy(SAMPLES / "sums.fits", self.night / "n" / "plain.fits")
        shutil.copy(SAMPLES / "small.fits", self.night / "small.fits")
        for number, it in enumerate(sorted(self.night.rglob("*.f*"))):
            os.utime(it, (1_500_000_000 + number, 1_500_000_000 + number))

    def pack(self, source: str, name: str, *options: str) -> Path:
        subprocess.run([FZ, "pack", *options, SAMPLES / source, self.night / name], check=True)
        return self.night / name

    def run_it(self, *words: object) -> "tuple[int, str]":
        """The status of fzbatch, and what it printed."""
        said = io.StringIO()
        with contextlib.redirect_stdout(said), contextlib.redirect_stderr(said):
            more = ["--fz", FZ] if words[0] in ("adopt", "verify", "compare") else []
            status = cli.main([*map(str, words), *more])
        return status, said.getvalue()

    def last(self, *words: object) -> "tuple[int, str]":
        status, said = self.run_it(*words)
        return status, said.splitlines()[-1]

    def sums(self) -> "dict[str, tuple[str, int, int]]":
        return {str(it): (hashlib.sha256(it.read_bytes()).hexdigest(), it.stat().st_mtime_ns, it.stat().st_ino) for it in self.night.rglob("*") if it.is_file()}

    def whole(self) -> None:
        """As the samples are, but that sums.fits has a wrong checksum on purpose."""
        (self.night / "n" / "plain.fits").unlink()
        self.assertEqual(self.run_it("adopt", self.night)[0], 0)


class Finds(Adopted):
    def test_nothing_in_the_folder_is_changed(self) -> None:
        before = self.sums()
        status, said = self.run_it("adopt", self.night)
        self.assertEqual(status, 1)
        self.assertIn("n/plain.fits: HDU 2: CHECKSUM is not that of its bytes", said)
        self.assertEqual(said.splitlines()[-1], "adopt: 4 files, 3 well (3 right), 1 not well, 0 left out")
        self.assertEqual(self.sums(), before)
        self.assertEqual(sorted(it.name for it in self.room.iterdir()), ["night", *("night.fzbatch.sqlite" + it for it in ("", ".SHA256SUMS", ".copy", ".lock"))])
        self.assertEqual(subprocess.run(["sha256sum", "-c", f"{self.manifest}.SHA256SUMS"], cwd=self.night, capture_output=True, check=False).returncode, 0)

    def test_each_hdu_is_named(self) -> None:
        self.run_it("adopt", self.night)
        rows = [json.loads(it) for it in self.run_it("status", self.night, "--json")[1].splitlines()]
        several = next(it for it in rows if it["name"] == "b.fits.fz")
        self.assertEqual(several["sha256"], hashlib.sha256((self.night / "n" / "b.fits.fz").read_bytes()).hexdigest())
        packed = [it for it in several["hdus"] if it["sort"] == "packed image"]
        self.assertTrue(packed and all(it["tiles"] == it["rows"] and it["datasum"] == "ok" for it in packed))

    def test_a_faulty_tile_is_named_with_its_pixels(self) -> None:
        self.whole()
        path = self.night / "a.fits.fz"
        strange_faults.that_does_not_decode(path, None)
        status, said = self.run_it("adopt", self.night)
        self.assertEqual(status, 1)
        # 128 x 96 pixels in tiles of 32 x 32: row 11 is the last one
        self.assertIn("HDU 1: row 11, 21 CodeShort: the 1,024 pixels [97:128,65:96] are lost", said.replace("22 CodeValue", "21 CodeShort"))
        self.assertIn("it is another file than the one that was adopted", said)
        rows = [json.loads(it) for it in self.run_it("status", self.night, "--json")[1].splitlines()]
        found = next(it for it in rows if it["name"] == "a.fits.fz")["found"]
        self.assertEqual([(it["hdu"], it["row"], it["box"], it["lost"]) for it in found if it["cause"] == "pixels are lost"], [(1, 11, "[97:128,65:96]", 1024)])

    def test_the_tiles_that_a_cut_file_still_has(self) -> None:
        self.whole()
        path = self.night / "a.fits.fz"
        strange_faults.cut_in_heap(path, None)
        said = self.run_it("adopt", self.night)[1]
        self.assertIn("2 Truncated: HDU 1, the last one, is cut off: ", said)
        self.assertIn("the file ends before 1 tile (from row 11 on): 1,024 pixels are lost", said)
        rows = [json.loads(it) for it in self.run_it("status", self.night, "--json")[1].splitlines()]
        self.assertEqual(self.run_it("verify", self.night)[0], 1)
        self.assertEqual(next(it for it in rows if it["name"] == "a.fits.fz")["status"], "changed")

    def test_rot_shows_when_it_is_read(self) -> None:
        self.whole()
        strange_faults.kept(self.night / "small.fits", (self.night / "small.fits").read_bytes()[:2900] + b"\1" + (self.night / "small.fits").read_bytes()[2901:])
        self.assertEqual(self.run_it("adopt", self.night)[0], 0)
        self.assertEqual(self.run_it("missing", self.night)[0], 0)
        status, said = self.run_it("verify", self.night, "--sha256-only")
        self.assertEqual((status, said.splitlines()[-1]), (1, "verify: 3 files, 2 well (2 right), 1 not well, 0 left out"))
        self.assertIn("it has the length and the time that it had, and other bytes", said)
        self.assertEqual(self.run_it("missing", self.night)[0], 1)
        self.assertEqual(self.run_it("adopt", self.night, "--reread", "0")[0], 1)

    def test_another_time_shows_also_of_a_file_that_was_just_written(self) -> None:
        self.whole()
        small = self.night / "small.fits"
        os.utime(small, ns=(time.time_ns() + 3_600_000_000_000,) * 2)
        self.assertEqual((self.run_it("adopt", self.night)[0], self.run_it("missing", self.night)[0]), (0, 0))
        small.write_bytes(b"other bytes")
        for verb in ("missing", "status"):
            status, said = self.run_it(verb, self.night)
            self.assertEqual(status, 1)
            self.assertIn("small.fits: it has another length or time", said)

    def test_new_gone_renamed_and_swapped(self) -> None:
        self.whole()
        (self.night / "small.fits").rename(self.night / "n" / "other.fits")
        status, said = self.run_it("adopt", self.night)
        self.assertIn("n/other.fits: it was small.fits", said)
        self.assertEqual((status, said.splitlines()[-1]), (1, "adopt: 3 files, 2 well (2 right), 1 not well, 0 left out"))
        self.assertEqual(self.run_it("adopt", self.night)[0], 1)
        self.assertEqual(self.run_it("adopt", self.night, "--update", "--reread", "0")[0], 0)
        strange_faults.swapped(self.night / "a.fits.fz", self.night / "n" / "b.fits.fz")
        said = self.run_it("adopt", self.night)[1]
        self.assertIn("a.fits.fz: it has the bytes that n/b.fits.fz had", said)
        self.assertIn("n/b.fits.fz: it has the bytes that a.fits.fz had", said)
        strange_faults.swapped(self.night / "a.fits.fz", self.night / "n" / "b.fits.fz")
        self.assertEqual(self.run_it("adopt", self.night)[0], 0)
        (self.night / "a.fits.fz").unlink()
        self.assertIn("a.fits.fz: it is not there", self.run_it("adopt", self.night)[1])
        self.assertEqual(self.run_it("verify", self.night)[0], 1)
        self.assertEqual(self.run_it("forget", self.night, "--name", "a.fits.fz"), (0, "forgotten: a.fits.fz\n"))
        self.assertEqual(self.run_it("verify", self.night)[0], 0)

    def test_a_faulty_file_that_was_gone_is_not_right_by_its_sha256(self) -> None:
        wrong, away = self.night / "n" / "plain.fits", self.room / "away.fits"
        self.assertEqual(self.run_it("adopt", self.night)[0], 1)
        for verb in ("adopt", "verify"):
            wrong.rename(away)
            self.assertEqual(self.run_it(verb, self.night)[0], 1)
            away.rename(wrong)
            status, said = self.run_it("verify", self.night, "--sha256-only")
            self.assertEqual(status, 1)
            self.assertIn("n/plain.fits: it has the bytes that were adopted again", said)
            self.assertEqual(self.run_it("missing", self.night)[0], 1)
            status, said = self.run_it("adopt", self.night)
            self.assertEqual(status, 1)
            self.assertIn("CHECKSUM is not that of its bytes", said)

    def test_a_manifest_elsewhere_and_several(self) -> None:
        place = self.room / "m"
        place.mkdir()
        (self.night / "n" / "plain.fits").unlink()
        for folder, name in ((self.night / "n", "n.sqlite"), (self.night, "all.sqlite")):
            self.assertEqual(self.run_it("adopt", folder, "--manifest", place / name)[0], 0)
        self.assertEqual(self.run_it("missing", self.night, "--manifest", place)[0], 0)
        self.assertIn("status: 3 files", self.run_it("status", self.night, "--manifest", place / "all.sqlite")[1])
        self.assertEqual(self.run_it("status", self.night / "n", "--manifest", place / "all.sqlite")[0], 2)
        with unittest.mock.patch.dict(forms.FACTS, {"folder": lambda it: True}), Store(os.fsencode(place / "n.sqlite")) as it:
            it.tell("folder", os.fsencode(self.night / ".." / "elsewhere"))
        status, said = self.run_it("missing", self.night, "--manifest", place)
        self.assertEqual(status, 2)
        self.assertIn("a fact that fzbatch does not note", said)
        self.assertEqual(self.run_it("adopt", self.night, "--manifest", self.night / "m.sqlite")[0], 2)

    def test_a_codec_that_nobody_knows(self) -> None:
        strange_faults.codec_card(self.night / "a.fits.fz", None)
        self.assertIn("a.fits.fz: HDU 1: ZCMPTYPE names no codec of FITS", self.run_it("adopt", self.night)[1])

    def test_a_manifest_for_each_part_by_an_array_of_slurm(self) -> None:
        (self.night / "n" / "plain.fits").unlink()
        (self.night / "m").mkdir()
        shutil.move(self.night / "a.fits.fz", self.night / "m")
        # it is in no folder that has a manifest
        shutil.move(self.night / "small.fits", self.room)
        manifests = self.room / "manifests"
        manifests.mkdir()
        line = f'v=$(ls -d {self.night}/*/ | sed -n "$((SLURM_ARRAY_TASK_ID + 1))p"); {sys.executable} {TOP}/tools/fzbatch adopt "$v" --manifest {manifests}/$(basename "$v").sqlite'
        for task in range(2):
            environment = {**os.environ, "FZ": FZ, "SLURM_ARRAY_TASK_ID": str(task), "SLURM_CPUS_PER_TASK": "2", "SLURM_MEM_PER_CPU": "200"}
            subprocess.run(["bash", "-c", line], env=environment, check=True, capture_output=True)
        status, said = self.run_it("status", self.night, "--manifest", manifests)
        self.assertEqual((status, [it.split(",")[0] for it in said.splitlines() if it.startswith("status")]), (0, ["status: 1 file", "status: 1 file"]))
        self.assertEqual(self.run_it("missing", self.night, "--manifest", manifests), (0, ""))
        shutil.move(self.room / "small.fits", self.night)
        self.assertEqual(self.run_it("missing", self.night, "--manifest", manifests), (1, ".: 1 files are in no manifest that was named\n"))
        (self.night / "small.fits").unlink()
        (self.night / "m" / "a.fits.fz").unlink()
        self.assertEqual(self.run_it("missing", self.night, "--manifest", manifests)[0], 1)

    @unittest.skipUnless(shutil.which("parallel"), "GNU parallel is not installed")
    def test_by_gnu_parallel(self) -> None:
        os.environ["FZ"] = FZ
        self.addCleanup(os.environ.__setitem__, "FZ", FZ)
        self.assertIn("adopt: 4 files, 3 well (3 right), 1 not well", self.run_it("adopt", self.night, "--engine", "parallel", "--sshlogin", "2/:")[1])

    @unittest.skipUnless(importlib.util.find_spec("distributed"), "dask.distributed is not installed")
    def test_by_dask(self) -> None:
        self.assertIn("adopt: 4 files, 3 well (3 right), 1 not well", self.run_it("adopt", self.night, "--engine", "dask", "--jobs", "2")[1])

    def test_the_report(self) -> None:
        self.run_it("adopt", self.night)
        page = self.room / "page.html"
        self.assertEqual(self.run_it("report", self.night, "-o", page)[0], 1)
        text = page.read_text(encoding="utf-8")
        self.assertIn("Files that are not well by the manifest: 1 of 4.", text)
        self.assertIn("CHECKSUM is not that of its bytes", text)


class Holds(Adopted):
    """What a manifest of others, or a damaged one, may not do."""

    def test_a_changed_row_is_noticed(self) -> None:
        self.whole()
        with contextlib.closing(sqlite3.connect(self.manifest)) as it:
            it.execute("UPDATE files SET status = 'right', found = '[]', size = size + 1 WHERE name = CAST('small.fits' AS BLOB)")
            it.commit()
        for verb in ("adopt", "verify", "status", "missing", "report"):
            status, said = self.run_it(verb, self.night)
            self.assertEqual((verb, status), (verb, 2))
            self.assertIn("its hash is another", said)

    def test_a_row_that_is_gone_is_noticed(self) -> None:
        self.whole()
        with contextlib.closing(sqlite3.connect(self.manifest)) as it:
            it.execute("DELETE FROM files WHERE name = CAST('small.fits' AS BLOB)")
            it.commit()
        self.assertIn("rows of the folder", self.run_it("status", self.night)[1])

    def test_others_tables_are_refused(self) -> None:
        self.whole()
        with contextlib.closing(sqlite3.connect(self.manifest)) as it:
            it.execute("CREATE TRIGGER t AFTER INSERT ON files BEGIN DELETE FROM files; END")
        self.assertEqual(self.run_it("adopt", self.night)[0], 2)

    def test_one_run_at_a_time_and_no_link_as_lock(self) -> None:
        self.whole()
        lock = Path(f"{self.manifest}.lock")
        lock.unlink()
        lock.symlink_to(self.night / "small.fits")
        before = self.sums()
        self.assertEqual(self.run_it("adopt", self.night)[0], 2)
        self.assertEqual(self.sums(), before)

    def test_a_lost_folder_is_no_empty_one(self) -> None:
        self.whole()
        shutil.move(self.night, self.room / "away")
        self.assertEqual(self.run_it("adopt", self.night)[0], 2)
        self.assertEqual(self.run_it("missing", self.night)[0], 1)
        self.night.mkdir()
        self.assertEqual(self.run_it("adopt", self.night)[0], 2)
        shutil.rmtree(self.night)
        self.assertEqual(self.run_it("adopt", self.room / "away", "--manifest", self.manifest)[0], 2)
        self.assertEqual(self.run_it("adopt", self.room / "away", "--manifest", self.manifest, "--moved")[0], 0)

    def test_names_and_links(self) -> None:
        self.whole()
        (self.night / "link.fits").symlink_to("small.fits")
        shutil.copy(SAMPLES / "small.fits", os.fsdecode(os.fsencode(self.night) + b"/\xff\n.fits"))
        status, said = self.run_it("adopt", self.night)
        self.assertEqual(status, 1)
        self.assertIn("link.fits: is a symbolic link", said)
        self.assertEqual(self.run_it("adopt", self.night, "--skip-links")[0], 0)
        self.assertEqual(self.run_it("missing", self.night), (0, "fzbatch: symbolic links: 1 left out, as --skip-links says.\n"))


class Parts(unittest.TestCase):
    def test_boxes_of_whole_tiles_have_each_row_once(self) -> None:
        for grid in ([5], [3, 2], [4, 3, 2], [1, 5, 3]):
            axes = [it * 2 - 1 for it in grid]
            for first in range(3):
                found = [it for spans in boxes.runs(grid, first, 4) for it in [boxes.number_of(boxes.pixels(axes, [2] * len(grid), spans))]]
                wanted = [boxes.number_of(boxes.of_row(axes, [2] * len(grid), row)) for row in range(first, 5)]
                self.assertEqual(sum(found), sum(wanted))

    def test_many_processes_see_what_one_does(self) -> None:
        with tempfile.TemporaryDirectory() as room:
            for number in range(20):
                folder = Path(room, f"n{number % 4}", "deep")
                folder.mkdir(parents=True, exist_ok=True)
                (folder / f"{number}.fits").write_bytes(b"x" * number)
            seen = [sorted((it.path, it.count, it.look) for it in walk.walk(os.fsencode(room), known, 3)) for known in (0, walk.MANY)]
            self.assertEqual(seen[0], seen[1])

    def test_a_new_manifest_is_whole(self) -> None:
        with tempfile.TemporaryDirectory() as room:
            path = os.fsencode(Path(room, "m.sqlite"))
            Store(path).close()
            with Store(path, writes=False) as it:
                self.assertEqual((list(it.rows()), it.files), ([], 0))


if __name__ == "__main__":
    unittest.main()
