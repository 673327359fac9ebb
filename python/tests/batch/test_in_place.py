"""Packed files in the place of plain ones, and back; packed again in other tiles; compared with a folder of plain files."""
from __future__ import annotations

import dataclasses
import hashlib
import json
import os
import shlex
import shutil
import subprocess
import sys
import time
import unittest
import unittest.mock
from pathlib import Path

sys.path[:0] = [str(Path(__file__).resolve().parents[1])]

from batch.test_adopted import FZ, SAMPLES, Adopted  # noqa: E402
from fzfits.batch import files  # noqa: E402
from fzfits.batch.adopt.in_place import InPlace as OneFile, Place  # noqa: E402
from fzfits.batch.adopt.messages import Asked  # noqa: E402
from fzfits.batch.adopt.store import Store  # noqa: E402
from fzfits.batch.rooms import Rooms  # noqa: E402
from making import strange_faults  # noqa: E402

NAMES = ("a.fits", "n/b.fits", "table.fits")


class InPlace(Adopted):
    """Each test has a folder `night` with two plain images, and a file with nothing to pack."""

    def setUp(self) -> None:
        super().setUp()
        for it in self.night.rglob("*.f*"):
            it.unlink()
        for name, source in zip(NAMES, ("star_field.fits", "several.fits", "small.fits")):
            shutil.copy(SAMPLES / source, self.night / name)
            os.utime(self.night / name, (1_500_000_000, 1_500_000_000))
        # a primary HDU without data has nothing to pack
        (self.night / "table.fits").write_bytes((SAMPLES / "sums.fits").read_bytes()[:2880])
        (self.night / "a.fits").chmod(0o640)
        self.before = {name: ((self.night / name).read_bytes(), (self.night / name).stat().st_mode) for name in NAMES}

    def run_it(self, *words: object) -> "tuple[int, str]":
        more = ["--fz", FZ] if words[0] in ("pack", "restore", "retile") else []
        return super().run_it(*words, *more)

    def there(self) -> "set[str]":
        return {str(it.relative_to(self.night)) for it in self.night.rglob("*") if it.is_file()}

    def test_there_and_back(self) -> None:
        status, said = self.run_it("pack", "--beside", self.night)
        self.assertEqual((status, said.splitlines()[-1]), (0, "pack --beside: 3 files, 3 well (2 packed, 1 plain), 0 not well, 0 left out"))
        self.assertEqual(self.there(), {*NAMES, "a.fits.fz", "n/b.fits.fz"})
        status, said = self.run_it("pack", "--beside", self.night, "--delete")
        self.assertEqual((status, said.splitlines()[-1]), (0, "pack --beside: 3 files, 3 well (1 plain, 2 there), 0 not well, 0 left out"))
        self.assertEqual(self.there(), {"a.fits.fz", "n/b.fits.fz", "table.fits"})
        self.assertEqual(self.run_it("adopt", self.night)[0], 0)
        self.assertEqual(self.run_it("verify", self.night)[0], 0)
        self.assertEqual(self.run_it("restore", "--beside", self.night)[0], 0)
        self.assertEqual(self.run_it("restore", "--beside", self.night, "--delete")[0], 0)
        self.assertEqual(self.there(), set(NAMES))
        for name, (data, mode) in self.before.items():
            it = self.night / name
            self.assertEqual((it.read_bytes(), it.stat().st_mode, int(it.stat().st_mtime) if name != "table.fits" else 1_500_000_000), (data, mode, 1_500_000_000))
        self.assertEqual(self.run_it("adopt", self.night)[0], 0)

    def test_another_file_of_that_name_is_not_replaced(self) -> None:
        (self.night / "a.fits.fz").write_bytes(b"precious")
        status, said = self.run_it("pack", "--beside", self.night, "--delete")
        self.assertEqual(status, 1)
        self.assertIn("a.fits.fz is there, and is not this file packed", said)
        self.assertEqual((self.night / "a.fits.fz").read_bytes(), b"precious")
        self.assertTrue((self.night / "a.fits").exists())

    def test_a_file_of_fpack_is_taken_if_the_plain_file_comes_back(self) -> None:
        subprocess.run([FZ, "pack", "--tile", "32,32", self.night / "a.fits", self.night / "a.fits.fz"], check=True)
        there = (self.night / "a.fits.fz").read_bytes()
        self.assertEqual(self.run_it("pack", "--beside", self.night, "--delete")[0], 0)
        self.assertEqual((self.night / "a.fits.fz").read_bytes(), there)
        self.assertFalse((self.night / "a.fits").exists())

    def test_what_changed_is_not_removed(self) -> None:
        self.run_it("pack", "--beside", self.night)
        strange_faults.in_plain_data(self.night / "a.fits", None)
        status, said = self.run_it("pack", "--beside", self.night, "--delete")
        self.assertEqual(status, 1)
        self.assertIn("the plain file is another than the one that was packed", said)
        self.assertTrue((self.night / "a.fits").exists() and (self.night / "a.fits.fz").exists())
        status, said = self.run_it("restore", "--beside", self.night, "--delete")
        self.assertEqual(status, 1)
        self.assertTrue((self.night / "a.fits").exists() and (self.night / "a.fits.fz").exists())

    def test_only_the_file_that_was_adopted_is_packed(self) -> None:
        self.run_it("adopt", self.night)
        strange_faults.in_plain_data(self.night / "a.fits", None)
        os.utime(self.night / "a.fits", (1_500_000_000, 1_500_000_000))
        rotten = (self.night / "a.fits").read_bytes()
        for _ in range(2):
            status, said = self.run_it("pack", "--beside", self.night, "--delete")
            self.assertEqual(status, 1)
            self.assertIn("a.fits: the plain file is another than the one that was adopted", said)
            self.assertEqual((self.night / "a.fits").read_bytes(), rotten)
            self.assertFalse((self.night / "a.fits.fz").exists())
            self.assertEqual(self.run_it("verify", self.night)[0], 1)
        self.assertEqual(self.run_it("adopt", self.night, "--update", "--reread", "0")[0], 0)
        self.assertEqual(self.run_it("pack", "--beside", self.night, "--delete")[0], 0)

    def test_a_file_that_is_not_well_by_the_manifest_stays(self) -> None:
        shutil.copy(SAMPLES / "sums.fits", self.night / "wrong.fits")
        (self.night / "a.fits").rename(self.night / "other.fits")
        self.run_it("adopt", self.night)
        (self.night / "other.fits").rename(self.night / "a.fits")
        self.run_it("adopt", self.night)
        (self.night / "a.fits").rename(self.night / "third.fits")
        self.run_it("adopt", self.night)
        status, said = self.run_it("pack", "--beside", self.night, "--delete", "--accept-wrong-sums")
        self.assertEqual(status, 1)
        self.assertIn("third.fits: it is not well by the manifest", said)
        self.assertTrue((self.night / "third.fits").exists() and not (self.night / "third.fits.fz").exists())
        self.assertEqual(self.run_it("missing", self.night)[0], 1)

    def test_a_lost_packed_file_and_a_plain_one_that_changed(self) -> None:
        self.run_it("pack", "--beside", self.night)
        (self.night / "a.fits.fz").unlink()
        strange_faults.in_plain_data(self.night / "a.fits", None)
        status, said = self.run_it("pack", "--beside", self.night)
        self.assertEqual(status, 1)
        self.assertIn("the packed file is not there, and the plain file is another than the one that was packed", said)
        self.assertFalse((self.night / "a.fits.fz").exists())

    def test_what_changed_with_its_old_time_is_not_removed(self) -> None:
        it = self.night / "a.fits"
        self.run_it("pack", "--beside", self.night)
        for age in (0, 1_000_000):
            at = time.time_ns() - age * 1_000_000_000
            os.utime(it, ns=(at, at))
            changing = self.room / "fz"
            changes = f"import os; p = {str(it)!r}; to = open(p, 'r+b'); to.seek(3000); to.write(b'NEW'); to.close(); os.utime(p, ns=({at}, {at}))"
            changing.write_text(f"#!/bin/sh\n{shlex.quote(FZ)} \"$@\"; status=$?\nif [ $1 = unpack ]; then {shlex.quote(sys.executable)} -c {shlex.quote(changes)}; fi\nexit $status\n")
            changing.chmod(0o755)
            before = it.read_bytes()
            said = Adopted.run_it(self, "pack", "--beside", self.night, "--delete", "--fz", changing)[1]
            self.assertIn("a.fits: it, or the other file, changed since both were compared", said)
            self.assertEqual(it.read_bytes()[3000:3003], b"NEW")
            it.write_bytes(before)

    def test_two_runs_do_not_remove_both_halves(self) -> None:
        self.run_it("pack", "--beside", self.night)
        asked = Asked(os.fsencode(self.night), "0" * 16, FZ)
        one, other = (OneFile(asked, Place(b"", b"a.fits", 1), Rooms(asked.folder, asked.token), [], False) for _ in range(2))
        one.do("pack")
        other.did = one.did
        removes, said = files.remove, []

        def removing(name: bytes, above: "int | None" = None) -> None:
            # the other run is at the same place, under another manifest
            with unittest.mock.patch.object(files, "remove", removes):
                said.append(other.remove(b"a.fits.fz"))
            removes(name, above)

        with unittest.mock.patch.object(files, "remove", removing):
            self.assertTrue(one.remove(b"a.fits"))
        self.assertEqual((said, other.remove(b"a.fits.fz")), ([False], False))
        self.assertTrue((self.night / "a.fits.fz").exists())

    def test_a_time_that_is_too_near_is_not_trusted(self) -> None:
        it = self.night / "a.fits"
        it.write_bytes(it.read_bytes())
        one = OneFile(Asked(os.fsencode(self.night), "0" * 16, FZ), Place(b"", b"a.fits", 1), Rooms(os.fsencode(self.night), "0" * 16), ["--sums"], False)
        one.do("pack")
        looked = one.did.plain
        assert looked is not None
        it.write_bytes(it.read_bytes()[:-1] + b"1")
        found = it.stat()
        # as on a disk with times of two seconds
        one.did.plain = dataclasses.replace(looked, mtime=found.st_mtime_ns, ctime=found.st_ctime_ns)
        self.assertFalse(one.remove(b"a.fits"))
        self.assertTrue(it.exists())

    def test_neither_half_excuses_the_other_one(self) -> None:
        self.run_it("pack", "--beside", self.night)
        self.assertEqual((self.run_it("adopt", self.night)[0], self.run_it("missing", self.night)[0]), (0, 0))
        for it in ("a.fits", "a.fits.fz"):
            (self.night / it).unlink()
        for verb in ("missing", "status", "adopt"):
            status, said = self.run_it(verb, self.night)
            self.assertEqual(status, 1)
            for it in ("a.fits", "a.fits.fz"):
                self.assertIn(f"{it}: it is not there", said)

    def test_a_manifest_of_others_has_no_packed_file_removed(self) -> None:
        self.run_it("pack", "--beside", self.night)
        other = self.before["n/b.fits"][0]
        (self.night / "a.fits").write_bytes(other)
        with Store(os.fsencode(self.manifest)) as it:
            row = it.row(b"", b"a.fits.fz")
            assert row is not None
            row.made_of = json.dumps({**json.loads(row.made_of), "sha256": hashlib.sha256(other).hexdigest(), "size": len(other)})
            it.put(row)
        status, said = self.run_it("restore", "--beside", self.night, "--delete")
        self.assertEqual((status, "a.fits: what comes back is another file" in said, (self.night / "a.fits.fz").exists()), (1, True, True), said)

    def test_a_wrong_checksum_is_not_packed(self) -> None:
        shutil.copy(SAMPLES / "sums.fits", self.night / "wrong.fits")
        self.assertIn("wrong checksum in the plain file", self.run_it("pack", "--beside", self.night, "--delete")[1])
        self.assertTrue((self.night / "wrong.fits").exists() and not (self.night / "wrong.fits.fz").exists())

    def test_words_that_do_not_fit(self) -> None:
        for words in (["pack", self.night, "--delete"], ["pack", self.night, self.room / "x", "--beside"], ["pack", self.night, "--beside", "--update"], ["restore", self.night, "--beside"]):
            self.assertEqual(self.run_it(*words)[0], 2)
        self.assertEqual(self.there(), set(NAMES))

    def test_other_tiles_and_the_same_pixels(self) -> None:
        plain = self.room / "plain"
        shutil.copytree(self.night, plain)
        self.run_it("pack", "--beside", self.night, "--delete")
        before = (self.night / "a.fits.fz").read_bytes()
        status, said = self.run_it("retile", self.night, "--tile", "16,16", "--sums")
        self.assertEqual(status, 0)
        self.assertIn("retile: 2 files, 2 well (2 retiled)", said)
        self.assertIn("is not known", said)
        self.assertNotEqual((self.night / "a.fits.fz").read_bytes(), before)
        for verb in ("adopt", "verify", "status"):
            self.assertEqual(self.run_it(verb, self.night)[0], 0)
        status, said = self.run_it("compare", plain, self.night)
        self.assertEqual((status, said.splitlines()[-1]), (0, "compare: 3 files, 3 well (3 same), 0 not well, 0 left out"))
        self.assertIn("retile: 2 files, 2 well (2 there)", self.run_it("retile", self.night, "--tile", "16,16", "--sums")[1])
        self.assertEqual(self.run_it("restore", "--beside", self.night, "--delete")[0], 0)
        self.assertEqual((self.night / "a.fits").read_bytes(), self.before["a.fits"][0])

    def test_compare_names_what_differs(self) -> None:
        plain = self.room / "plain"
        shutil.copytree(self.night, plain)
        self.run_it("pack", "--beside", self.night, "--delete")
        self.assertEqual(self.run_it("adopt", self.night)[0], 0)
        strange_faults.in_plain_data(plain / "a.fits", None)
        (plain / "n" / "b.fits").unlink()
        status, said = self.run_it("compare", plain, self.night)
        self.assertEqual(status, 1)
        self.assertIn("HDU 0: the data of this HDU are not those of the plain file", said)
        self.assertIn("n/b.fits.fz: the plain file is not there", said)
        header = bytearray((SAMPLES / "star_field.fits").read_bytes())
        at = header.index(b"END     ")
        header[at : at + 80] = b"COMMENT another header".ljust(80)
        header[at + 80 : at + 83] = b"END"
        (plain / "a.fits").write_bytes(header)
        status, said = self.run_it("compare", plain, self.night, "--without-plain")
        self.assertEqual((status, said.splitlines()[-1]), (0, "compare: 3 files, 3 well (1 alone, 1 pixels, 1 same), 0 not well, 0 left out"))


if __name__ == "__main__":
    unittest.main()
