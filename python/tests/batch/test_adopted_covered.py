"""Files that no manifest of an adopted folder has are named: behind links, and those of a manifest that was lost. Each class is one find."""
from __future__ import annotations

import json
import resource
import shutil
import sys
import unittest
from pathlib import Path

sys.path[:0] = [str(Path(__file__).resolve().parents[1])]

from batch.test_adopted_called_well import Whole  # noqa: E402
from batch.test_adopted_kept import write  # noqa: E402
from batch.two_files import image  # noqa: E402


class OnlyByALink(Whole):
    """A link to a file of the folder that is adopted by no name of its own is never left out, as in a store of git-annex."""

    def setUp(self) -> None:
        super().setUp()
        (self.night / ".store").mkdir()
        (self.night / ".store" / "0001").write_bytes(image(3))

    def test_it_is_named(self) -> None:
        (self.night / "c.fits").symlink_to(".store/0001")
        for words in (("adopt", "--skip-links"), ("missing",), ("status",), ("verify",), ("report", "-o", self.room / "r.html"), ("compare", self.night)):
            verb, *more = words
            said = "r.html" if verb == "report" else "c.fits: is a symbolic link to a file of this folder whose name is not that of a FITS file"
            self.named(said, verb, *more, self.night)

    def test_links_that_lose_nothing(self) -> None:
        (self.night / ".store" / "0002.fits").write_bytes(image(4))
        (self.night / "c.fits").symlink_to(".store/0002.fits")
        (self.night / "d.fits").symlink_to(self.room / "elsewhere.fits")
        (self.night / "e").symlink_to(".store")
        self.assertEqual(self.run_it("adopt", "--skip-links", self.night)[0], 0)
        self.assertEqual(self.run_it("missing", self.night)[0], 0)


class SeveralManifests(Whole):
    """Three folders of `top`, with their manifests in `many`."""

    def setUp(self) -> None:
        super().setUp()
        self.top, self.many = self.room / "top", self.room / "many"
        self.many.mkdir()
        for name in ("one", "two", "three"):
            (self.top / name).mkdir(parents=True)
            (self.top / name / "a.fits").write_bytes(image(len(name)))
            self.assertEqual(self.run_it("adopt", self.top / name, "--manifest", self.many / f"{name}.sqlite")[0], 0)

    def each(self, status: int, said: str) -> None:
        for verb, *more in (("status",), ("missing",), ("report", "-o", self.room / "r.html")):
            found, text = self.run_it(verb, self.top, "--manifest", self.many, *more)
            page = (self.room / "r.html").read_text() if status < 2 and more else ""
            self.assertEqual((found, said in text + page), (status, True), f"{verb}: {text}{page}")


class LostManifest(SeveralManifests):
    """A manifest that is lost is an error, if its second copy or its list is beside it: its folder may be gone too."""

    def lose(self, name: str, *kept: str) -> None:
        shutil.rmtree(self.top / name)
        for it in self.many.glob(f"{name}.sqlite*"):
            if it.name not in kept:
                it.unlink()

    def test_its_copy_is_there(self) -> None:
        self.lose("two", "two.sqlite.copy")
        self.each(2, "many/two.sqlite is not there, and its second copy is")
        self.lose("one")
        (self.many / "three.sqlite").unlink()
        self.each(2, "is not there, and its second copy is")

    def test_its_list_is_there(self) -> None:
        self.lose("two", "two.sqlite.SHA256SUMS")
        self.each(2, "many/two.sqlite is not there, and its list for sha256sum is")

    def test_all_but_one_were_taken_away(self) -> None:
        self.lose("two")
        self.each(0, "")
        self.lose("three")
        self.each(0, "")
        (self.top / "new").mkdir()
        (self.top / "new" / "b.fits").write_bytes(image(9))
        self.each(1, "new: 1 files are in no manifest that was named")


class ManyManifests(SeveralManifests):
    """They are opened one after another, and each once."""

    def test_more_than_a_process_may_have_open(self) -> None:
        for number in range(40):
            folder = self.top / f"{number}"
            folder.mkdir()
            (folder / "a.fits").write_bytes(image(number))
            self.assertEqual(self.run_it("adopt", folder, "--manifest", self.many / f"{number}.sqlite")[0], 0)
        limits = resource.getrlimit(resource.RLIMIT_NOFILE)
        resource.setrlimit(resource.RLIMIT_NOFILE, (40, limits[1]))
        self.addCleanup(resource.setrlimit, resource.RLIMIT_NOFILE, limits)
        self.each(0, "")

    def test_one_that_is_named_twice(self) -> None:
        status, said = self.run_it("status", self.top / "one", "--manifest", self.many / "one.sqlite", "--manifest", self.many / "one.sqlite")
        self.assertEqual((status, said.count("status: 1 file")), (0, 1))

    def test_each_path_begins_with_its_folder(self) -> None:
        write(self.top / "two" / "a.fits", image(7))
        (self.top / "two" / "b.fits").symlink_to(self.room)
        self.each(1, "two")
        for wanted in ("two/a.fits: it has another length or time", "two/b.fits: is a symbolic link"):
            self.named(wanted, "missing", self.top, "--manifest", self.many)
        page = (self.room / "r.html").read_text()
        self.assertIn("two/a.fits", page)
        self.assertIn("Left out: two/b.fits", page)
        said = self.run_it("status", "--json", self.top, "--manifest", self.many)[1]
        self.assertEqual(sorted(json.loads(it)["folder"] for it in said.splitlines()), ["one", "three", "two"])


if __name__ == "__main__":
    unittest.main()
