"""The wheel: what is in it, and that pip installs it without a network."""
import re
import shutil
import subprocess
import sys
import tarfile
import unittest
import zipfile
from unittest import mock

from support import TOP, InAFolder

sys.path.insert(0, str(TOP / "python"))
import fzfits  # noqa: E402
from fzfits import version  # noqa: E402


def runs(*words, **more):
    return subprocess.run([sys.executable, *words], stdin=subprocess.DEVNULL, capture_output=True, check=False, text=True, **more)


BUILDS = runs("-c", "import setuptools, wheel, sys; sys.exit(int(setuptools.__version__.split('.')[0]) < 61)").returncode == 0
HAS_PIP = runs("-m", "pip", "--version").returncode == 0
# What a build leaves in its folder.
MADE = shutil.ignore_patterns("__pycache__", "build", "*.egg-info")


@unittest.skipUnless(BUILDS, "setuptools (61 or later) or wheel is not installed")
class Wheel(InAFolder):
    def setUp(self):
        super().setUp()
        # a build writes into the folder of its sources
        self.sources = self.folder / "top" / "python"
        shutil.copytree(TOP / "python", self.sources, ignore=MADE, symlinks=True)
        (self.folder / "top" / "docs").mkdir()
        shutil.copy(TOP / "docs" / "REFUSALS.md", self.folder / "top" / "docs")
        shutil.copy(TOP / "LICENSE", self.folder / "top")

    def built(self, what, sources, room):
        code = f"import setuptools.build_meta as it, sys; print(it.build_{what}(sys.argv[1]))"
        ended = runs("-c", code, str(self.folder / room), cwd=sources)
        self.assertEqual(ended.returncode, 0, ended.stderr)
        return self.folder / room / ended.stdout.splitlines()[-1]

    def test_what_is_in_it(self):
        made = self.built("wheel", self.sources, "made")
        self.assertEqual(made.name, f"fzfits-{fzfits.__version__}-py3-none-any.whl")
        with zipfile.ZipFile(made) as wheel:
            files = {it: wheel.read(it) for it in wheel.namelist()}
        stem = f"fzfits-{fzfits.__version__}.dist-info"
        self.assertEqual(files["fzfits/REFUSALS.md"], (TOP / "docs" / "REFUSALS.md").read_bytes())
        self.assertEqual(files[f"{stem}/LICENSE"], (TOP / "LICENSE").read_bytes())
        self.assertIn(b"fzbatch = fzfits.batch.__main__:main", files[f"{stem}/entry_points.txt"])
        self.assertIn(b"[xarray.backends]\nfz = fzfits.xarray:FzBackend", files[f"{stem}/entry_points.txt"])
        self.assertIn(b"Requires-Python: >=3.9\n", files[f"{stem}/METADATA"])
        self.assertNotRegex(files[f"{stem}/METADATA"].decode(), r"(?m)^Requires-Dist: (?!.*extra ==)")
        modules = {str(it.relative_to(TOP / "python")) for it in (TOP / "python" / "fzfits").rglob("*.py")}
        self.assertEqual({it for it in files if it.endswith(".py")}, modules)
        self.assertIn("fzfits/py.typed", files)

    def test_a_source_archive_builds_the_same_modules(self):
        first = self.built("wheel", self.sources, "made")
        with tarfile.open(self.built("sdist", self.sources, "made")) as archive:
            self.assertFalse([it.name for it in archive if it.issym()])
            archive.extractall("source")
        again = self.built("wheel", self.folder / "source" / f"fzfits-{fzfits.__version__}", "again")
        with zipfile.ZipFile(first) as one, zipfile.ZipFile(again) as other:
            # the list of files has the times in no place, so it is the same too
            self.assertEqual({it: one.read(it) for it in one.namelist()}, {it: other.read(it) for it in other.namelist()})

    @unittest.skipUnless(HAS_PIP, "pip is not installed")
    def test_pip_installs_it(self):
        ended = runs("-m", "pip", "install", "--quiet", "--no-index", "--no-build-isolation", "--target", str(self.folder / "room"), str(self.sources))
        self.assertEqual(ended.returncode, 0, ended.stderr)
        said = runs("-c", "import fzfits; print(fzfits.__file__, len(fzfits.refusals.kinds()))", cwd=self.folder / "room").stdout
        self.assertTrue(re.match(re.escape(str(self.folder / "room")), said), said)
        self.assertGreaterEqual(int(said.split()[-1]), 29)
        self.assertTrue((self.folder / "room" / "bin" / "fzbatch").exists())


class Versions(unittest.TestCase):
    def test_versions_are_one(self):
        self.assertEqual((TOP / "VERSION").read_text(encoding="ascii").strip(), fzfits.__version__)

    def test_the_commit_is_that_of_the_file(self):
        for text, said in (("", "commit not known"), ("0123456789abcdef0123456789abcdef01234567", "commit 0123456789ab"), ("0123456789abcdef0123456789abcdef01234567 and changes", "commit 0123456789ab and changes")):
            with mock.patch.object(version, "commit", lambda text=text: text):
                self.assertEqual(version.shown("fzfits"), f"fzfits {fzfits.__version__} ({said})")


def load_tests(loader, tests, _pattern):
    """The examples in the modules are tests too."""
    import doctest

    from fzfits import advice, boxes, memory, readers, refusals, sums

    for it in (fzfits, advice, boxes, memory, readers, refusals, sums):
        tests.addTests(doctest.DocTestSuite(it))
    return tests


if __name__ == "__main__":
    unittest.main()
