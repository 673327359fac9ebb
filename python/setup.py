"""What pyproject.toml cannot say.

A wheel has the program fz, its manuals and its list of parts if the folder `along` is beside this file, with what goes into bin/
and share/ of the Python that installs the wheel (`tools/package wheel` makes it). It is then a wheel for one platform, whose tag
is FZFITS_PLATFORM. And a page of the package has its one home above this folder: a build takes it from there.
"""
import os
import shutil
from pathlib import Path

from setuptools import Distribution, setup
from setuptools.command.build_py import build_py
from setuptools.command.sdist import sdist
from wheel.bdist_wheel import bdist_wheel

HERE = Path(__file__).resolve().parent
ALONG = HERE / "along"
# What each kind of rejection means. A source archive has it in its place, and the repository among its documents.
REFUSALS = Path("fzfits", "REFUSALS.md")
PAGE = HERE / REFUSALS if (HERE / REFUSALS).is_file() else HERE.parent / "docs" / "REFUSALS.md"


def along():
    """The files that are no modules: pairs of a folder below that of Python and the files in it."""
    folders = sorted(it for it in ALONG.rglob("*") if it.is_dir())
    pairs = ((str(it.relative_to(ALONG)), sorted(str(file.relative_to(HERE)) for file in it.iterdir() if file.is_file())) for it in folders)
    return [(folder, files) for folder, files in pairs if files]


class Package(Distribution):
    """For one platform if a program is in it."""

    def has_ext_modules(self):
        return ALONG.is_dir()


class Modules(build_py):
    """With the page."""

    def run(self):
        super().run()
        shutil.copyfile(PAGE, Path(self.build_lib) / REFUSALS)


class Wheel(bdist_wheel):
    """For every Python 3."""

    def get_tag(self):
        return ("py3", "none", os.environ["FZFITS_PLATFORM"]) if ALONG.is_dir() else super().get_tag()


class Sources(sdist):
    """With the page."""

    def make_release_tree(self, base_dir, files):
        super().make_release_tree(base_dir, files)
        shutil.copyfile(PAGE, Path(base_dir) / REFUSALS)


setup(distclass=Package, data_files=along(), cmdclass={"build_py": Modules, "bdist_wheel": Wheel, "sdist": Sources})
