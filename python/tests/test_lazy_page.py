"""docs/LAZY.md: its blocks run one after another and print what is below them, and its pictures are those that it makes."""
import contextlib
import io
import os
import re
import unittest
from pathlib import Path

from support import SAMPLES, TOP, InAFolder, imported, needs_library, needs_program, np

PAGE = TOP / "docs" / "LAZY.md"
BLOCK = re.compile(r"^```(python|text)\n(.*?)^```$", re.S | re.M)
WANTED = ("numpy", "matplotlib", "dask.array", "xarray", "fsspec")
MISSING = [it for it in WANTED if not imported(it)]
# So many steps of grey may a pixel of a picture differ in, on average: fonts differ.
STEPS = 12


@needs_program
@needs_library
@unittest.skipIf(MISSING, f"{', '.join(MISSING)} is not installed")
class Page(InAFolder):
    def test_blocks_print_what_is_below_them(self):
        Path("samples").symlink_to(SAMPLES)
        blocks, names = BLOCK.findall(PAGE.read_text(encoding="utf-8")), {}
        self.assertGreater(len(blocks), 10)
        for (kind, text), after in zip(blocks, [*blocks[1:], ("", "")]):
            if kind == "python":
                said = io.StringIO()
                with contextlib.redirect_stdout(said):
                    exec(compile(text, "docs/LAZY.md", "exec"), names)  # pylint: disable=exec-used
                with self.subTest(block=text):
                    self.assertEqual(said.getvalue(), after[1] if after[0] == "text" else "")
        if os.environ.get("FZ_PICTURES"):
            for it in Path(".").glob("lazy_*.png"):
                (TOP / "docs" / it.name).write_bytes(it.read_bytes())
        self.pictures()

    def pictures(self):
        """The pictures beside the page show what the page makes."""
        from matplotlib import image

        made = sorted(it.name for it in Path(".").glob("lazy_*.png"))
        self.assertEqual(made, sorted(it.name for it in (TOP / "docs").glob("lazy_*.png")))
        for it in made:
            here, kept = (np.asarray(image.imread(str(folder / it)))[..., :3] for folder in (Path("."), TOP / "docs"))
            self.assertEqual(here.shape, kept.shape)
            self.assertLess(255 * float(np.abs(here - kept).mean()), STEPS, it)


if __name__ == "__main__":
    unittest.main()
