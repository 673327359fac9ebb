"""A plugin of pytest (`-p plugged`): libfz is in the place of astropy's codecs, and is used; images and sections of any number of tiles go to one
loop. It says how often."""
import sys
from pathlib import Path

sys.path.insert(0, str(Path(__file__).resolve().parents[2] / "python"))
import fzfits.astropy  # noqa: E402  # pylint: disable=wrong-import-position
from fzfits import astropy_images, codec  # noqa: E402  # pylint: disable=wrong-import-position

CALLS = {"rice_decode": codec, "rice_encode": codec, "plio_decode": codec, "plio_encode": codec, "decoded": astropy_images}
COUNTS = dict.fromkeys(CALLS, 0)


def counted(name):
    """The call of fzfits, which is counted."""
    call = getattr(CALLS[name], name)

    def made(*given, **more):
        COUNTS[name] += 1
        return call(*given, **more)

    return made


def pytest_configure(config):
    for name, module in CALLS.items():
        setattr(module, name, counted(name))
    astropy_images.FEWEST_TILES = 1
    fzfits.astropy.install()


def pytest_terminal_summary(terminalreporter):
    *codes, (_, images) = COUNTS.items()
    terminalreporter.write_line("calls of libfz: " + ", ".join(f"{name} {count}" for name, count in codes) + f"; and {images} images or sections in one loop")
