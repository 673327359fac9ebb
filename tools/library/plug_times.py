"""How long astropy takes to decode a whole packed image, with libfz in the place of its codecs and without: in turns in one process,
seconds of a processor, the least of the turns."""
import io
import sys
import time
import warnings

import fzfits.astropy
import numpy as np
from astropy.io import fits

SIDE = 4096
TURNS = 7
TILES = {"rows": (1, SIDE), "squares of 64": (64, 64)}


def packed(tile):
    """A file of one image of 16 bits, of noise, packed by astropy."""
    pixels = (np.random.default_rng(1).normal(1000, 12, (SIDE, SIDE))).astype("i2")
    made = io.BytesIO()
    fits.HDUList([fits.PrimaryHDU(), fits.CompImageHDU(pixels, compression_type="RICE_1", tile_shape=tile)]).writeto(made)
    return made.getvalue(), pixels


def decoded(file):
    """The seconds of a processor to open a file and read its image, and the image."""
    start = time.process_time()
    with fits.open(io.BytesIO(file)) as found:
        pixels = found[1].data
    return time.process_time() - start, pixels


def main():
    warnings.simplefilter("ignore")
    for name, tile in TILES.items():
        file, pixels = packed(tile)
        least = {"libfz": np.inf, "astropy": np.inf}
        for _ in range(TURNS):
            for way in least:
                if way == "libfz":
                    fzfits.astropy.install()
                seconds, found = decoded(file)
                fzfits.astropy.uninstall()
                if not np.array_equal(found, pixels):
                    sys.exit(f"{name}: {way} decodes other pixels")
                least[way] = min(least[way], seconds)
        ratio = least["astropy"] / least["libfz"]
        print(f"{name}: {ratio:.2f} times as fast ({1000 * least['libfz']:.0f} and {1000 * least['astropy']:.0f} ms of a processor, {SIDE} x {SIDE} pixels of 16 bits)")


if __name__ == "__main__":
    main()
