"""References to the tiles of packed files: what zarr reads by them is what open gives, also of short tiles and of stored ones."""
import json
import unittest
from pathlib import Path

from support import SAMPLES, InAFolder, imported, needs_library, needs_numpy, needs_program, np

import fzfits

zarr = imported("zarr")
fsspec = imported("fsspec")
numcodecs = imported("numcodecs")


@needs_numpy
@needs_program
@needs_library
@unittest.skipUnless(zarr and fsspec and numcodecs, "zarr, fsspec or numcodecs is not installed")
class References(InAFolder):
    def setUp(self):
        super().setUp()
        from fzfits.numcodecs import FzPlio, FzRice
        from numcodecs.registry import register_codec

        register_codec(FzRice)
        register_codec(FzPlio)

    def read(self, path):
        """The arrays of the file by zarr, by name."""
        found = json.loads(json.dumps(fzfits.references(path)))
        group = zarr.open(fsspec.filesystem("reference", fo=found).get_mapper(""), "r")
        return {name: group[name] for name in group}, found["refs"]

    def test_images_of_a_file(self):
        fzfits.pack(SAMPLES / "several.fits", "packed.fits", tile=(20, 10))
        arrays, refs = self.read("packed.fits")
        self.assertEqual(sorted(arrays), ["DQ", "ERR", "SCI"])
        with fzfits.open("packed.fits", raw=True) as file:
            for name, it in arrays.items():
                self.assertEqual((it.chunks, it.shape), ((10, 20), (48, 64)))
                self.assertTrue(np.array_equal(it[...], file[name][...]), name)
                self.assertTrue(np.array_equal(it[5:31, 7:44:3], file[name][5:31, 7:44:3]), name)
            self.assertEqual(arrays["SCI"].attrs["BZERO"], 32768)
        self.assertGreater(sum(isinstance(it, list) for it in refs.values()), 20)

    def test_codecs_axes_and_stored_tiles(self):
        rng = np.random.default_rng(3)
        noise = rng.integers(-(2**31), 2**31, (9, 14, 11)).astype("i4")
        flags = (rng.random((20, 30)) < 0.2).astype("u1")
        for number, (array, options) in enumerate(((noise, {"tile": (5, 4, 2)}), (flags, {"codec": "plio", "tile": (8, 8)}), (flags.astype("i2"), {"codec": "none"}), (noise[0] // 2**20, {"tile": (4, 4)}), (flags.astype("i8"), {"tile": (7, 7)}))):
            path = f"{number}.fits"
            fzfits.write(path, array, **options)
            arrays, _ = self.read(path)
            self.assertTrue(np.array_equal(arrays["HDU1"][...], array), path)

    def test_a_url_and_bytes(self):
        fzfits.pack(SAMPLES / "star_field.fits", "packed.fits")
        raw = Path("packed.fits").read_bytes()
        found = fzfits.references(raw, url="s3://bucket/packed.fits")["refs"]
        self.assertEqual(found["HDU1/0.0"][0], "s3://bucket/packed.fits")
        with self.assertRaises(ValueError):
            fzfits.references(raw)


if __name__ == "__main__":
    unittest.main()
