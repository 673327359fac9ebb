"""libfz in the place of astropy's codecs, and the codecs of numcodecs."""
import contextlib
import pickle
import unittest
import warnings
from pathlib import Path

from support import PACKED, SAMPLES, InAFolder, fits, imported, needs_library, needs_numpy, np

from fzfits import errors

plug = imported("fzfits.astropy") if np else None
numcodecs = imported("numcodecs") if np else None


def why_not():
    """Why astropy cannot take the plug, or None."""
    if not fits:
        return "astropy is not installed"
    try:
        plug.table()
    except plug.NotSupported as error:
        return f"its astropy has no classes of codecs: {error.what()}"
    return None


WHY_NOT = why_not()
needs_table = unittest.skipIf(WHY_NOT, WHY_NOT or "")


@contextlib.contextmanager
def plugged():
    plug.install()
    try:
        yield
    finally:
        plug.uninstall()


def pixels(path, hdu=1):
    with fits.open(path) as found:
        return found[hdu].data.copy()


@needs_numpy
@needs_library
class Plug(InAFolder):
    @unittest.skipUnless(fits and WHY_NOT, "this astropy has classes of codecs")
    def test_an_older_astropy(self):
        with self.assertRaises(plug.NotSupported) as caught:
            plug.install()
        self.assertIn("5.3", str(caught.exception))
        self.assertFalse(plug.is_installed())

    @needs_table
    def test_put_in_and_taken_out(self):
        before = dict(plug.table())
        with plugged():
            plug.install()
            self.assertTrue(plug.is_installed())
            self.assertTrue(issubclass(plug.table()["RICE_1"], before["RICE_1"]))
            self.assertIsNot(plug.table()["PLIO_1"], before["PLIO_1"])
        plug.uninstall()
        self.assertEqual(plug.table(), before)

    @needs_table
    def test_reads_what_fz_packs(self):
        plain = pixels(SAMPLES / "small.fits", 0)
        with plugged():
            self.assertTrue((pixels(PACKED / "small.rice.fits") == plain).all())

    @needs_table
    def test_writes_what_it_wrote(self):
        rng = np.random.default_rng(3)
        for codec, kind, high in (("RICE_1", "i2", 3000), ("RICE_1", "u1", 200), ("RICE_1", "i4", 70000), ("RICE_1", "u2", 60000), ("RICE_1", "f4", 9), ("PLIO_1", "i2", 3)):
            image = rng.integers(0, high, (60, 70)).astype(kind)
            self.write("own.fits", image, codec)
            with plugged():
                self.write("ours.fits", image, codec)
                ours = pixels("own.fits"), pixels("ours.fits")
            own = pixels("own.fits"), pixels("ours.fits")
            for it in (*ours, *own[1:]):
                self.assertTrue((it == own[0]).all(), (codec, kind))
            self.assertEqual(ours[0].dtype, own[0].dtype)

    def write(self, name, image, codec):
        with warnings.catch_warnings():
            warnings.simplefilter("ignore")
            hdu = fits.CompImageHDU(image, compression_type=codec, tile_shape=(16, 32))
            hdu.writeto(name, overwrite=True)

    @needs_table
    def test_numbers_that_plio_does_not_have(self):
        with plugged(), self.assertRaisesRegex(ValueError, "data out of range for PLIO compression"):
            plug.table()["PLIO_1"](tilesize=2).encode(np.array([3, -1], "i4"))

    @needs_table
    def test_a_damaged_tile_raises(self):
        image = np.tile(np.arange(64, dtype="i2"), (8, 1))
        for codec, byte, kinds in (("RICE_1", b"\xff", (21, 22)), ("PLIO_1", b"\xff", (23,))):
            self.write("hurt.fits", image, codec)
            with fits.open("hurt.fits", disable_image_compression=True) as found:
                heap = found[1]._data_offset + found[1]._theap
            data = bytearray(Path("hurt.fits").read_bytes())
            data[heap + 2 : heap + 12] = byte * 10
            Path("hurt.fits").write_bytes(data)
            with plugged(), self.assertRaises(errors.BadCode) as caught:
                pixels("hurt.fits")
            error = caught.exception
            self.assertIn(error.number, kinds)
            self.assertEqual({it.__name__ for it in type(error).__mro__} & {"CfitsioException", "ValueError"}, {"CfitsioException", "ValueError"})
            self.assertEqual(str(pickle.loads(pickle.dumps(error))), str(error))


@needs_numpy
@needs_library
@unittest.skipUnless(numcodecs, "numcodecs is not installed")
class Numcodecs(unittest.TestCase):
    def test_there_and_back(self):
        from fzfits.numcodecs import FzPlio, FzRice

        for kind, bytepix in (("u1", 1), ("i2", 2), ("i4", 4)):
            image = np.tile(np.arange(50, dtype=kind), 8)
            one = FzRice(400, bytepix)
            code = one.encode(image.reshape(20, 20))
            self.assertEqual(one.encode(image.tobytes()), code)
            self.assertLess(len(code), image.nbytes * 2)
            self.assertTrue((one.decode(code) == image).all())
            out = np.zeros(400, kind)
            one.decode(code, out)
            self.assertTrue((out == image).all())
            numcodecs.register_codec(FzRice)
            self.assertEqual(numcodecs.get_codec(one.get_config()).decode(code).tolist(), image.tolist())
        mask = np.repeat(np.arange(4, dtype="i4"), 100)
        self.assertTrue((FzPlio(400).decode(FzPlio(400).encode(mask)) == mask).all())
        with self.assertRaises(errors.BadCode):
            FzRice(400, 2).decode(b"123")


if __name__ == "__main__":
    unittest.main()
