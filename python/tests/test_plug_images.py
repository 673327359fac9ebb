"""Images of astropy whose tiles libfz decodes in one loop."""
import contextlib
import itertools
import unittest
import warnings
from pathlib import Path
from unittest import mock

from support import InAFolder, fits, needs_library, needs_numpy, np
from test_plug import needs_table, pixels, plug, plugged

from fzfits import codec, errors

images = plug.astropy_images if plug else None
SHAPES = (
    ((40,), (7,)), ((30, 20), (1, 20)), ((30, 20), (4, 20)), ((30, 20), (1, 6)), ((30, 20), (1, 5)), ((30, 20), (30, 3)), ((30, 20), (8, 6)),
    ((4, 9, 10), (1, 1, 10)), ((4, 9, 10), (1, 4, 10)), ((4, 9, 10), (1, 3, 5)), ((4, 9, 10), (3, 2, 4)), ((5, 1, 6), (2, 1, 4)),
    ((2, 3, 4, 5), (1, 2, 4, 2)), ((2, 3, 4, 5), (2, 3, 2, 5)),
)
MADE = ("RICE_1", "i2", 3000), ("RICE_1", "u1", 200), ("RICE_1", "i4", 70000), ("RICE_1", "u2", 60000), ("RICE_1", "u4", 1 << 31), ("PLIO_1", "i2", 3)


def boxes(shape, tile):
    """The box of each tile, in their order."""
    return itertools.product(*[[slice(at, at + side) for at in range(0, length, side)] for length, side in zip(shape, tile)])


def asked(numbers, tile, kind, bytepix=4):
    """What is asked for, if these numbers are coded in such tiles, and what keeps the codes."""
    codes = [np.frombuffer(codec.rice_encode(numbers[it], bytepix), "u1") for it in boxes(numbers.shape, tile)]
    coded = images.coded_of("RICE_1", {"bytepix": bytepix, "blocksize": 32})
    return images.Asked(numbers.shape, tile, np.dtype(kind), coded, iter([(it.ctypes.data, it.size) for it in codes])), codes


@needs_numpy
class Fused(unittest.TestCase):
    def test_same_numbers_in_the_same_tiles(self):
        for shape, tile in SHAPES:
            image = np.arange(np.prod(shape)).reshape(shape)
            lengths, sides = images.fused(shape, tile)
            one, two = ([array[it].ravel().tolist() for it in boxes(array.shape, of)] for array, of in ((image, tile), (image.reshape(lengths), sides)))
            self.assertEqual(one, two, (shape, tile))

    def test_fewest_axes(self):
        self.assertEqual(images.fused((4096, 4096), (1, 4096)), ([1 << 24], [4096]))
        self.assertEqual(images.fused((4096, 4096), (64, 64)), ([4096, 4096], [64, 64]))
        self.assertEqual(images.fused((10, 4096, 4096), (1, 64, 64)), ([40960, 4096], [64, 64]))


@needs_numpy
@needs_library
class Decoded(unittest.TestCase):
    def test_each_shape_and_type(self):
        rng = np.random.default_rng(5)
        for (shape, tile), (kind, high), most in itertools.product(SHAPES, (("u1", 256), ("i2", 9000), ("i4", 1 << 30)), (1, 50, 1 << 16)):
            image = rng.integers(0, high, shape).astype(kind)
            what, _codes = asked(image, tile, kind)
            with mock.patch.object(images, "MOST_NUMBERS", most):
                found = images.decoded(what, plug.raise_damaged)
            self.assertEqual(found.dtype, image.dtype)
            self.assertEqual(found.tolist(), image.tolist(), (shape, tile, kind, most))

    def test_bytes_have_no_sign(self):
        image = np.arange(256, dtype="u1").reshape(16, 16)
        what, _codes = asked(image, (1, 16), "i2", bytepix=1)
        self.assertEqual(images.decoded(what, plug.raise_damaged).tolist(), image.tolist())

    def test_the_first_damaged_tile_raises(self):
        image = np.arange(64, dtype="i4").reshape(8, 8)
        what, codes = asked(image, (1, 8), "i4")
        broken = what._replace(codes=iter([(it.ctypes.data, it.size if at < 3 else 2) for at, it in enumerate(codes)]))
        with self.assertRaises(errors.BadCode):
            images.decoded(broken, plug.raise_damaged)
        self.assertEqual(next(broken.codes), (codes[4].ctypes.data, 2))


@contextlib.contextmanager
def counted():
    """Counts the images and sections that are decoded in one loop, however few tiles they have."""
    with mock.patch.object(images, "decoded", side_effect=images.decoded) as loop, mock.patch.object(images, "FEWEST_TILES", 1), plugged():
        yield loop


@needs_numpy
@needs_library
@needs_table
class Images(InAFolder):
    def write(self, image, tile, compression="RICE_1", **more):
        with warnings.catch_warnings():
            warnings.simplefilter("ignore")
            fits.CompImageHDU(image, compression_type=compression, tile_shape=tile, **more).writeto("tiles.fits", overwrite=True)

    def both(self, is_ours, *more):
        """What astropy makes of an image and of a section, with libfz and by itself."""
        def read():
            found = []
            for memmap in (None, False):
                with fits.open("tiles.fits", memmap=memmap) as file:
                    data = file[1].data
                    found += [data, file[1].section[tuple(slice(length // 3, length - length // 4) for length in data.shape)], file[1].section[0]]
            return found

        own = read()
        with counted() as loop:
            ours = read()
        self.assertEqual(loop.call_count, len(own) if is_ours else 0, more)
        for one, two in zip(own, ours):
            self.assertEqual((np.asarray(one).dtype.str, np.shape(one)), (np.asarray(two).dtype.str, np.shape(two)), more)
            self.assertTrue(np.array_equal(one, two, equal_nan=one.dtype.kind == "f"), more)

    def test_the_same_arrays(self):
        rng = np.random.default_rng(3)
        for shape, tile in SHAPES:
            for compression, kind, high in MADE:
                self.write(rng.integers(0, high, shape).astype(kind), tile, compression)
                self.both(True, shape, tile, compression, kind)

    def test_what_is_left_to_astropy(self):
        rng = np.random.default_rng(4)
        for compression, kind in (("RICE_1", "f4"), ("GZIP_1", "i2"), ("GZIP_2", "i4"), ("HCOMPRESS_1", "i2")):
            self.write(rng.integers(0, 99, (20, 30)).astype(kind), (10, 10), compression)
            self.both(False, compression, kind)

    def test_undefined_pixels(self):
        image = np.tile(np.arange(20, dtype="i2"), (20, 1))
        for blank, is_ours in ((7, True), (-32768, True), (70000, False)):
            self.write(image, (1, 20))
            self.card("ZBLANK", blank)
            with warnings.catch_warnings():
                warnings.simplefilter("ignore")
                if is_ours:
                    self.both(True, blank)
                else:
                    with counted() as loop, contextlib.suppress(OverflowError):
                        pixels("tiles.fits")
                    self.assertFalse(loop.called)

    def card(self, name, value):
        """Puts a card into the header of the table."""
        with fits.open("tiles.fits", disable_image_compression=True) as file:
            file[1].header[name] = value
            file.writeto("other.fits", overwrite=True)
        Path("other.fits").replace("tiles.fits")

    def test_a_few_tiles(self):
        self.write(np.zeros((40, 40), "i2"), (8, 8))
        with counted() as loop, mock.patch.object(images, "FEWEST_TILES", 16), fits.open("tiles.fits") as file:
            for box, count in (((slice(0, 17), slice(0, 40)), 0), ((slice(0, 25), slice(0, 40)), 1)):
                self.assertFalse(file[1].section[box].any())
                self.assertEqual(loop.call_count, count)

    def hurt(self, at, data):
        """Writes bytes after the header of the table."""
        with fits.open("tiles.fits", disable_image_compression=True) as file:
            at += file[1]._data_offset
        whole = bytearray(Path("tiles.fits").read_bytes())
        whole[at : at + len(data)] = data
        Path("tiles.fits").write_bytes(whole)

    def told(self):
        """What comes of the image and of a section: the pixels, or the error and its text."""
        said = []
        for read in (lambda file: file[1].data, lambda file: file[1].section[2:9]):
            with fits.open("tiles.fits") as file:
                try:
                    said.append(read(file).tolist())
                except Exception as error:
                    said.append((type(error).__name__, str(error)))
        return said

    def test_the_same_errors(self):
        image = np.tile(np.arange(32, dtype="i2"), (12, 1))
        for compression in ("RICE_1", "PLIO_1"):
            heap = 8 * len(image)
            for at, data, is_ours in ((heap + 2, b"\xff" * 400, True), (8 * 3, b"\0" * 4, False), (8 * 3 + 4, b"\0\1\0\0", False), (8 * 3, b"\0\1\0\0", False)):
                self.write(image, (1, 32), compression)
                self.hurt(at, data)
                with mock.patch.object(images, "is_known", return_value=False), plugged():
                    now = self.told()
                with counted() as loop:
                    self.assertEqual(self.told(), now)
                self.assertEqual(loop.call_count, 2 if is_ours else 0)
                self.assertTrue(not is_ours or now[0][0] == "DamagedTile")

    def test_a_descriptor_that_leads_before_the_file(self):
        image = np.tile(np.arange(32, dtype="i2"), (12, 1))
        before = "DescriptorRange", "DescriptorRange"
        for start, texts in ((b"\x7f\xff\xff\xff", ("CodeShort", "buffer is too small")), (b"\xff\xff\xff\xf0", before), (b"\x80\0\0\0", before)):
            self.write(image, (1, 32))
            self.hurt(8 * 3 + 4, start)
            for fewest in (1, 16):
                with plugged(), mock.patch.object(images, "FEWEST_TILES", fewest):
                    for text, (_, said) in zip(texts, self.told()):
                        self.assertIn(text, said)

    def test_a_heap_after_byte_2_to_the_31(self):
        found = []
        own = mock.Mock(side_effect=lambda hdu, size, offset, *more: found.append((type(offset), 2 * 10**9 + offset)))
        with mock.patch.object(plug.home(), images.RECORD, own):
            images.record_over(plug.home(), plug.raise_damaged)(None, np.int32(5), np.int32(2 * 10**9), np.uint8)
        self.assertEqual(found, [(int, 4 * 10**9)])

    def test_put_in_and_taken_out(self):
        from astropy.io.fits.hdu.compressed import section

        before = getattr(section, images.NAME), getattr(plug.home(), images.NAME)
        with plugged():
            self.assertIsNot(getattr(section, images.NAME), before[0])
            self.assertIs(getattr(section, images.NAME), getattr(plug.home(), images.NAME))
            plug.install()
        self.assertEqual((getattr(section, images.NAME), getattr(plug.home(), images.NAME)), before)

    def test_another_astropy(self):
        for change in (mock.patch.object(images, "NAME", "decompress"), mock.patch.object(images, "ARGUMENTS", ["hdu"]), mock.patch.object(images, "HELPERS", ("_none",))):
            with change, plugged():
                self.assertTrue(plug.is_installed())
                self.assertFalse(plug._READERS)


if __name__ == "__main__":
    unittest.main()
