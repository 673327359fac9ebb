"""Parts of packed images by fzfits.open: a thousand boxes with steps, beside astropy and `fz cut`, of files of fz, fpack, astropy and fitsio, and of damaged ones."""
import random
import shutil
import subprocess
import unittest
import warnings
from pathlib import Path
from unittest import mock

from support import InAFolder, fits, imported, needs_astropy, needs_library, needs_program, np
from making import damage
from making.fits import hdus_of

import fzfits
from fzfits import arrays, boxes, errors, library
from fzfits.opening import by_library, by_python, file as opening

fitsio = imported("fitsio")
BOXES = 1000
DAMAGED = 20
HAS_FPACK = shutil.which("fpack") is not None


def bodies():
    """The layers that this libfz has: that over headers read in Python, and that over the calls for packed images."""
    found = {"python": by_python.ByPython()}
    try:
        found["library"] = by_library.ByLibrary(library.load())
    except AttributeError:
        pass
    return found


def key_of(rng, shape):
    """Slices with steps, some of them down, and some numbers; never empty."""
    key = []
    for length in shape:
        low = rng.randrange(length)
        high = rng.randint(low + 1, length)
        step = rng.choice((1, 1, 1, 2, 3, 7, 40))
        key.append(rng.choice((slice(low, high, step), slice(low, high, step), slice(high - 1, low - 1 if low else None, -step), low)))
    return tuple(key)


def sky(rng, kind, shape):
    """Pixels of a type: a sky with noise, some bright pixels, and some at the ends of the range."""
    many, info = int(np.prod(shape)), np.iinfo(kind)
    found = np.array([round(rng.gauss(100, 6)) for _ in range(many)], "i8")
    for _ in range(max(1, many // 50)):
        found[rng.randrange(many)] = rng.choice((info.min, info.max if info.max < 1 << 40 else 1 << 40, rng.randrange(200)))
    return np.clip(found, info.min, info.max).astype(kind).reshape(shape)


class Packers:
    """A file of each packer that is installed, with the number of the HDU."""

    def __init__(self, rng):
        self.rng, self.count = rng, 0

    def plain(self, kind, shape):
        """A plain file with an image of this type in its primary HDU."""
        name = f"plain{self.count}.fits"
        self.count += 1
        fits.PrimaryHDU(sky(self.rng, kind, shape)).writeto(name)
        return name

    def files(self):
        """The packed files."""
        for kind, shape, tile, codec in (("u2", (40, 60), None, "rice"), ("i2", (40, 60), (16, 16), "rice"), ("i4", (9, 14, 11), (5, 4, 2), "rice"), ("i8", (12, 9), (4, 4), None), ("u1", (30, 31), (7, 9), "rice"), ("u1", (20, 50), (50, 4), "plio"), ("i2", (33, 20), None, "none")):
            fzfits.pack(self.plain(kind, shape), f"fz{self.count}.fits", tile=tile, codec=codec)
            yield f"fz{self.count}.fits", 1
        for kind, words in (("u2", ["-r"]), ("i4", ["-r", "-t", "16,16"]), ("i2", ["-r", "-w"]), ("u1", ["-r"])) if HAS_FPACK else ():
            name = self.plain(kind, (40, 60))
            subprocess.run(["fpack", *words, "-O", f"fpack{self.count}.fits", name], check=True, capture_output=True)
            yield f"fpack{self.count}.fits", 1
        for kind in ("i2", "i4", "u1"):
            name = f"astropy{kind}.fits"
            fits.HDUList([fits.PrimaryHDU(), fits.CompImageHDU(sky(self.rng, kind, (40, 60)), name="SCI")]).writeto(name)
            yield name, 1
        for kind, tile in (("i2", None), ("i4", [20, 20]), ("u1", None)) if fitsio else ():
            name = f"fitsio{kind}.fits"
            with fitsio.FITS(name, "rw") as file:
                file.write(sky(self.rng, kind, (40, 60)), compress="RICE", tile_dims=tile)
            yield name, 1


def by_open(path, hdu, key, workers=1):
    """The stored numbers that open gives, or what it refuses."""
    try:
        with fzfits.open(path, raw=True, workers=workers) as file:
            return file[hdu].section[key]
    except errors.Refused as error:
        return error.kind, error.number, error.hdu, str(error.place)


def by_cut(path, hdu, key, axes):
    """The same by `fz cut`, of an image with these axes."""
    pieces = boxes.of_numpy(key, axes)
    box = [(it.first, it.last, it.step) for it in pieces]
    try:
        fzfits.cut(path, "part.fits", box, hdu=hdu)
    except errors.Refused as error:
        return error.kind, error.number, error.hdu, str(error.place)
    found = arrays.stored("part.fits")
    Path("part.fits").unlink()
    return found[tuple(0 if it.drop else slice(None, None, -1 if it.back else 1) for it in pieces[::-1])]


def is_same(one, other):
    """Whether both are the same numbers of one type, or the same refusal."""
    if isinstance(one, tuple) or isinstance(other, tuple):
        return one == other
    return one.dtype == other.dtype and np.array_equal(one, other)


@needs_program
@needs_astropy
@needs_library
class Parts(InAFolder):
    def test_a_thousand_boxes(self):
        rng = random.Random(1)
        with warnings.catch_warnings():
            warnings.simplefilter("ignore")
            files = list(Packers(rng).files())
        plain = {path: self.whole(path) for path, _ in files}
        done = 0
        for name, body in bodies().items():
            with mock.patch.object(opening, "layer", lambda it=body: it):
                open_files = {path: fzfits.open(path) for path, _ in files}
                for number in range(BOXES):
                    path, hdu = files[number % len(files)]
                    image = open_files[path][hdu]
                    key = key_of(rng, image.shape)
                    with self.subTest(body=name, path=path, key=key):
                        self.assertTrue(is_same(image.section[key], plain[path][key]))
                        if number % 10 == 0:
                            self.assertTrue(is_same(by_open(path, hdu, key, workers=3), by_cut(path, hdu, key, image.axes)))
                    done += 1
        self.assertEqual(done, BOXES * len(bodies()))

    def whole(self, path):
        """The physical values of the image by astropy, or of what it does not read by `fz unpack`."""
        if path.startswith("fz"):
            fzfits.unpack(path, "unpacked.fits")
        with warnings.catch_warnings():
            warnings.simplefilter("ignore")
            with fits.open("unpacked.fits" if path.startswith("fz") else path) as file:
                found = next(it.data for it in file if it.data is not None)
                found = found.astype(found.dtype.newbyteorder("="))
        Path("unpacked.fits").unlink(missing_ok=True)
        return found

    @unittest.skipUnless(HAS_FPACK, "fpack is not installed")
    def test_boxes_are_those_of_astropy_for_files_of_fpack(self):
        rng = random.Random(3)
        for kind in ("u2", "i4"):
            fits.PrimaryHDU(sky(rng, kind, (50, 70))).writeto("plain.fits")
            subprocess.run(["fpack", "-r", "-O", "packed.fits", "plain.fits"], check=True, capture_output=True)
            with fits.open("packed.fits") as file, fzfits.open("packed.fits") as ours:
                data = file[1].data
                for _ in range(50):
                    key = key_of(rng, data.shape)
                    self.assertTrue(np.array_equal(ours[1].section[key], data[key]))
                self.assertEqual(ours[1].dtype, data.dtype.newbyteorder("="))
            for it in ("plain.fits", "packed.fits"):
                Path(it).unlink()

    def test_damaged_files_are_refused_as_cut_refuses_them(self):
        rng = random.Random(5)
        with warnings.catch_warnings():
            warnings.simplefilter("ignore")
            files = [Path(path).read_bytes() for path, _ in Packers(rng).files()]
        refused, made = 0, 0
        while made < DAMAGED:
            whole = rng.choice(files)
            damaged = self.hurt(rng, whole)
            if damaged == whole or len(list(hdus_of(damaged))) < 2 and len(damaged) <= 2880:
                continue
            Path("damaged.fits").write_bytes(damaged)
            made += 1
            for body, it in bodies().items():
                with mock.patch.object(opening, "layer", lambda it=it: it):
                    for _ in range(5):
                        axes, key = self.part_for(rng)
                        found, wanted = by_open("damaged.fits", 1, key, rng.choice((1, 3))), by_cut("damaged.fits", 1, key, axes)
                        with self.subTest(damaged=made, body=body, key=key):
                            self.assertTrue(is_same(found, wanted), (found, wanted))
                        refused += isinstance(found, tuple)
        self.assertGreater(refused, 20)

    def test_a_tile_is_refused_for_pixels_that_are_not_wanted(self):
        fits.PrimaryHDU(sky(random.Random(6), "i2", (3, 3000))).writeto("plain.fits")
        fzfits.pack("plain.fits", "packed.fits")
        whole = Path("packed.fits").read_bytes()
        Path("damaged.fits").write_bytes(self.damaged_at_its_end(whole))
        image = fzfits.open("damaged.fits").first
        for _ in range(3):
            self.assertTrue(np.array_equal(image.section[0, :50], fits.getdata("plain.fits")[0, :50]))
            with self.assertRaises(errors.Refused) as caught:
                image.section[:, :50]
            self.assertEqual((caught.exception.kind, caught.exception.place.number), ("CodeShort", 2))
        self.assertEqual(by_cut("damaged.fits", 1, np.s_[:, :50], (3000, 3))[0], "CodeShort")

    def damaged_at_its_end(self, file):
        """The file with a count of the last row's descriptor that is less by 40 bytes."""
        hdu = next(it for it in hdus_of(file) if it.is_packed())
        at = hdu.start + len(hdu.header) + 2 * hdu.integer("NAXIS1")
        count = int.from_bytes(file[at : at + 4], "big") - 40
        return file[:at] + count.to_bytes(4, "big") + file[at + 4 :]

    def part_for(self, rng):
        """The axes of the damaged image and a part of it; if it cannot be opened, the first pixel of two axes."""
        try:
            with fzfits.open("damaged.fits") as file:
                return file[1].axes, key_of(rng, file[1].shape)
        except errors.Refused:
            return (1, 1), np.s_[:1, :1]

    def hurt(self, rng, file):
        """The file with damage to its packed image."""
        hdu = next(it for it in hdus_of(file) if it.is_packed())
        if rng.random() < 0.6:
            at = rng.randrange(hdu.start + len(hdu.header), hdu.start + len(hdu.header) + len(hdu.data))
            return file[:at] + bytes([file[at] ^ 1 << rng.randrange(8)]) + file[at + 1 :]
        return rng.choice((damage.change_image_card, damage.change_descriptor, damage.cut_file))(rng, file, hdu)[0]


@needs_astropy
@needs_library
class Others(InAFolder):
    def test_a_quantised_image_does_not_hide_those_of_integers(self):
        rng = np.random.default_rng(1)
        mask = (rng.random((40, 60)) < 0.1).astype("i2")
        with warnings.catch_warnings():
            warnings.simplefilter("ignore")
            fits.HDUList([fits.PrimaryHDU(), fits.CompImageHDU(rng.normal(0, 1, (40, 60)).astype("f4"), name="SCI"), fits.CompImageHDU(mask, name="DQ")]).writeto("mixed.fits")
        with fzfits.open("mixed.fits") as file:
            self.assertEqual([it.name for it in file.images], ["DQ"])
            self.assertTrue(np.array_equal(file["DQ"].section[3:30, ::2], mask[3:30, ::2]))
            self.assertIn("integer images only", file["SCI"].undecoded)
            with self.assertRaises(fzfits.Refused) as caught:
                file["SCI"].section[...]
            self.assertEqual(caught.exception.kind, "Quantised")
            with self.assertRaises(fzfits.Refused) as caught:
                _ = file.first
            self.assertEqual(caught.exception.hdu, 1)

    def test_plain_images_of_all_types(self):
        rng = random.Random(2)
        for kind in ("u1", "i2", "u2", "i4", "u4", "i8", "f4", "f8"):
            whole = np.array([rng.randrange(100) for _ in range(7 * 9 * 5)], kind).reshape(7, 9, 5)
            fits.PrimaryHDU(whole).writeto(f"{kind}.fits")
            image = fzfits.open(f"{kind}.fits").first
            self.assertEqual(image.dtype, np.dtype(kind))
            for _ in range(10):
                key = key_of(rng, whole.shape)
                self.assertTrue(np.array_equal(image.section[key], whole[key]))

    def test_scaled_and_undefined_pixels_are_as_astropy_gives_them(self):
        whole = np.arange(60, dtype="i2").reshape(6, 10)
        for scale, zero, blank in ((0.5, 3.0, None), (1, 32768, None), (2, 0, 7), (1, 0, 7)):
            hdu = fits.ImageHDU(whole)
            hdu.writeto("scaled.fits", overwrite=True)
            with fits.open("scaled.fits", mode="update", do_not_scale_image_data=True) as file:
                file[1].header["BSCALE"], file[1].header["BZERO"] = scale, zero
                if blank is not None:
                    file[1].header["BLANK"] = blank
            with fits.open("scaled.fits") as file:
                wanted = file[1].data.copy()
            image = fzfits.open("scaled.fits")[1]
            self.assertEqual(image.dtype, wanted.dtype.newbyteorder("="))
            self.assertTrue(np.array_equal(image[::2, 3], wanted[::2, 3], equal_nan=wanted.dtype.kind == "f"))
            self.assertTrue(np.array_equal(image.read(np.s_[1:3], raw=True), whole[1:3]))


if __name__ == "__main__":
    unittest.main()
