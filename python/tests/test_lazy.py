"""Lazy images in dask, in xarray and over fsspec: the same pixels, only what is needed is read, and nothing is shared between processes."""
import functools
import http.server
import pickle
import threading
import unittest
from pathlib import Path

from support import SAMPLES, InAFolder, imported, needs_library, needs_numpy, needs_program, np

import fzfits

dask = imported("dask.array")
xarray = imported("xarray")
fsspec = imported("fsspec")
needs_dask = unittest.skipUnless(dask, "dask is not installed")
needs_xarray = unittest.skipUnless(xarray, "xarray is not installed")
needs_fsspec = unittest.skipUnless(fsspec, "fsspec is not installed")
needs_http = unittest.skipUnless(fsspec and imported("aiohttp"), "aiohttp is not installed")


@needs_numpy
@needs_library
@needs_program
class Packed(InAFolder):
    def setUp(self):
        super().setUp()
        fzfits.pack(SAMPLES / "several.fits", "packed.fits", tile=(20, 10))
        with fzfits.open(SAMPLES / "several.fits") as file:
            self.wanted = {it.name: it[...] for it in file.images}


@needs_dask
class Dask(Packed):
    def test_chunks_are_groups_of_whole_tiles(self):
        image = fzfits.open("packed.fits")["SCI"]
        for nbytes, wanted in ((1, (10, 20)), (900, (10, 40)), (2 * 80 * 20, (20, 64)), (1 << 25, (48, 64))):
            array = image.to_dask(nbytes=nbytes)
            self.assertEqual((array.chunksize, array.dtype, array.shape), (wanted, np.dtype("u2"), (48, 64)))
        self.assertEqual(image.to_dask(chunks=(7, 9)).chunksize, (7, 9))

    def test_values(self):
        with fzfits.open("packed.fits") as file:
            for name, wanted in self.wanted.items():
                for nbytes in (1, 1 << 25):
                    array = file[name].to_dask(nbytes=nbytes)
                    self.assertTrue(np.array_equal(array.compute(scheduler="threads"), wanted))
                    self.assertEqual(float(array[3:30:2, ::3].sum().compute()), float(wanted[3:30:2, ::3].sum()))

    def test_other_processes_open_the_file_themselves(self):
        array = fzfits.open("packed.fits")["ERR"].to_dask(nbytes=1)
        self.assertTrue(np.array_equal(array.compute(scheduler="processes", num_workers=2), self.wanted["ERR"]))

    def test_a_changed_file_has_another_name(self):
        fzfits.write("one.fits", np.ones((4, 6), "i2"))
        before = fzfits.open("one.fits").first.to_dask().name
        self.assertEqual(before, fzfits.open("one.fits").first.to_dask().name)
        fzfits.patch("one.fits", None, (0, 0), np.zeros((2, 2), "i2"))
        self.assertNotEqual(before, fzfits.open("one.fits").first.to_dask().name)


@needs_xarray
class Xarray(Packed):
    def opened(self, *words, **options):
        from fzfits.xarray import FzBackend

        return xarray.open_dataset(*words, engine=FzBackend, **options)

    def test_images_are_variables(self):
        with self.opened("packed.fits") as dataset:
            self.assertEqual(list(dataset), ["SCI", "DQ", "ERR"])
            for name, wanted in self.wanted.items():
                self.assertEqual((dataset[name].dims, dataset[name].dtype), (("NAXIS2", "NAXIS1"), wanted.dtype))
                self.assertTrue(np.array_equal(dataset[name][5:40:3, 7].values, wanted[5:40:3, 7]))
                self.assertTrue(np.array_equal(dataset[name].isel(NAXIS1=[1, 30, 9], NAXIS2=slice(None, None, -1)).values, wanted[::-1, [1, 30, 9]]))
            self.assertEqual((dict(dataset.coords), dataset["SCI"].attrs["EXTNAME"]), ({}, "SCI"))

    def test_one_hdu_raw(self):
        with self.opened("packed.fits", hdu="SCI", raw=True) as dataset:
            self.assertEqual((list(dataset), dataset["SCI"].dtype), (["SCI"], np.dtype("i2")))
            self.assertEqual(dataset["SCI"].attrs["BZERO"], 32768)

    def test_axes_of_other_lengths_have_other_names(self):
        fzfits.write("one.fits", np.zeros((4, 6), "i2"))
        one, two = (fzfits.open(it).images for it in ("one.fits", "packed.fits"))
        from fzfits.xarray import dimensions_of

        lengths = {}
        self.assertEqual([dimensions_of(it, "X", lengths) for it in (one[0], two[0])], [["NAXIS2", "NAXIS1"], ["NAXIS2_X", "NAXIS1_X"]])

    @needs_dask
    def test_chunks(self):
        with self.opened("packed.fits", chunks={}) as dataset:
            self.assertEqual(float(dataset["DQ"].mean().compute()), float(self.wanted["DQ"].mean()))
            self.assertEqual(pickle.loads(pickle.dumps(dataset))["ERR"].values.tolist(), self.wanted["ERR"].tolist())

    def test_which_names_it_opens(self):
        from fzfits.xarray import FzBackend

        self.assertEqual([FzBackend().guess_can_open(it) for it in ("a.fits.fz", Path("b.fit.fz"), "a.nc", b"x")], [True, True, False, False])


class Counting(http.server.SimpleHTTPRequestHandler):
    """A server of files by ranges, which counts the bytes."""

    sent = 0

    def do_GET(self):
        """A range of the file, or the whole file."""
        data = Path(self.translate_path(self.path)).read_bytes()
        asked = self.headers.get("Range")
        if asked:
            first, last = asked.split("=")[1].split("-")
            part = data[int(first) : int(last or len(data)) + 1]
            self.send_response(206)
            self.send_header("Content-Range", f"bytes {first}-{int(first) + len(part) - 1}/{len(data)}")
        else:
            part = data
            self.send_response(200)
        self.send_header("Accept-Ranges", "bytes")
        self.send_header("Content-Length", str(len(part)))
        self.end_headers()
        self.wfile.write(part)
        type(self).sent += len(part)

    def do_HEAD(self):
        """The length."""
        self.send_response(200)
        self.send_header("Accept-Ranges", "bytes")
        self.send_header("Content-Length", str(Path(self.translate_path(self.path)).stat().st_size))
        self.end_headers()

    def log_message(self, *_):
        """Nothing is printed."""


@needs_fsspec
class Remote(Packed):
    def test_in_memory(self):
        system = fsspec.filesystem("memory")
        system.pipe("/night/packed.fits", Path("packed.fits").read_bytes())
        self.addCleanup(system.rm, "/night", True)
        for thing in ("memory://night/packed.fits", fsspec.open("memory://night/packed.fits"), system.open("/night/packed.fits")):
            with fzfits.open(thing) as file:
                for name, wanted in self.wanted.items():
                    self.assertTrue(np.array_equal(file[name].section[4:44, 3:60:2], wanted[4:44, 3:60:2]))
        image = pickle.loads(pickle.dumps(fzfits.open("memory://night/packed.fits")["DQ"]))
        self.assertTrue(np.array_equal(image, self.wanted["DQ"]))
        with self.assertRaises(fzfits.ReadFault) as caught:
            fzfits.open("memory://night/missing.fits")
        self.assertIn("memory://night/missing.fits", str(caught.exception))

    def test_only_ranges_are_read(self):
        big = np.random.default_rng(1).normal(1000, 9, (700, 700)).astype("i2")
        fzfits.write("big.fits", big, tile=(50, 50))
        system = fsspec.filesystem("memory")
        system.pipe("/big.fits", Path("big.fits").read_bytes())
        self.addCleanup(system.rm, "/big.fits")
        image = fzfits.open("memory://big.fits").first
        reads = []
        read_all = image.pixels.source.read_all
        image.pixels.source.read_all = lambda ranges: reads.extend(ranges) or read_all(ranges)
        self.assertTrue(np.array_equal(image.section[100:200, 300:420], big[100:200, 300:420]))
        self.assertLess(sum(count for _, count in reads), Path("big.fits").stat().st_size // 5)
        self.assertEqual(len(reads), 1)

    @needs_http
    def test_over_http(self):
        server = http.server.ThreadingHTTPServer(("127.0.0.1", 0), functools.partial(Counting, directory=str(self.folder)))
        threading.Thread(target=server.serve_forever, daemon=True).start()
        self.addCleanup(server.server_close)
        self.addCleanup(server.shutdown)
        with fzfits.open(f"http://127.0.0.1:{server.server_port}/packed.fits") as file:
            self.assertTrue(np.array_equal(file["SCI"].section[4:44, 3:60:2], self.wanted["SCI"][4:44, 3:60:2]))


if __name__ == "__main__":
    unittest.main()
