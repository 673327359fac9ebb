"""library.py astropy|fitsio: does for tools/interop what is asked on standard input, one line of JSON a time.

["read", PATH] answers the images of a file as [bits, axes, data in hexadecimal]; ["pack", IN, OUT, CODEC] packs one; ["version"]
answers the first number of the library's version. It runs by itself, in the Python that has the library, and answers
["failed", WHY] where the library fails.
"""
import json
import sys


def stored(pixels, offset):
    """One image, as the numbers that the file stores."""
    bits = pixels.dtype.itemsize * 8
    numbers = (pixels.astype("i8") - offset).astype(f">{'u' if bits == 8 else 'i'}{bits // 8}")
    return [bits, list(pixels.shape[::-1]), numbers.tobytes().hex()]


class Astropy:
    def __init__(self):
        import astropy
        from astropy.io import fits

        self.fits, self.version = fits, lambda: int(astropy.__version__.split(".")[0])

    def open(self, path):
        return self.fits.open(path, do_not_scale_image_data=True, memmap=False)

    def read(self, path):
        with self.open(path) as file:
            return [stored(it.data, 0) for it in file if it.is_image and it.data is not None]

    def pack(self, path, out, codec):
        with self.open(path) as file:
            images = [it for it in file if it.is_image and it.data is not None]
            packed = [self.fits.CompImageHDU(it.data, it.header, compression_type=codec) for it in images]
            self.fits.HDUList([self.fits.PrimaryHDU(), *packed]).writeto(out, checksum=True)


class Fitsio:
    def __init__(self):
        import fitsio

        self.fits, self.version = fitsio.FITS, lambda: int(fitsio.__version__.split(".")[0])

    def images(self, file):
        return [it for it in file if it.get_exttype() == "IMAGE_HDU" and it.has_data()]

    def read(self, path):
        with self.fits(path) as file:
            return [stored(it.read(), int(it.read_header().get("BZERO", 0))) for it in self.images(file)]

    def pack(self, path, out, codec):
        with self.fits(path) as file, self.fits(out, "rw") as packed:
            for it in self.images(file):
                packed.write(it.read(), compress={"RICE_1": "rice", "PLIO_1": "plio"}[codec])


def main():
    library = {"astropy": Astropy, "fitsio": Fitsio}[sys.argv[1]]()
    for line in sys.stdin:
        asked, *given = json.loads(line)
        try:
            answer = {"read": library.read, "pack": library.pack, "version": library.version}[asked](*given)
        except Exception as error:  # whatever a library raises is its answer
            answer = ["failed", f"{type(error).__name__}: {error}"[:300]]
        print(json.dumps(answer), flush=True)


if __name__ == "__main__":
    main()
