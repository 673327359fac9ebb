"""A plugin of pytest (`-p mended`): fitsio 1.4 writes arrays of the other byte order right.

Its `array_to_native` turns the bytes of an array and leaves its type as it was. What looks for numbers that are not finite then reads
each number backwards, takes one of 256 of 32 bits for infinite or not a number, and writes something else in its place: astropy's tests,
which have fitsio pack big-endian arrays, fail with it, with any decoder. Older versions look for no such numbers. Here the type is
turned too.

`python3 mended.py` shows the fault and its cure with fitsio only: how far the numbers that it reads are from those that it wrote.
"""
import contextlib
import sys

with contextlib.suppress(ImportError):
    import fitsio.util

    TURNED = fitsio.util.array_to_native

    def array_to_native(array, inplace=False):
        """As fitsio's, and the type says how the bytes are."""
        found = TURNED(array, inplace=inplace)
        if array.dtype.names is None and found is not array and not array.dtype.isnative:
            return found.view(array.dtype.newbyteorder())
        return found


def put(call):
    """Puts a call in the place of fitsio's, wherever it is named."""
    for name in [it for it in sys.modules if it.split(".")[0] == "fitsio"]:
        if hasattr(sys.modules[name], "array_to_native"):
            sys.modules[name].array_to_native = call


def difference(kind):
    """The greatest difference of random numbers of a type that fitsio writes, unpacked, and reads again."""
    import numpy as np

    numbers = np.random.default_rng(1).normal(1000, 100, (64, 64)).astype(kind)
    with fitsio.FITS("mem://", "rw") as file:
        file.write(numbers)
        return np.abs(file[0].read() - numbers).max()


if __name__ == "__main__":
    if "fitsio" not in sys.modules:
        sys.exit("fitsio is not installed")
    for way, which in (("as it is", TURNED), ("mended", array_to_native)):
        put(which)
        said = ", ".join(f"{kind} {difference(kind):.0f}" for kind in ("<f4", ">f4", "<f8", ">f8"))
        print(f"fitsio {fitsio.__version__} {way}: greatest difference {said}")
elif "fitsio" in sys.modules:
    put(array_to_native)
