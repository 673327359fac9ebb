"""read.py LIBRARY FILE.. : compares, for each pair of a plain and a packed file, the pixels that a library finds in both. A line for each pair."""
import sys
import warnings

import numpy as np

warnings.simplefilter("ignore")


def arrays_of(library, path):
    """The arrays of all images of a file."""
    if library == "astropy":
        from astropy.io import fits

        with fits.open(path, memmap=False) as opened:
            return [np.array(it.data) for it in opened if it.is_image and it.data is not None]
    import fitsio

    with fitsio.FITS(path) as opened:
        return [it.read() for it in opened if it.get_exttype() == "IMAGE_HDU" and it.get_dims()]


def said(library, plain, packed):
    """right, wrong, or the error."""
    wanted = arrays_of(library, plain)
    try:
        found = arrays_of(library, packed)
    except Exception as error:
        return f"error {type(error).__name__}"
    same = len(wanted) == len(found) and all(a.shape == b.shape and np.array_equal(a, b, equal_nan=a.dtype.kind == "f" and b.dtype.kind == "f") for a, b in zip(wanted, found))
    return "right" if same else "wrong"


library, files = sys.argv[1], sys.argv[2:]
for plain, packed in zip(files[::2], files[1::2]):
    print(said(library, plain, packed), flush=True)
