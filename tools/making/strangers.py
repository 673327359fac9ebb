"""A folder of FITS files as an archive of some years has it: by fpack, astropy, fitsio and fz, of all kinds, with checksums and without.

It needs numpy and astropy; fitsio, fpack and fz are used if they are there. `make` gives the names of the files by their kind.
"""
import gzip
import os
import shutil
import subprocess
import warnings
from pathlib import Path

import numpy as np
from astropy.io import fits

try:
    import fitsio
except ImportError:
    fitsio = None

WIDE, HIGH = 180, 121


def counts(rng, high=HIGH, wide=WIDE, kind="i2"):
    """Counts with stars in them."""
    image = rng.normal(800, 9, (high, wide))
    for _ in range(12):
        y, x = rng.integers(0, high), rng.integers(0, wide)
        image[y, x] += rng.integers(50, 20000)
    return np.clip(image, 0, 30000).astype(kind)


def flags(rng):
    image = np.zeros((HIGH, WIDE), "i2")
    image[20:40, 30:90] = 4
    image[rng.integers(0, HIGH, 50), rng.integers(0, WIDE, 50)] = 1
    return image


def table(rng):
    columns = [fits.Column("X", "E", array=rng.random(200, "f4")), fits.Column("ID", "J", array=np.arange(200)), fits.Column("NAME", "8A", array=np.array(["star"] * 200))]
    return fits.BinTableHDU.from_columns(columns, name="CAT")


def cards(number):
    found = fits.Header()
    found["OBJECT"] = (f"FIELD {number}", "what was looked at")
    found["EXPTIME"] = (30.5, "seconds")
    found["HISTORY"] = "made up"
    return found


def plain(rng, number, sort):
    """The HDUs of a plain file."""
    first = fits.PrimaryHDU
    if sort == "int16":
        return [first(counts(rng), cards(number))]
    if sort == "uint16":
        return [first(counts(rng, kind="u2"), cards(number))]
    if sort == "int32":
        return [first(counts(rng, kind="i4") * 1000, cards(number))]
    if sort == "flags":
        return [first(flags(rng), cards(number))]
    if sort == "float32":
        return [first(counts(rng).astype("f4") * 1.5, cards(number))]
    if sort == "table":
        return [first(header=cards(number)), table(rng)]
    images = [fits.ImageHDU(counts(rng), cards(number), name=f"SCI{it}") for it in range(2)]
    if sort == "floats among":
        images.insert(1, fits.ImageHDU(counts(rng).astype("f4"), name="WEIGHT"))
    return [first(header=cards(number)), *images, table(rng)]


def write(path, hdus, sums):
    with warnings.catch_warnings():
        warnings.simplefilter("ignore")
        fits.HDUList(hdus).writeto(path, checksum=sums, overwrite=True)


def fpacked(*options):
    def pack(source, target, _rng, _number):
        subprocess.run(["fpack", *options, "-O", target, source], check=True, capture_output=True, stdin=subprocess.DEVNULL)

    return pack


def by_astropy(codec, sums, **more):
    def pack(source, target, rng, number):
        image = fits.getdata(source) if codec != "RICE float" else counts(rng).astype("f4")
        hdu = fits.CompImageHDU(np.asarray(image), cards(number), name="IMAGE", compression_type=codec.replace(" float", "_1"), **more)
        write(target, [fits.PrimaryHDU(), hdu], sums)

    return pack


def by_fitsio(codec):
    def pack(source, target, rng, number):
        with fitsio.FITS(str(target), "rw", clobber=True) as to:
            to.write(np.asarray(fits.getdata(source)).astype("i4" if codec != "PLIO" else "i2"), compress=codec, extname="IMAGE")

    return pack


def by_fz(*options):
    def pack(source, target, _rng, _number):
        Path(target).unlink(missing_ok=True)
        subprocess.run([os.environ["FZ"], "pack", *options, source, target], check=True)

    return pack


def zipped(source, target, _rng, _number):
    Path(target).write_bytes(gzip.compress(Path(source).read_bytes()))


# Floats are dithered from a seed of their own, and not from the clock: whether a damaged code still decodes is then the same in each run.
DITHERED = "-r", "-q1", "4"

# Each kind: its plain file, whether that has checksums, how it is packed, and the suffix of its name.
KINDS = {
    "plain with sums": ("int16", True, None, ".fits"),
    "plain": ("uint16", False, None, ".fits"),
    "plain several": ("several", True, None, ".fits"),
    "plain several, no sums": ("several", False, None, ".fits"),
    "plain float": ("float32", True, None, ".fits"),
    "plain table": ("table", True, None, ".fits"),
    "fpack rice": ("int16", True, fpacked("-r"), ".fits.fz"),
    "fpack rice, own sums only": ("int16", True, fpacked("-r", "-C"), ".fits.fz"),
    "fpack rice, no sums": ("int16", False, fpacked("-r", "-C"), ".fits.fz"),
    "fpack uint16": ("uint16", True, fpacked("-r"), ".fits.fz"),
    "fpack int32 tiles": ("int32", True, fpacked("-r", "-t", "60,40"), ".fits.fz"),
    "fpack tiles, no sums": ("int16", False, fpacked("-r", "-C", "-t", "60,40"), ".fits.fz"),
    "fpack plio": ("flags", True, fpacked("-p"), ".fits.fz"),
    "fpack gzip": ("int16", True, fpacked("-g"), ".fits.fz"),
    "fpack gzip, no sums": ("int16", False, fpacked("-g", "-C"), ".fits.fz"),
    "fpack gzip2, no sums": ("int32", False, fpacked("-g2", "-C"), ".fits.fz"),
    "fpack hcompress": ("int16", True, fpacked("-h"), ".fits.fz"),
    "fpack float": ("float32", True, fpacked(*DITHERED), ".fits.fz"),
    "fpack float, no sums": ("float32", False, fpacked(*DITHERED, "-C"), ".fits.fz"),
    "fpack float lossless": ("float32", True, fpacked("-g", "-q", "0"), ".fits.fz"),
    "fpack several": ("several", True, fpacked("-r"), ".fits.fz"),
    "fpack floats among": ("floats among", True, fpacked(*DITHERED), ".fits.fz"),
    "fpack floats among, own sums only": ("floats among", True, fpacked(*DITHERED, "-C"), ".fits.fz"),
    "fpack table": ("table", True, fpacked("-table"), ".fits.fz"),
    "astropy rice": ("int16", False, by_astropy("RICE_1", True), ".fits.fz"),
    "astropy rice, no sums": ("int16", False, by_astropy("RICE_1", False), ".fits.fz"),
    "astropy gzip, no sums": ("int16", False, by_astropy("GZIP_1", False), ".fits.fz"),
    "astropy hcompress": ("int16", False, by_astropy("HCOMPRESS_1", True), ".fits.fz"),
    "astropy plio": ("flags", False, by_astropy("PLIO_1", True), ".fits.fz"),
    "astropy float": ("int16", False, by_astropy("RICE float", True, quantize_level=8), ".fits.fz"),
    "fitsio rice": ("int16", False, by_fitsio("RICE"), ".fits.fz"),
    "fitsio gzip": ("int16", False, by_fitsio("GZIP"), ".fits.fz"),
    "fitsio hcompress": ("int16", False, by_fitsio("HCOMPRESS"), ".fits.fz"),
    "fz rice": ("int16", True, by_fz("--sums"), ".fits.fz"),
    "fz squares, no sums": ("int16", False, by_fz("--tile", "60,60"), ".fits.fz"),
    "fz plio": ("flags", True, by_fz("--codec", "plio", "--sums"), ".fits.fz"),
    "fz stored": ("int16", True, by_fz("--codec", "none"), ".fits.fz"),
    "fz several": ("several", True, by_fz("--sums"), ".fits.fz"),
    "gzip": ("int16", True, zipped, ".fits.gz"),
}


def kinds():
    """The kinds whose packer is there."""
    without = [name for name, there in (("fpack", shutil.which("fpack")), ("fitsio", fitsio), ("fz", os.environ.get("FZ"))) if not there]
    return [it for it in KINDS if not it.startswith(tuple(without)) or not without]


def make(folder, many, seed=1):
    """Makes so many files in folders of nights, and gives their paths by their kind."""
    rng = np.random.default_rng(seed)
    found, names = {}, kinds()
    source = Path(folder).parent / "source.fits"
    for number in range(many):
        kind = names[number % len(names)]
        sort, sums, pack, suffix = KINDS[kind]
        path = Path(folder) / f"night{number % 7}" / f"file{number:04d}{suffix}"
        path.parent.mkdir(parents=True, exist_ok=True)
        write(source if pack else path, plain(rng, number, sort), sums)
        if pack:
            pack(source, path, rng, number)
        os.utime(path, (1500000000 + number, 1500000000 + number))
        found.setdefault(kind, []).append(path)
    source.unlink(missing_ok=True)
    return found
