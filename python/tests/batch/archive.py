"""A made-up archive of small files with every fault that an archive of some years has."""
from __future__ import annotations

import gzip
import os
import random
import sys
from dataclasses import dataclass, field
from pathlib import Path

TOP = Path(__file__).resolve().parents[3]
sys.path[:0] = [str(TOP / "tools"), str(TOP / "python")]
from fzfits.sums import sum_of  # noqa: E402
from making.fits import BLOCK, card, filled, header, plain_bytes  # noqa: E402

# Names that a shell, a line of text or a decoder would read otherwise.
ODD = (
    b"with blanks  in it.fits",
    b"line\nfeed.fits",
    b"-leading.fits",
    b"--sums.fits",
    b"latin1 \xe9t\xe9.fits",
    b"\xff\xfe.fits",
    b"$'quoted'.fits",
    b'"double" and \\back\\.fits',
    b"tab\there.fits",
    "Sternwarte Göttingen ✶.fits".encode(),
    b"{} {1} ::: -.fits",
    b"obs.unfinished.run.2.fits",
    b".hidden.fits",
    b"CAPITALS.FITS",
    b"short.fit",
    b"other.fts",
    b"n" * 247 + b".fits",
)
# Files that are no FITS files of this archive, and that no run may touch or remove.
OTHERS = (b".fzbatch-0123456789abcdef-1.part", b"notes.txt", b"night log")


def image(rng: random.Random, number: int, bits: int = 16) -> bytes:
    """A small image of counts, whose data do not fill their last block."""
    wide, high = rng.randint(20, 60), rng.randint(20, 40)
    if wide * high * bits // 8 % BLOCK == 0:
        wide += 1
    cards = [card("SIMPLE", True), card("BITPIX", bits), card("NAXIS", 2), card("NAXIS1", wide), card("NAXIS2", high), card("OBJECT", f"FIELD {number}")]
    return header(cards) + filled(plain_bytes(bits, [rng.randint(90, 110) for _ in range(wide * high)]))


def floats(rng: random.Random) -> bytes:
    """An image of floats, in which there is nothing to pack."""
    cards = [card("SIMPLE", True), card("BITPIX", -32), card("NAXIS", 1), card("NAXIS1", 200)]
    return header(cards) + filled(rng.randbytes(800))


def wrong_sum() -> bytes:
    """A file whose table, which is copied, has a wrong checksum."""
    return (TOP / "samples" / "sums.fits").read_bytes()


def wrong_image(rng: random.Random) -> bytes:
    """An image of counts in which a bit has changed since its checksums were made."""
    data = bytearray(filled(plain_bytes(16, [rng.randint(90, 110) for _ in range(900)])))
    cards = [card("SIMPLE", True), card("BITPIX", 16), card("NAXIS", 2), card("NAXIS1", 30), card("NAXIS2", 30), card("DATASUM", str(sum_of([bytes(data)])))]
    data[rng.randrange(1800)] ^= 1 << rng.randrange(8)
    return header(cards) + bytes(data)


@dataclass
class Made:
    """What was made: the paths of good files, of those with nothing to pack, of bad ones with their causes, and of what is left out."""

    root: bytes
    good: set[bytes] = field(default_factory=set)
    nothing: set[bytes] = field(default_factory=set)
    bad: dict[bytes, str] = field(default_factory=dict)
    left: dict[bytes, str] = field(default_factory=dict)

    @property
    def packable(self) -> set[bytes]:
        return self.good | self.nothing

    def write(self, path: bytes, data: bytes) -> bytes:
        where = os.path.join(self.root, path)
        os.makedirs(os.path.dirname(where), exist_ok=True)
        with open(where, "xb") as it:
            it.write(data)
        return path


def make(root: Path, count: int, seed: int = 50) -> Made:
    """Makes an archive of this many FITS files, faults among them, in a folder."""
    rng = random.Random(seed)
    made = Made(os.fsencode(root))
    _bad(made, rng)
    _left_out(made, rng)
    for name in ODD:
        made.good.add(made.write(b"odd names/" + name, image(rng, 0)))
    for name in (b"a.fits", b"b.fits"):
        made.good.add(made.write(b"twice/" + name, image(rng, 1)))
    made.good.add(made.write(b"latin1 \xe9 folder/-x.fits", image(rng, 2)))
    for name in OTHERS:
        made.write(b"odd names/" + name, b"not to be touched\n")
    for number in range(count // 12):
        made.nothing.add(made.write(b"spectra/%03d.fits" % number, floats(rng)))
    number = 0
    while len(made.good) + len(made.nothing) + len(made.bad) < count:
        made.good.add(made.write(b"night %d/image %03d.fits" % (number % 5, number), image(rng, number, rng.choice((8, 16, 32)))))
        number += 1
    return made


def _bad(made: Made, rng: random.Random) -> None:
    whole = image(rng, 17)
    for number in range(5):
        made.bad[made.write(b"night 1/cut short %d.fits" % number, whole[: rng.randint(1, len(whole) - 1)])] = "2 Truncated"
    for number in range(3):
        made.bad[made.write(b"night 2/empty %d.fits" % number, b"")] = "2 Truncated"
    cards = [card("SIMPLE", True), card("BITPIX", 12), card("NAXIS", 0)]
    made.bad[made.write(b"night 2/bits.fits", header(cards))] = "4 BadCard"
    made.bad[made.write(b"night 3/fill.fits", whole[:-1] + b"\1")] = "7 DataFill"
    made.bad[made.write(b"night 3/more.fits", whole + b"more")] = "8 TrailingBytes"
    made.bad[made.write(b"night 3/text.fits", b"404 not found\n")] = "2 Truncated"
    made.bad[made.write(b"night 3/zipped.fits", gzip.compress(rng.randbytes(5000)))] = "1 NotFits"
    made.bad[made.write(b"night 3/sums.fits", wrong_sum())] = "wrong checksum in the plain file"
    made.bad[made.write(b"night 3/image with a wrong sum.fits", wrong_image(rng))] = "wrong checksum in the plain file"
    packed = (TOP / "samples" / "packed" / "small.rice.fits").read_bytes()
    made.bad[made.write(b"twice/a.fits.fz", packed)] = "10 AlreadyPacked"
    made.bad[made.write(b"odd names/" + b"l" * 250 + b".fits", whole)] = "File name too long"
    made.bad[made.write(b"night 4/secret.fits", whole)] = "Permission denied"
    os.chmod(os.path.join(made.root, b"night 4/secret.fits"), 0)


def _left_out(made: Made, rng: random.Random) -> None:
    made.write(b"closed/inside.fits", image(rng, 3))
    os.chmod(os.path.join(made.root, b"closed"), 0)
    made.left[b"closed"] = "cannot be read"
    for name, target in ((b"link.fits", b"twice/a.fits"), (b"nowhere.fits", b"/nowhere"), (b"circle.fits", b"circle.fits"), (b"folder", b"night 1")):
        os.symlink(target, os.path.join(made.root, name))
        made.left[name] = "is a symbolic link"
    for name in (b"odd names/thumb.fits.gz", b"night 0/raw.fit.Z", b"night 0/image 000.fits.bz2"):
        made.left[made.write(name, gzip.compress(image(rng, 4)))] = "is a FITS file that another program compressed"
    os.mkfifo(os.path.join(made.root, b"pipe.fits"))
    made.left[b"pipe.fits"] = "is no file"
