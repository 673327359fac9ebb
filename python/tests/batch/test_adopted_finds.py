"""What others found by trying to have damaged files of an adopted folder called well. Each class is one find."""
from __future__ import annotations

import bz2
import gzip
import lzma
import shutil
import subprocess
import sys
import time
import unittest
from pathlib import Path
from unittest import mock

sys.path[:0] = [str(Path(__file__).resolve().parents[1])]

from batch.test_adopted import FZ, SAMPLES, Adopted  # noqa: E402
from batch.two_files import image  # noqa: E402
from fzfits.batch import calls  # noqa: E402
from fzfits.batch.adopt import compressed, examine  # noqa: E402
from fzfits.headers import headers  # noqa: E402
from fzfits.sums import sum_of  # noqa: E402
from making.fits import card, filled, header  # noqa: E402

CARDS = [b"XTENSION= 'IMAGE   '".ljust(80), card("BITPIX", 8), card("NAXIS", 1), card("NAXIS1", 4), card("PCOUNT", 0), card("GCOUNT", 1)]
SMALL = header(CARDS) + filled(b"abcd")


class Alone(Adopted):
    """A folder with a good file, and another one."""

    def setUp(self) -> None:
        super().setUp()
        for it in self.night.rglob("*.f*"):
            it.unlink()
        shutil.copy(SAMPLES / "small.fits", self.night / "z.fits")

    def says(self, name: str, data: bytes, status: int, *words: str) -> None:
        """What adopt and missing say of a file with these bytes."""
        (self.night / name).write_bytes(data)
        found, said = self.run_it("adopt", self.night)
        self.assertEqual((found, *(it in said for it in words)), (status, *(True for _ in words)), said)
        self.assertEqual(self.run_it("missing", self.night)[0], status)
        (self.night / name).unlink()
        for it in self.room.glob("night.fzbatch.sqlite*"):
            it.unlink()

    def undecoded(self) -> bytes:
        """A file whose HDU 1 is a packed image of a codec that fz does not decode."""
        data = self.pack("star_field.fits", "a.fits.fz").read_bytes()
        (self.night / "a.fits.fz").unlink()
        at = data.index(b"ZCMPTYPE=")
        return data[:at] + b"ZCMPTYPE= 'HCOMPRESS_1'".ljust(80) + data[at + 80 :]


class AfterWhatIsNotDecoded(Alone):
    """An HDU that fz does not decode hides nothing that is wrong after it."""

    def test_the_headers_lead_to_the_last_byte(self) -> None:
        first = self.undecoded()
        good = first + SMALL + SMALL
        self.says("a.fits.fz", good, 0)
        at = len(first + SMALL)
        for what, data, says in (
            ("cut off in a header", good[: at + 1000], "there is no HDU that can be read; 1,000 bytes follow"),
            ("cut off in the data", good[:-100], "HDU 3, the last one, is cut off: 100 bytes missing"),
            ("a bit of XTENSION", good[:at] + b"Y" + good[at + 1 :], "there is no HDU that can be read; 5,760 bytes follow"),
            ("more bytes at the end", good + b"x" * 2880, "there is no HDU that can be read; 2,880 bytes follow"),
        ):
            with self.subTest(what=what):
                self.says("a.fits.fz", data, 1, says)


class TwoSorts(Alone):
    """astropy from 6 on writes ZSIMPLE beside ZTENSION: that is no fault, and hides none."""

    def setUp(self) -> None:
        super().setUp()
        first, pixels = header([card("SIMPLE", True), card("BITPIX", 8), card("NAXIS", 0)]), image(3)[2880:]
        cards = [CARDS[0], card("BITPIX", 16), card("NAXIS", 2), card("NAXIS1", 40), card("NAXIS2", 30), *CARDS[4:], card("DATASUM", str(sum_of([pixels])))]
        (self.room / "plain").mkdir()
        self.plain = self.room / "plain" / "a.fits"
        self.plain.write_bytes(first + header(cards) + pixels)
        subprocess.run([FZ, "pack", self.plain, self.room / "packed"], check=True)
        data = bytearray((self.room / "packed").read_bytes())
        at = data.index(b"END     ", 2880)
        data[at : at + 160] = b"ZSIMPLE =                    T".ljust(80) + b"END".ljust(80)
        self.both = bytes(data)

    def with_card(self, keyword: str, text: str) -> bytes:
        at = self.both.index(keyword.ljust(8).encode() + b"=")
        return self.both[:at] + text.encode().ljust(80) + self.both[at + 80 :]

    def test_it_is_right(self) -> None:
        self.says("a.fits.fz", self.both, 0, "2 well (2 right)")
        self.says("a.fits.fz", self.with_card("ZCMPTYPE", "ZCMPTYPE= 'HCOMPRESS_1'"), 0, "2 well (1 part, 1 right)")

    def test_what_is_wrong_is_found(self) -> None:
        self.says("a.fits.fz", self.with_card("ZDATASUM", "ZDATASUM= '123'"), 1, "HDU 1: ZDATASUM is not that of the pixels")
        self.says("a.fits.fz", self.both[:-2880], 1, "cut off")
        self.says("a.fits.fz", self.both + b"x" * 2880, 1, "2,880 bytes follow")
        self.says("a.fits.fz", self.with_card("ZBITPIX", "ZTENSION= 'IMAGE   '"), 1, "HDU 1")
        at = self.both.index(b"ZBITPIX")
        self.says("a.fits.fz", self.both[:at] + self.both[at : at + 80] + self.both[at:], 1, "HDU 1")

    def test_compare(self) -> None:
        (self.night / "z.fits").unlink()
        (self.night / "a.fits.fz").write_bytes(self.both)
        self.assertEqual(self.run_it("adopt", self.night)[0], 0)
        self.assertEqual(self.run_it("compare", self.plain.parent, self.night)[0], 0)
        self.plain.write_bytes(self.plain.read_bytes()[:-2880] + bytes(2880))
        self.assertEqual(self.run_it("compare", self.plain.parent, self.night)[0], 1)


class CompressedAsAWhole(Alone):
    """Each member of a compressed file is decompressed, and what cannot be is not called right."""

    def setUp(self) -> None:
        super().setUp()
        self.raw = (SAMPLES / "star_field.fits").read_bytes()

    def test_members_of_gzip(self) -> None:
        data = b"".join(gzip.compress(self.raw[at : at + 8192], mtime=0) for at in range(0, len(self.raw), 8192))
        self.says("a.fits.gz", data, 0, "2 well (2 right)")
        self.says("a.fits.gz", data + bytes(512), 0)
        at = len(data) * 3 // 4
        self.says("a.fits.gz", data[:at] + bytes([data[at] ^ 16]) + data[at + 1 :], 1, "it cannot be decompressed")
        self.says("a.fits.gz", data[:at], 1, "it cannot be decompressed: it has no end")
        self.says("a.fits.gz", data + b"more", 1, "it cannot be decompressed")

    def test_bzip2_and_xz(self) -> None:
        for name, made in (("a.fits.bz2", bz2.compress(self.raw) * 2), ("a.fits.xz", lzma.compress(self.raw) * 2)):
            with self.subTest(name=name):
                self.says(name, made, 0, "2 well (2 right)")
                at = len(made) * 3 // 4
                self.says(name, made[:at] + bytes([made[at] ^ 1]) + made[at + 1 :], 1, "it cannot be decompressed")
                self.says(name, made[:at], 1, "it cannot be decompressed: it has no end")

    def test_what_comes_out_is_no_fits_file(self) -> None:
        for data, said in ((b"", "it is empty once"), (b"<html>404 Not Found</html>", "it is no FITS file once"), (self.raw[:4000], "it is cut off: 4,000 bytes come out")):
            for name, made in (("a.fits.gz", gzip.compress(data)), ("a.fits.bz2", bz2.compress(data)), ("a.fits.xz", lzma.compress(data)), ("a.fits", gzip.compress(data))):
                with self.subTest(said=said, name=name):
                    self.says(name, made, 1, said)
        self.says("a.fits.gz", gzip.compress(self.raw[:5]) + gzip.compress(self.raw[5:]), 0)

    def test_what_is_not_read_is_not_right(self) -> None:
        self.says("a.fits.zst", b"\x28\xb5\x2f\xfd" + bytes(100), 0, "2 well (1 part, 1 right)")
        with mock.patch.multiple(compressed, RATIO=1, MORE=0):
            self.says("a.fits.xz", lzma.compress(bytes(10_000_000)), 0, "2 well (1 part, 1 right)")


class ManyHdus(Alone):
    """What is after the HDUs that are looked at one by one is looked at by fz, or it is said that it was not."""

    def setUp(self) -> None:
        super().setUp()
        patch = mock.patch.object(examine, "MOST", 3)
        patch.start()
        self.addCleanup(patch.stop)
        data = filled(b"abcd")
        self.sum = header([*CARDS, card("DATASUM", str(sum_of([data])))]) + data
        self.wrong = header([*CARDS, card("DATASUM", str(sum_of([data]) + 1))]) + data

    def test_a_wrong_checksum(self) -> None:
        first = header([card("SIMPLE", True), card("BITPIX", 8), card("NAXIS", 0)])
        self.says("a.fits", first + SMALL * 4 + self.sum, 0)
        self.says("a.fits", first + SMALL * 4 + self.wrong, 1, "HDU 5: DATASUM is not that of its bytes")

    def test_an_image_with_checksums_of_its_own(self) -> None:
        first = self.pack("sums.fits", "a.fits.fz").read_bytes()
        self.assertTrue(any(it.card("ZDATASUM") for it in headers(self.night / "a.fits.fz")))
        self.says("a.fits.fz", first + SMALL * 4 + self.wrong, 1, "DATASUM is not that of its bytes")

    def test_fz_does_not_take_the_file(self) -> None:
        first = self.undecoded()
        self.says("a.fits.fz", first + SMALL, 0)
        self.says("a.fits.fz", first + SMALL * 3, 1, "2 HDUs after HDU 2 were not looked at one by one")


class MoreThanARowHolds(Alone):
    """A file with more faults than the manifest has room for stops no run."""

    def test_the_other_files_are_read(self) -> None:
        first = header([card("SIMPLE", True), card("BITPIX", 8), card("NAXIS", 0)])
        bad = header([*CARDS, *(f"ABC{it}    = 'no end of this text {'long ' * 8}".encode().ljust(80) for it in range(6))]) + filled(b"abcd")
        (self.night / "a.fits").write_bytes(first + bad * 1200)
        status, said = self.run_it("adopt", self.night, "--jobs", 1)
        self.assertEqual((status, said.splitlines()[-1]), (1, "adopt: 2 files, 1 well (1 right), 1 not well, 0 left out"))
        self.assertIn("more faults were found, for which the manifest has no room", said)
        self.assertEqual(self.run_it("verify", self.night)[1].splitlines()[-1], "verify: 2 files, 1 well (1 right), 1 not well, 0 left out")


class ManyColumns(Alone):
    """A header that claims more columns than FITS has costs no time."""

    def test_a_table_that_is_not_decoded(self) -> None:
        first = header([card("SIMPLE", True), card("BITPIX", 8), card("NAXIS", 0)])
        more = [b"XTENSION= 'BINTABLE'".ljust(80), card("BITPIX", 8), card("NAXIS", 2), card("NAXIS1", 8), card("NAXIS2", 1), card("PCOUNT", 0), card("GCOUNT", 1), card("TFIELDS", 10**9), card("ZTABLE", True)]
        began = time.monotonic()
        (self.night / "a.fits.fz").write_bytes(first + header(more) + bytes(2880))
        self.run_it("adopt", self.night)
        self.assertLess(time.monotonic() - began, 30)


class ManyLines(unittest.TestCase):
    """All lines of a program are read, however many pieces they come in."""

    def test_a_program_that_prints_one_after_another(self) -> None:
        it = calls.Program("/bin/sh")
        self.addCleanup(it.close)
        ended = it.run(["-c", "i=0; while [ $i -lt 3000 ]; do i=$((i+1)); echo line $i; [ $((i % 3)) = 0 ] && sleep 0.001; done"], timeout=60)
        self.assertEqual((len(ended.lines), ended.lines[-1]), (3000, "line 3000"))


if __name__ == "__main__":
    unittest.main()
