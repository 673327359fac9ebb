"""`compare PLAIN FOLDER` says that all is well only if each plain file has been compared. Each class is one find."""
from __future__ import annotations

import bz2
import gzip
import os
import shutil
import subprocess
import sys
import unittest
from pathlib import Path

sys.path[:0] = [str(Path(__file__).resolve().parents[1])]

from batch.test_adopted import FZ  # noqa: E402
from batch.test_adopted_called_well import Whole  # noqa: E402
from batch.two_files import image  # noqa: E402
from making.fits import card, filled, header  # noqa: E402


class Compared(Whole):
    """A folder with the packed file of `plain/a.fits`, adopted."""

    def setUp(self) -> None:
        super().setUp()
        self.plain = self.room / "plain"
        self.plain.mkdir()
        shutil.rmtree(self.night)
        self.night.mkdir()
        self.manifest.unlink()
        for it in self.room.glob("night.fzbatch.sqlite.*"):
            it.unlink()
        self.put("a.fits", image(1))
        self.adopted()

    def put(self, name: str, data: bytes, packed: bool = True) -> None:
        path = self.plain / name
        path.parent.mkdir(exist_ok=True)
        path.write_bytes(data)
        if packed:
            (self.night / name).parent.mkdir(exist_ok=True)
            subprocess.run([FZ, "pack", path, self.night / f"{name}.fz"], check=True)
            os.utime(self.night / f"{name}.fz", (1, 1))

    def adopted(self) -> None:
        self.assertEqual(self.run_it("adopt", self.night)[0], 0)


class EachPlainFile(Compared):
    """A plain file without a packed one, and a file that the manifest does not know, are named."""

    def test_never_packed(self) -> None:
        self.assertEqual(self.run_it("compare", self.plain, self.night)[0], 0)
        self.put("n/b.fits", image(2), packed=False)
        self.named("n/b.fits: it has no packed file", "compare", self.plain, self.night)
        self.named("n/b.fits: it has no packed file", "compare", "--without-plain", self.plain, self.night)
        self.put("n/b.fits", image(2))
        self.named("n/b.fits.fz: the manifest does not know it", "compare", self.plain, self.night)
        self.adopted()
        self.assertEqual(self.run_it("compare", self.plain, self.night)[0], 0)

    def test_a_manifest_of_no_file(self) -> None:
        (self.night / "a.fits.fz").unlink()
        self.run_it("adopt", "--allow-empty", self.night)
        self.assertEqual(self.run_it("forget", self.night, "--name", "a.fits.fz")[0], 0)
        self.named("a.fits: it has no packed file", "compare", self.plain, self.night)

    def test_a_packed_file_among_the_plain_ones(self) -> None:
        """It is compared with no other file, so only the very same one stands for it."""
        shutil.copy(self.night / "a.fits.fz", self.plain / "a.fits.fz")
        self.assertEqual(self.run_it("compare", self.plain, self.night)[0], 0)
        (self.plain / "a.fits.fz").write_bytes(image(7))
        self.named("a.fits.fz: it has no packed file", "compare", self.plain, self.night)

    def test_links(self) -> None:
        self.put("b.fits", image(2), packed=False)
        (self.plain / "b.fits").rename(self.room / "b.fits")
        (self.plain / "b.fits").symlink_to(self.room / "b.fits")
        self.named("b.fits: is a symbolic link", "compare", self.plain, self.night)


class SameBytes(Compared):
    """The same bytes of data under a header by which they are other pixels are not the same pixels."""

    def says(self, *cards: "tuple[str, object]") -> str:
        data = bytearray(image(1))
        cards_of = {bytes(data[at : at + 8]): at for at in range(0, 2880, 80)}
        for keyword, value in cards:
            at = cards_of.get(keyword.ljust(8).encode())
            if at is None:
                at = data.index(b"END     ")
                data[at + 80 : at + 160] = b"END".ljust(80)
            text = card(keyword, value)
            data[at : at + 80] = text if isinstance(text, bytes) else text.encode()
        (self.plain / "a.fits").write_bytes(bytes(data))
        status, said = self.run_it("compare", self.plain, self.night)
        return f"{status} {said}"

    def test_another_header(self) -> None:
        self.assertIn("0 1 files have the pixels", self.says(("OBJECT", "M 31")))
        self.assertIn("0 1 files have the pixels", self.says(("BZERO", 0), ))

    def test_other_axes(self) -> None:
        self.assertIn("NAXIS1", self.says(("NAXIS1", 30), ("NAXIS2", 40)))
        self.assertTrue(self.says(("NAXIS1", 30), ("NAXIS2", 40)).startswith("1 "))

    def test_another_zero(self) -> None:
        for it in (("BZERO", 32768), ("BSCALE", 2), ("BLANK", 100), ("BITPIX", 8)):
            with self.subTest(card=it):
                said = self.says(it, *((("NAXIS1", 80),) if it[0] == "BITPIX" else ()))
                self.assertTrue(said.startswith("1 "), said)
                self.assertIn(it[0], said)

    def test_an_hdu_that_is_not_decoded_and_is_none(self) -> None:
        path = self.night / "a.fits.fz"
        data = path.read_bytes()
        at = data.index(b"ZCMPTYPE")
        path.write_bytes(data[:at] + b"ZCMPTYPE= 'HCOMPRESS_1'".ljust(80) + data[at + 80 :])
        os.utime(path, (2, 2))
        self.assertEqual(self.run_it("adopt", "--update", self.night)[0], 0)
        self.assertEqual(self.run_it("compare", self.plain, self.night)[0], 0)
        self.assertIn("NAXIS1", self.says(("NAXIS1", 30), ("NAXIS2", 40)))
        self.assertTrue(self.says(("NAXIS1", 30), ("NAXIS2", 40)).startswith("1 "))

    def test_a_table_that_is_not_decoded(self) -> None:
        cards = [card("XTENSION", "BINTABLE"), card("BITPIX", 8), card("NAXIS", 2), card("NAXIS1", 6), card("NAXIS2", 480), card("PCOUNT", 0), card("GCOUNT", 1), card("TFIELDS", 2)]
        first = header([card("SIMPLE", True), card("BITPIX", 8), card("NAXIS", 0)])

        def table(wide: int, many: int, *forms: str, more: "tuple[bytes, ...]" = ()) -> bytes:
            made = [*cards[:3], card("NAXIS1", wide), card("NAXIS2", many), *cards[5:7], card("TFIELDS", len(forms)), *(card(f"TFORM{it}", form) for it, form in enumerate(forms, 1)), *more]
            return first + header(made) + filled(bytes(wide * many))

        packed = [*cards[:3], card("NAXIS1", 16), card("NAXIS2", 0), *cards[5:], card("TFORM1", "1PB(0)"), card("TFORM2", "1PB(0)"), card("ZTABLE", True), card("ZTILELEN", 480)]
        packed += [card("ZNAXIS1", 6), card("ZNAXIS2", 480), card("ZPCOUNT", 0), card("ZFORM1", "1J"), card("ZFORM2", "1I"), card("ZCTYP1", "RICE_1"), card("ZCTYP2", "RICE_1")]
        path = self.night / "a.fits.fz"
        path.write_bytes(first + header(packed))
        os.utime(path, (2, 2))
        self.assertEqual(self.run_it("adopt", "--update", self.night)[0], 0)
        for data, status, said in (
            (table(6, 480, "1J", "1I"), 0, "1 part"),
            (table(6, 481, "1J", "1I"), 1, "NAXIS2 is 480, and 481 in the plain file"),
            (table(8, 480, "1J", "1J"), 1, "NAXIS1 is 6, and 8 in the plain file"),
            (table(6, 480, "1I", "1J"), 1, "TFORM1 is 1J, and 1I in the plain file"),
            (table(6, 480, "1J", "1B", "1B"), 1, "TFIELDS is 2, and 3 in the plain file"),
            (table(6, 480, "1J", "1I", more=(card("TZERO2", 32768),)), 1, "TZERO2 is 0, and 32768 in the plain file"),
            (first + image(1).replace(b"SIMPLE  =                    T", b"XTENSION= 'IMAGE   '          "), 1, "it is BINTABLE, and IMAGE in the plain file"),
        ):
            with self.subTest(said=said):
                (self.plain / "a.fits").write_bytes(data)
                self.named(said, "compare", self.plain, self.night, status=status)


class CompressedAsAWhole(Compared):
    """What comes out of a file that is compressed as a whole is compared with the file of its name, if there is one."""

    def compares(self, status: int, said: str, data: bytes) -> None:
        (self.plain / "raw.fits.gz").write_bytes(data)
        self.named(said, "compare", self.plain, self.night, status=status)

    def test_each(self) -> None:
        path = self.night / "raw.fits.gz"
        path.write_bytes(gzip.compress(image(5)))
        self.adopted()
        self.compares(0, "2 well (2 same)", path.read_bytes())
        self.compares(0, "2 well (2 same)", gzip.compress(image(5), 1, mtime=7))
        self.compares(0, "2 well (2 same)", image(5))
        self.compares(0, "2 well (2 same)", bz2.compress(image(5)))
        other = "what comes out of it is not what comes out of the other file of its name"
        self.compares(1, other, gzip.compress(image(6)))
        self.compares(1, other, image(6))
        self.compares(1, "what comes out of both could not be compared", path.read_bytes()[:-9])
        self.compares(1, "what comes out of both could not be compared", b"PK\3\4" + bytes(100))


class Descriptors(Compared):
    """A packed file that cannot be opened leaves no file open."""

    def test_links(self) -> None:
        for number in range(5):
            self.put(f"{number}.fits", image(number))
        self.adopted()
        for number in range(5):
            path = self.night / f"{number}.fits.fz"
            path.unlink()
            path.symlink_to("a.fits.fz")
        before = len(os.listdir("/proc/self/fd"))
        self.named("not well", "compare", "--jobs", 1, self.plain, self.night)
        self.assertLessEqual(len(os.listdir("/proc/self/fd")), before + 2)


if __name__ == "__main__":
    unittest.main()
