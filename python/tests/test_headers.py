"""Headers and checksums, with values that were written by hand or stand in the FITS standard."""
import unittest
from pathlib import Path

from support import PACKED, SAMPLES, InAFolder

from fzfits import headers, sums


class Values(unittest.TestCase):
    def test_values(self):
        for field, value in (
            ("                   T / yes", True), ("                   F", False), ("                 -12 / n", -12), ("+007", 7), ("'it''s  ' / x", "it's"), ("''", ""),
            ("1.5E3", 1500.0), ("-.5d1", -5.0), ("9223372036854775808", float(2**63)), ("(1, 2)", None), ("", None), ("/ comment", None), ("'open", None), ("1 2", None),
        ):
            self.assertEqual(headers.value_of(field), value, field)

    def test_cards_in_messages(self):
        for text, shown in (("BITPIX  =                   12 / bits", "BITPIX = 12"), ("ZCMPTYPE= 'GZIP_1  '", "ZCMPTYPE = 'GZIP_1'"), ("COMMENT a = b", "COMMENT a = b"), ("SIMPLE  =                    F", "SIMPLE = F")):
            self.assertEqual(str(headers.card_of(3, text.ljust(80).encode())), shown)


class Files(InAFolder):
    def test_hdus_of_a_file(self):
        found = list(headers.headers(SAMPLES / "several.fits"))
        self.assertEqual([it.sort for it in found], ["IMAGE", "IMAGE", "IMAGE", "IMAGE", "BINTABLE"])
        self.assertEqual([it.axes for it in found[1:4]], [(64, 48)] * 3)
        self.assertEqual([it.is_packable for it in found], [False, True, True, True, False])
        self.assertEqual(found[-1].end, (SAMPLES / "several.fits").stat().st_size)

    def test_a_packed_image(self):
        found = headers.header_of(PACKED / "grid.2x2.fits", 1)
        self.assertEqual((found.is_packed, found.axes, found.tile, found.start, found.data), (True, (5, 3), (2, 2), 2880, 5760))
        self.assertIsNone(headers.header_of(PACKED / "grid.2x2.fits", 2))

    def test_what_cannot_be_followed_ends_without_an_error(self):
        whole = (SAMPLES / "several.fits").read_bytes()
        for length in (0, 1, 80, 2879, 2880, 2881, 5759):
            Path("a").write_bytes(whole[:length])
            self.assertEqual(len(list(headers.headers("a"))), int(length >= 2880), length)
        Path("b").write_bytes(b"SIMPLE  =".ljust(300 * 2880))
        self.assertEqual(list(headers.headers("b")), [])


class Sums(unittest.TestCase):
    def test_the_example_of_the_standard(self):
        self.assertEqual(sums.text_of(868229149), "hcHjjc9ghcEghc9g")

    def test_a_sample_that_was_written_by_hand(self):
        raw = (PACKED / "grid.sums.fits").read_bytes()
        table = headers.header_of(PACKED / "grid.sums.fits", 1)
        of_data = sums.sum_of([raw[table.data :]])
        self.assertEqual(str(of_data), table.value("DATASUM"))
        at = table.start + 80 * table.card("CHECKSUM").number + 11
        zeroed = raw[:at] + b"0" * 16 + raw[at + 16 :]
        self.assertEqual(sums.text_of(sums.sum_of([zeroed[table.start :]])), table.value("CHECKSUM"))

    def test_carries_and_pieces(self):
        self.assertEqual(sums.added(0, b"\xff" * 8), 0xFFFFFFFF)
        self.assertEqual(sums.added(0, b"\xff\xff\xff\xff\0\0\0\2"), 2)
        data = bytes(range(250)) * 8
        self.assertEqual(sums.sum_of([data[:1000], data[1000:]]), sums.sum_of([data]))
        self.assertEqual(sums.added(0, b"\1"), 1 << 24)


if __name__ == "__main__":
    unittest.main()
