"""Mending: only what is asked for, into another file, and what comes out is the file before it was damaged."""
import os
import unittest
from pathlib import Path

from support import PACKED, SAMPLES, InAFolder, needs_program, refused_files

import fzfits

SMALL = SAMPLES / "small.fits"
OPTIONS = ("header_fill", "data_fill", "pad", "trailing", "part_hdu", "zsimple")


@needs_program
class Mending(InAFolder):
    def mended(self, path, **asked):
        """What was changed, and the bytes of the new file or None."""
        found = fzfits.mend(path, "out", **asked)
        made = Path("out").read_bytes() if os.path.exists("out") else None
        Path("out").unlink(missing_ok=True)
        self.assertEqual(bool(found), made is not None)
        return [it.option for it in found.changes], made

    def test_each_fault_by_its_own_option_only(self):
        files = refused_files(self.folder / "files")
        for number, option in ((2, "pad"), (6, "header_fill"), (7, "data_fill"), (8, "trailing")):
            before = files[number].read_bytes()
            with self.subTest(option=option):
                self.assertEqual(self.mended(files[number], **{option: True}), ([option], SMALL.read_bytes()))
                others = {it: True for it in OPTIONS if it != option}
                self.assertEqual(self.mended(files[number], **others), ([], None))
                self.assertEqual(files[number].read_bytes(), before)

    def test_blanks_after_the_data(self):
        raw = SMALL.read_bytes()
        Path("a").write_bytes(raw[: 2880 + 16] + b" " * (2880 - 16))
        self.assertEqual(self.mended("a", data_fill=True), (["data_fill"], raw))

    def test_a_last_block_that_lacks_all_padding(self):
        raw = (SAMPLES / "several.fits").read_bytes()
        table = 4 * 3
        Path("a").write_bytes(raw[: len(raw) - 2880 + table])
        with self.assertRaises(fzfits.Refused) as caught:
            fzfits.list("a")
        self.assertEqual(self.mended("a", **{caught.exception.mends: True})[1][: len(raw) - 2880 + table], raw[: len(raw) - 2880 + table])

    def test_a_last_hdu_that_is_not_whole(self):
        raw = (SAMPLES / "several.fits").read_bytes()
        whole = list(fzfits.headers.headers(SAMPLES / "several.fits"))
        for length in (whole[3].start + 8, whole[3].start + 2000, whole[3].data, whole[3].data + 100):
            with self.subTest(length=length):
                Path("a").write_bytes(raw[:length])
                self.assertEqual(self.mended("a", trailing=True, pad=True), ([], None))
                self.assertEqual(self.mended("a", part_hdu=True), (["part_hdu"], raw[: whole[3].start]))
        Path("b").write_bytes(raw[:1000])
        with self.assertRaises(fzfits.Refused):
            fzfits.mend("b", "out", part_hdu=True)

    def test_zsimple_beside_ztension(self):
        raw = (PACKED / "small.rice.fits").read_bytes()
        extension = b"ZTENSION= 'IMAGE   '".ljust(80)
        at, end = raw.index(b"ZSIMPLE "), raw.index(b"END     ", 2880)
        both = raw[:at] + raw[at : at + 80] + extension + raw[at + 80 : end] + b"END".ljust(80) + raw[end + 160 :]
        Path("both").write_bytes(both)
        with self.assertRaises(fzfits.Refused) as caught:
            fzfits.unpack("both", "out")
        self.assertEqual((caught.exception.kind, caught.exception.earlier.keyword, caught.exception.mends), ("Duplicate", "ZSIMPLE", "zsimple"))
        wanted = raw[:at] + extension + raw[at + 80 :]
        self.assertEqual(self.mended("both", zsimple=True), (["zsimple"], wanted))
        fzfits.mend("both", "mended", zsimple=True)
        fzfits.unpack("mended", "plain")
        self.assertEqual(Path("plain").read_bytes()[5760:], SMALL.read_bytes()[2880:])
        Path("right").write_bytes(raw)
        self.assertEqual(self.mended("right", zsimple=True), ([], None))

    def test_a_header_that_becomes_a_block_shorter(self):
        cards = [b"SIMPLE  =                    T", b"NAXIS   =                    0"] + [b"COMMENT"] * 34 + [b"END"]
        raw = b"".join(it.ljust(80) for it in cards).ljust(2 * 2880)
        from fzfits.mend import without

        self.assertEqual(without(raw, "NAXIS"), b"".join(it.ljust(80) for it in cards[:1] + cards[2:]))

    def test_checksums(self):
        raw = (PACKED / "grid.sums.fits").read_bytes()
        Path("a").write_bytes(raw[:-1] + b" ")
        self.assertEqual(fzfits.mend("a", "kept", data_fill=True).stale, (1,))
        self.assertEqual(Path("kept").read_bytes(), raw)
        Path("b").write_bytes(raw[:5759] + b"!" + raw[5760:])
        self.assertEqual(fzfits.mend("b", "anew", header_fill=True, sums=True).stale, ())
        self.assertEqual(Path("anew").read_bytes(), raw)
        wrong = (PACKED / "grid.wrong.fits").read_bytes()
        Path("c").write_bytes(wrong[:-1] + b" ")
        fzfits.mend("c", "right", data_fill=True, sums=True)
        self.assertTrue(fzfits.verify("right").is_right)

    def test_an_output_that_is_there(self):
        files = refused_files(self.folder / "files")
        Path("out").write_text("mine", encoding="ascii")
        with self.assertRaises(fzfits.WriteFault) as caught:
            fzfits.mend(files[8], "out", trailing=True)
        with self.assertRaises(fzfits.ReadFault):
            fzfits.mend("missing", "out", trailing=True)
        self.assertEqual((caught.exception.cause, Path("out").read_text(encoding="ascii"), self.left()), ("exists", "mine", [b"files", b"out"]))


if __name__ == "__main__":
    unittest.main()
