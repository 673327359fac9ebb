"""The commands, held against files and lines that were written out by hand."""
import os
import unittest
from pathlib import Path

from support import PACKED, SAMPLES, InAFolder, needs_program

import fzfits
from fzfits import Drill, Hdu, Verdict


@needs_program
class Packing(InAFolder):
    def test_packed_files_are_those_that_were_written_by_hand(self):
        for plain, options, packed in (
            ("small", {}, "small.rice"),
            ("small", {"codec": "none"}, "small.none"),
            ("grid", {"codec": "none", "tile": (2, 2)}, "grid.2x2"),
            ("grid", {"codec": "none", "tile": "2x2", "sums": True, "workers": 3, "memory": 1 << 20}, "grid.sums"),
            ("grid", {"codec": "none", "tile": "2,2", "sums": True}, "grid.sums"),
        ):
            with self.subTest(packed=packed, options=options):
                made = fzfits.pack(SAMPLES / f"{plain}.fits", "out", **options)
                self.assertEqual(Path("out").read_bytes(), (PACKED / f"{packed}.fits").read_bytes())
                self.assertEqual((made.path, made.size, made.source_size), ("out", os.path.getsize("out"), (SAMPLES / f"{plain}.fits").stat().st_size))
                self.assertEqual(self.left(), [b"out"])
                os.unlink("out")

    def test_unpack_gives_the_plain_file(self):
        for packed, plain in (("small.rice", "small"), ("small.none", "small"), ("grid.2x2", "grid"), ("grid.sums", "grid")):
            fzfits.unpack(PACKED / f"{packed}.fits", packed)
            self.assertEqual(Path(packed).read_bytes(), (SAMPLES / f"{plain}.fits").read_bytes())

    def test_cut(self):
        # The pixels of samples/grid.fits are 1 to 15 in rows of five.
        for box in ("2:4,2:3", [(2, 4), (2, 3)]):
            made = fzfits.cut(PACKED / "grid.2x2.fits", "out", box)
            self.assertEqual(Path("out").read_bytes()[2880:2886], bytes([7, 8, 9, 12, 13, 14]))
            os.unlink(made.path)
        fzfits.cut(PACKED / "grid.2x2.fits", "out", [(1, 5, 2), (1, 3, 2)], hdu=1)
        self.assertEqual(Path("out").read_bytes()[2880:2886], bytes([1, 3, 5, 11, 13, 15]))

    def test_hdus_by_name(self):
        several = (SAMPLES / "several.fits").read_bytes()
        names = {it.number: it.name for it in fzfits.list(SAMPLES / "several.fits")}
        fzfits.pack(SAMPLES / "several.fits", "several.fz")
        self.assertEqual({it.number: it.name for it in fzfits.list("several.fz")}, names)
        for number, name in names.items():
            self.assertIn(name.encode(), several)
            if name and number < 4:
                fzfits.cut("several.fz", f"{number}", "1:2,1:2", hdu=name.lower())
                fzfits.cut("several.fz", f"{number}.too", "1:2,1:2", hdu=(name, 1))
                self.assertEqual(Path(f"{number}").read_bytes(), Path(f"{number}.too").read_bytes())
        with self.assertRaises(fzfits.NoSuchHdu) as caught:
            fzfits.cut("several.fz", "out", "1:2,1:2", hdu="WHT")
        self.assertIsInstance(caught.exception, LookupError)
        self.assertIn(names[1], str(caught.exception))

    def test_verify(self):
        report = fzfits.verify(PACKED / "grid.wrong.fits")
        self.assertEqual(report.verdicts, (Verdict(0, "none", "none", None), Verdict(1, "wrong", "wrong", 6)))
        self.assertEqual((report.is_right, report.wrong, report.strict), (False, report.verdicts[1:], None))
        right = fzfits.verify(PACKED / "grid.sums.fits")
        self.assertEqual((right.is_right, right.unsummed), (True, ()))
        self.assertEqual([it.hdu for it in fzfits.verify(PACKED / "grid.2x2.fits").unsummed], [1])

    def test_list(self):
        self.assertEqual(
            fzfits.list(PACKED / "grid.2x2.fits"),
            (Hdu(0, "IMAGE", 8, (), 2880, 0), Hdu(1, "PACKED", 8, (5, 3), 2880, 2880, "NOCOMPRESS", (2, 2), 6)),
        )
        self.assertEqual(fzfits.list(PACKED / "grid.2x2.fits")[1].shape, (3, 5))

    def test_drill(self):
        found = fzfits.drill(16)
        self.assertEqual(found, (Drill("rice", 8640, "same", "same"), Drill("plio", 8640, "same", "same"), Drill("none", 14400, "same", "same")))

    def test_words_that_are_not_taken(self):
        for words in ({"codec": "gzip"}, {"tile": (0, 1)}, {"tile": (-1,)}, {"block": 16, "codec": "plio"}, {"workers": 65}, {"memory": -5}):
            with self.subTest(words=words), self.assertRaises(fzfits.Usage):
                fzfits.pack(SAMPLES / "small.fits", "out", **words)
        self.assertEqual(self.left(), [])

    def test_a_program_without_a_command_says_so(self):
        old = self.script('echo "usage: fz pack, unpack, cut, verify, list or drill"; exit 2')
        with self.assertRaisesRegex(fzfits.Usage, "has no command retile: it has pack, unpack, cut, verify, list, drill"):
            fzfits.retile(PACKED / "grid.2x2.fits", "out", program=old)
        with self.assertRaisesRegex(fzfits.Usage, "has no command patch"):
            fzfits.patch(PACKED / "grid.2x2.fits", SAMPLES / "small.fits", (1, 1), program=old)
        with self.assertRaisesRegex(fzfits.Usage, "does not take --strict"):
            fzfits.verify(PACKED / "grid.2x2.fits", strict=True, program=old)

    def test_strict(self):
        new = self.script('echo "HDU 0 datasum none checksum none tiles -"; echo "strict no"; exit 1')
        report = fzfits.verify("any", strict=True, program=new)
        self.assertEqual((report.strict, report.is_right, len(report.verdicts)), (False, False, 1))

    def test_strict_of_the_program(self):
        try:
            found = fzfits.verify(PACKED / "small.rice.fits", strict=True)
        except fzfits.Usage as said:
            self.assertIn("does not take --strict", str(said))
            self.skipTest("the program does not take --strict")
        self.assertEqual((found.strict, found.is_right, len(found.verdicts)), (True, True, 2))
        plain = fzfits.verify(SAMPLES / "small.fits", strict=True)
        self.assertEqual((plain.strict, plain.is_right, plain.wrong), (False, False, ()))
        wrong = fzfits.verify(PACKED / "grid.wrong.fits", strict=True)
        self.assertEqual((wrong.strict, wrong.is_right, len(wrong.wrong)), (False, False, 1))
        self.assertIsNone(fzfits.verify(SAMPLES / "small.fits").strict)


@needs_program
class Names(InAFolder):
    ODD = ("a b\nc.fits", "-dash.fits", "--sums", "-", "caf\u00e9'\"$(x)`.fits", b"not\xff utf8.fits")

    def test_odd_names_of_inputs_and_outputs(self):
        for name in self.ODD:
            with self.subTest(name=name):
                self.copy(SAMPLES / "small.fits", name)
                packed, again = os.fsencode(name) + b".fz", b"again-" + os.fsencode(name)
                fzfits.pack(name, packed)
                self.assertEqual(Path(os.fsdecode(packed)).read_bytes(), (PACKED / "small.rice.fits").read_bytes())
                self.assertEqual(len(fzfits.list(packed)), 2)
                fzfits.unpack(packed, again)
                self.assertEqual(Path(os.fsdecode(again)).read_bytes(), (SAMPLES / "small.fits").read_bytes())
        self.assertEqual([it for it in self.left() if it.startswith(b".")], [])

    def test_a_folder_whose_name_is_not_utf8(self):
        os.mkdir(b"night \xff")
        self.copy(SAMPLES / "small.fits", b"night \xff/a.fits")
        fzfits.pack(b"night \xff/a.fits", b"night \xff/a.fz")
        self.assertEqual(sorted(os.listdir(b"night \xff")), [b"a.fits", b"a.fz"])

    def test_names_that_no_file_has(self):
        for name in ("", b"a\0b"):
            with self.assertRaises(fzfits.Usage):
                fzfits.list(name)
            with self.assertRaises(fzfits.Usage):
                fzfits.pack(SAMPLES / "small.fits", name)

    def test_messages_can_be_printed(self):
        for name in self.ODD:
            with self.assertRaises(fzfits.ReadFault) as caught:
                fzfits.list(os.fsencode(name) + b".missing")
            str(caught.exception).encode("utf-8")
            self.assertEqual(str(caught.exception).count("\n"), 1)


if __name__ == "__main__":
    unittest.main()
