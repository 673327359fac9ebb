"""Errors: for a file of each kind of refusal, and for what the system has against a file."""
import errno
import os
import pickle
import re
import shutil
import unittest
from pathlib import Path

from support import FZ, PACKED, SAMPLES, TOP, InAFolder, needs_program, refused_files
from making import bound as outside

import fzfits
from fzfits import diagnose, memory, names, refusals
from fzfits.errors import shown

# What asks for each refusal, beside `unpack`.
BY_PACK = (5, 6, 7, 9, 10, 29)
CARDS = {
    1: ("SIMPLE", False), 4: ("BITPIX", 12), 5: ("BITPIX", 16), 9: ("ZTILE1", 4), 10: ("ZIMAGE", True), 11: ("NAXIS", 10), 12: ("GROUPS", True),
    13: ("ZCMPTYPE", "HCOMPRESS_1"), 14: ("ZBITPIX", -32), 15: ("ZTABLE", True), 16: ("TFORM1", "2PB(4)"), 17: ("NAXIS2", 1),
    26: ("ZSIMPLE", True), 28: ("ZNAXIS1", 5), 29: ("BZERO", 32768),
}
# Those that only a patch gives.
BY_PATCH = (31, 32)
MENDS = {2: "pad", 6: "header_fill", 7: "data_fill", 8: "trailing"}


def asked(number, path):
    """Does what gives the refusal."""
    if number in BY_PACK:
        fzfits.pack(path, "out", codec="plio" if number == 29 else "rice")
    elif number in (27, 28):
        fzfits.cut(path, "out", "1:6,1:3")
    else:
        fzfits.unpack(path, "out")


@needs_program
class Kinds(InAFolder):
    def test_each_kind(self):
        files = refused_files(self.folder / "files")
        self.assertEqual(set(files), {*range(1, 30), *BY_PATCH})
        for number, path in files.items():
            if number in BY_PATCH:
                continue
            with self.subTest(path=path.name):
                with self.assertRaises(fzfits.Refused) as caught:
                    asked(number, path)
                error = caught.exception
                self.assertEqual((error.number, f"{number:02}.{error.kind}.fits"), (number, path.name))
                self.assertEqual((error.card.keyword, error.card.value) if error.card else None, CARDS.get(number))
                self.assertEqual(error.mends, MENDS.get(number))
                self.assertTrue(error.meaning)
                self.assertIn(str(path), str(error))
                again = pickle.loads(pickle.dumps(error))
                self.assertEqual((str(again), vars(again)), (str(error), vars(error)))
                self.assertEqual(self.left(), [b"files"])

    def test_the_kinds_of_patch(self):
        files = refused_files(self.folder / "files")
        for number, target, at in ((31, 31, (1,)), (32, 28, (1, 1))):
            with self.subTest(number=number):
                with self.assertRaises(fzfits.Refused) as caught:
                    fzfits.patch(files[target], files[32], at)
                error = caught.exception
                self.assertEqual((error.number, f"{number}.{error.kind}.fits"), (number, files[number].name))
                self.assertTrue(error.meaning)

    def test_what_more_is_said(self):
        files = refused_files(self.folder / "files")
        said = {}
        for number in (2, 5, 7, 8, 11, 13, 27, 28):
            with self.assertRaises(fzfits.Refused) as caught:
                asked(number, files[number])
            said[number] = caught.exception
        self.assertIn("truncate -s 5760", said[2].advice)
        self.assertEqual((said[5].earlier.number, said[5].earlier.keyword), (1, "BITPIX"))
        self.assertIn("1 byte", said[7].advice)
        self.assertIn("10 bytes", said[8].advice)
        self.assertIn("truncate -s 5760", said[8].advice)
        self.assertEqual(said[11].limit, "9 axes")
        self.assertEqual(said[13].codec, "HCOMPRESS_1")
        self.assertIn("pack it first", said[27].advice)
        self.assertIn("5x3", said[28].advice)

    def test_one_byte_too_many(self):
        Path("a.fits").write_bytes((SAMPLES / "small.fits").read_bytes() + b"x")
        with self.assertRaises(fzfits.Refused) as caught:
            fzfits.pack("a.fits", "out")
        self.assertTrue(caught.exception.advice.startswith("There is 1 byte after the last HDU. "), caught.exception.advice)

    def test_files_that_are_no_fits_files(self):
        for start, word in ((b"\x1f\x8b\x08", "gunzip"), (b"BZh9", "bunzip2"), (b"\xfd7zXZ\0", "unxz"), (b"", "empty"), (b"hello\n", "text"), (b"<html>", "web page")):
            for length in (0, 3000):
                Path("a.fits").write_bytes(start + bytes(length) if start and word not in ("text", "web page") else start * (1 + length))
                with self.assertRaises(fzfits.Refused) as caught:
                    fzfits.list("a.fits")
                self.assertIn(word, caught.exception.advice, (start, length))
                self.assertIn(caught.exception.kind, ("Truncated", "NotFits"))

    def test_how_to_decompress_a_file(self):
        from fzfits import advice

        for name, wanted in (("a.fits.gz", "gunzip a.fits.gz"), ("really gz.fits", "gunzip -c 'really gz.fits' > NEW")):
            Path(name).write_bytes(b"\x1f\x8b\x08" + bytes(3000))
            self.assertEqual(advice.sort_of(name), f"It is compressed as a whole by gzip. Decompress it first: {wanted}")

    def test_a_pipe(self):
        os.mkfifo("pipe")
        # The program does not open it for reading while nobody writes, so the advice is asked for directly.
        from fzfits import advice

        self.assertIn("pipe", advice.sort_of("pipe"))

    def test_a_header_or_data_cut_short(self):
        whole = (SAMPLES / "several.fits").read_bytes()
        Path("a").write_bytes(whole[: 2880 + 100])
        with self.assertRaises(fzfits.Refused) as caught:
            fzfits.list("a")
        self.assertEqual((caught.exception.kind, caught.exception.mends), ("Truncated", "part_hdu"))
        self.assertIn("HDU 1, which begins at byte 2880", caught.exception.advice)
        Path("b").write_bytes((SAMPLES / "star_field.fits").read_bytes()[:10000])
        with self.assertRaises(fzfits.Refused) as caught:
            fzfits.list("b")
        self.assertIn(f"{128 * 96 * 2 - (10000 - 2880):,} of the {128 * 96 * 2:,} bytes of the data", caught.exception.advice)
        self.assertIsNone(caught.exception.mends)

    def test_lines_before_a_faulty_row(self):
        files = refused_files(self.folder / "files")
        with self.assertRaises(fzfits.Refused) as caught:
            fzfits.verify(files[19])
        self.assertEqual([it.hdu for it in caught.exception.verdicts], [0])
        self.assertEqual(caught.exception.place, ("row", 5))
        self.assertIn("the tile of the pixels [5:5,3:3]", caught.exception.advice)
        self.assertIn("Fetch the file again", caught.exception.meaning)

    def test_a_missing_card_of_a_packed_header(self):
        raw = (PACKED / "small.rice.fits").read_bytes()
        at = raw.index(b"ZBITPIX ")
        Path("a").write_bytes(raw[:at] + b"COMMENT ".ljust(80) + raw[at + 80 :])
        with self.assertRaises(fzfits.Refused) as caught:
            fzfits.list("a")
        self.assertEqual((caught.exception.kind, caught.exception.missing, caught.exception.card), ("BadCard", ("ZBITPIX",), None))


class Page(unittest.TestCase):
    def test_the_kinds_of_the_page_are_those_of_the_program(self):
        source = (TOP / "crates" / "fz_base" / "src" / "kind.rt").read_text(encoding="utf-8")
        named = {int(number): name for name, number in re.findall(r"(\w+) (?:=>|=) (\d+)", source)}
        self.assertGreaterEqual(set(refusals.kinds()), set(range(1, 30)))
        for number, found in refusals.kinds().items():
            self.assertEqual((found.name, found.number), (named[number], number))
            self.assertEqual(refusals.kind(found.name), found)
            self.assertGreater(len(found.text), 20)

    def test_no_text_ends_with_a_colon(self):
        for found in refusals.kinds().values():
            self.assertFalse((found.text + found.common).endswith(":"), found)

    def test_headings_and_bold_names(self):
        kinds = refusals.kinds_of("# A\n\n## B\n\nFor all.\n\n**7 DataFill.** One `x`\ntwo [three](y).\n\n    code\n\n### 8 TrailingBytes\n\nFour.\n\n## C\n\n**9 X.** Five.\n")
        self.assertEqual([(it.number, it.name, it.text, it.common) for it in kinds.values()], [(7, "DataFill", "One x two three.", "For all."), (8, "TrailingBytes", "Four.", "For all."), (9, "X", "Five.", "")])


@needs_program
class Systems(InAFolder):
    def test_reading(self):
        os.mkdir("folder")
        for name, number in (("missing", errno.ENOENT), ("folder", errno.EISDIR)):
            for do in (lambda it: fzfits.unpack(it, "out"), fzfits.list, fzfits.verify):
                with self.assertRaises(fzfits.ReadFault) as caught:
                    do(name)
                self.assertEqual((caught.exception.errno, caught.exception.reason), (number, os.strerror(number)))
        with self.assertRaises(fzfits.ReadFault):
            fzfits.cut("missing", "out", "1:1", hdu="SCI")
        self.assertEqual(self.left(), [b"folder"])

    def test_writing(self):
        Path("there").write_text("mine", encoding="ascii")
        os.symlink("nowhere", "link")
        for name, cause in (("there", "exists"), ("link", "exists"), (".", "exists"), ("nofolder/out", "no folder"), ("there/out", "no folder"), ("x" * 300, "other")):
            with self.subTest(name=name), self.assertRaises(fzfits.WriteFault) as caught:
                fzfits.pack(SAMPLES / "small.fits", name)
            self.assertEqual(caught.exception.cause, cause)
            self.assertEqual(caught.exception.path, name)
        self.assertEqual((Path("there").read_text(encoding="ascii"), self.left()), ("mine", [b"link", b"there"]))

    def test_a_file_that_came_meanwhile_is_not_replaced(self):
        other = self.script(f'"{FZ}" "$@"; echo theirs > out')
        with self.assertRaises(fzfits.WriteFault) as caught:
            fzfits.pack(SAMPLES / "small.fits", "out", program=other)
        self.assertEqual((caught.exception.cause, Path("out").read_bytes(), len(self.left())), ("exists", b"theirs\n", 2))

    @unittest.skipUnless(os.path.exists("/dev/full"), "there is no /dev/full")
    def test_a_full_disk(self):
        full = self.script('for out; do :; done; ln -s /dev/full "$out"; echo write fault; exit 5')
        with self.assertRaises(fzfits.WriteFault) as caught:
            fzfits.pack(SAMPLES / "small.fits", "out", program=full)
        self.assertEqual((caught.exception.cause, caught.exception.errno), ("no room", errno.ENOSPC))
        self.assertIn("Make room", str(caught.exception))
        self.assertEqual(self.left(), [b"other-fz"])

    def test_no_hard_links(self):
        def refuse(*_):
            raise OSError(errno.EPERM, "no hard links here")

        link, os.link = os.link, refuse
        try:
            fzfits.pack(SAMPLES / "small.fits", "out")
        finally:
            os.link = link
        self.assertEqual((self.left(), Path("out").read_bytes()), ([b"out"], (PACKED / "small.rice.fits").read_bytes()))

    def test_killed_and_timed_out_runs_leave_nothing(self):
        import subprocess

        with self.assertRaises(fzfits.Killed):
            fzfits.pack(SAMPLES / "small.fits", "out", program=self.script('for out; do :; done; echo part > "$out"; kill -9 $$'))
        with self.assertRaises(subprocess.TimeoutExpired):
            fzfits.pack(SAMPLES / "small.fits", "out", timeout=0.2, program=self.script('for out; do :; done; echo part > "$out"; exec sleep 60'))
        self.assertEqual(self.left(), [b"other-fz"])

    def test_no_memory(self):
        with self.assertRaisesRegex(fzfits.NoMemory, "fewer processes"):
            fzfits.list(SAMPLES / "small.fits", program=self.script("echo no memory; exit 7"))


@needs_program
class Limits(InAFolder):
    def test_what_is_said_to_be_enough_is_enough(self):
        fzfits.pack(SAMPLES / "several.fits", "several.fz", tile=(16, 16))
        tries = (
            ("pack", SAMPLES / "star_field.fits", {}),
            ("pack", SAMPLES / "star_field.fits", {"tile": (64, 64), "workers": 5}),
            ("pack", SAMPLES / "several.fits", {"tile": "32x32"}),
            ("unpack", "several.fz", {"workers": 2}),
            ("cut", "several.fz", {"box": "1:40,2:40", "hdu": 2}),
            ("verify", "several.fz", {}),
        )
        for command, path, options in tries:
            with self.subTest(command=command, options=options):
                call = getattr(fzfits, command)
                outs = [] if command == "verify" else ["out"]
                with self.assertRaises(fzfits.OverLimit) as caught:
                    call(path, *outs, memory=3000, **options)
                error = caught.exception
                self.assertEqual((error.limit, error.live + error.asked > 3000, pickle.loads(pickle.dumps(error)).enough), (3000, True, error.enough))
                self.assertIn(f"memory={error.enough}", str(error))
                call(path, *outs, memory=error.enough, **options)
                if outs:
                    os.unlink("out")

    def test_a_patch_counts_both_headers(self):
        shutil.copy(PACKED / "grid.2x2.fits", "file.fz")
        cards = ["SIMPLE  =                    T", "BITPIX  =                    8", "NAXIS   =                    2"]
        cards += ["NAXIS1  =                    1", "NAXIS2  =                    1"] + ["COMMENT"] * 200 + ["END"]
        header = "".join(it.ljust(80) for it in cards).encode()
        Path("patch.fits").write_bytes(header.ljust(-(-len(header) // 2880) * 2880) + bytes(2880))
        with self.assertRaises(fzfits.OverLimit) as caught:
            fzfits.patch("file.fz", "patch.fits", (1, 1), memory=3000)
        self.assertEqual(caught.exception.enough, memory.enough("file.fz", "patch", patch="patch.fits"))
        self.assertGreater(caught.exception.enough, memory.enough("file.fz", "patch"))
        fzfits.patch("file.fz", "patch.fits", (1, 1), memory=caught.exception.enough)

    def test_it_is_the_bound_of_the_manual(self):
        self.assertEqual(memory.bound(2880, 4096), 208256)  # in fz.1
        self.assertEqual(memory.bound(28800, 10000), 449024)  # in docs/ARCHIVE.md
        several = SAMPLES / "several.fits"
        for tile in (None, (7, 9), (100, 100)):
            for workers in (1, 3):
                wanted = outside.bound_of("pack", several.read_bytes(), tile, workers, None)
                self.assertEqual(memory.enough(several, "pack", tile=tile, workers=workers), wanted)
        packed = PACKED / "grid.2x2.fits"
        self.assertEqual(memory.enough(packed, "unpack", workers=4), outside.bound_of("unpack", packed.read_bytes(), None, 4, None))
        self.assertEqual(memory.enough(packed, "cut", hdu=1), outside.bound_of("unpack", packed.read_bytes(), None, 1, None))
        Path("empty").write_bytes(b"")
        self.assertIsNone(memory.enough("empty"))


class Small(unittest.TestCase):
    def test_names_in_messages(self):
        for name, text in (("a.fits", "a.fits"), ("a b", "a b"), ("a\nb", "'a\\nb'"), (" a", "' a'"), (b"a\xff", "'a\\xff'"), (Path("x/y"), "x/y")):
            self.assertEqual(shown(name), text)

    def test_the_system_is_asked(self):
        self.assertEqual(diagnose.probed(b"/nowhere/out"), errno.ENOENT)
        self.assertEqual(names.write_fault("a", errno.EROFS).cause, "read-only")


if __name__ == "__main__":
    unittest.main()
