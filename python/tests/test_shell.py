"""The command fzfits: what it prints, and the files that it makes and keeps."""
import contextlib
import io
import os
import shutil
import subprocess
import unittest
from pathlib import Path
from unittest import mock

from support import PACKED, SAMPLES, InAFolder, needs_numpy, needs_program, np, refused_files

import fzfits
from fzfits import checks
from fzfits.contents import contents
from fzfits.shell import cli, packing

FPACK = shutil.which("fpack")


class InAShell(InAFolder):
    def call(self, *words, status=0):
        """What the command prints, on standard output and on standard error."""
        out, err = io.StringIO(), io.StringIO()
        with contextlib.redirect_stdout(out), contextlib.redirect_stderr(err):
            try:
                got = cli.main([str(it) for it in words])
            except SystemExit as ended:
                got = ended.code
        self.assertEqual(got, status, (words, out.getvalue(), err.getvalue()))
        return out.getvalue() + err.getvalue()


@needs_program
class Packing(InAShell):
    def test_several_files_and_default_names(self):
        for name in ("star_field", "several"):
            self.copy(SAMPLES / f"{name}.fits", f"{name}.fits")
        said = self.call("pack", "star_field.fits", "missing.fits", "several.fits", status=1)
        self.assertIn("fzfits pack: missing.fits: cannot be read: No such file or directory", said)
        self.assertIn("star_field.fits -> star_field.fits.fz: 28,800 -> ", said)
        os.mkdir("back")
        self.call("unpack", "--quiet", "--folder", "back", "star_field.fits.fz", "several.fits.fz")
        for name in ("star_field", "several"):
            self.assertEqual(Path(f"back/{name}.fits").read_bytes(), (SAMPLES / f"{name}.fits").read_bytes())
        self.assertIn("there is a file of that name already", self.call("pack", "several.fits", status=1))
        self.assertIn("name the output with -o", self.call("unpack", "several.fits", status=1))
        self.assertIn("-o names one output", self.call("pack", "-o", "x", "several.fits", "star_field.fits", status=2))
        self.assertIn("lines of text only", self.call("unpack", "-o", "-", "several.fits.fz", status=1))

    def test_options(self):
        self.call("pack", "--tile", "2,2", "--codec", "none", "--no-sums", "--memory", "1M", "-o", "a.fz", SAMPLES / "grid.fits")
        self.assertEqual(Path("a.fz").read_bytes(), (PACKED / "grid.2x2.fits").read_bytes())
        self.assertIn("--tile 64x64: write 64,64", self.call("pack", "--tile", "64x64", SAMPLES / "grid.fits", status=2))
        said = self.call("pack", SAMPLES / "grid.fits", "out.fz", status=2)
        self.assertIn("pack takes input files only; name the output with -o out.fz", said)
        self.assertIn("fzfits: nofile.fits: No such file or directory", self.call("look", "nofile.fits", status=2))
        self.assertIn("is no number of bytes", self.call("pack", "--memory", "lots", "a.fits", status=2))
        self.assertIn(" is enough; fewer workers", self.call("pack", "--memory", "100K", "--tile", "128,96", "-o", "b.fz", SAMPLES / "star_field.fits", status=1))

    def test_delete_only_what_was_compared(self):
        self.copy(SAMPLES / "several.fits", "a.fits")
        self.assertIn("compared and deleted", self.call("pack", "--delete", "a.fits"))
        self.assertEqual(self.left(), [b"a.fits.fz"])
        self.assertTrue(fzfits.verify("a.fits.fz").is_right)
        self.call("unpack", "a.fits.fz")
        self.assertEqual(Path("a.fits").read_bytes(), (SAMPLES / "several.fits").read_bytes())

    def test_a_file_that_does_not_come_back_stays(self):
        self.copy(SAMPLES / "several.fits", "a.fits")
        with mock.patch.object(packing, "same_bytes", return_value=False):
            self.assertIn("a.fits stays", self.call("pack", "--delete", "a.fits", status=1))
        self.assertEqual(self.left(), [b"a.fits", b"a.fits.fz"])
        os.unlink("a.fits.fz")
        with mock.patch.object(packing.commands, "unpack", side_effect=fzfits.ReadFault("the disk is gone", path="a.fits.fz")):
            self.assertIn("the disk is gone", self.call("pack", "--delete", "a.fits", status=1))
        self.assertEqual(self.left(), [b"a.fits", b"a.fits.fz"])
        os.unlink("a.fits.fz")
        touched = packing.same_bytes

        def changed(one, other):
            same = touched(one, other)
            os.utime("a.fits")
            return same

        with mock.patch.object(packing, "same_bytes", changed):
            self.assertIn("a.fits stays", self.call("pack", "--delete", "a.fits", status=1))
        os.symlink("a.fits", "link.fits")
        self.assertIn("no regular file", self.call("pack", "--delete", "link.fits", status=1))
        self.assertEqual(self.left(), [b"a.fits", b"a.fits.fz", b"link.fits", b"link.fits.fz"])

    def test_cut(self):
        self.call("pack", "-o", "a.fz", SAMPLES / "several.fits")
        self.call("cut", "a.fz[SCI][1:10,*:2]", "one")
        self.call("cut", f"{SAMPLES}/several.fits[SCI][1:10,*:2]", "other")
        self.assertEqual(Path("one").read_bytes(), Path("other").read_bytes())
        self.assertIn("has 64", self.call("cut", f"{SAMPLES}/several.fits[SCI][1:65,*]", "x", status=1))
        said = self.call("cut", "a.fz[SCI][1:65,*]", "x", status=1)
        self.assertIn("28 OutOfBox", said)
        self.assertIn("The box passes the end of axis 1 (64 pixels)", said)
        self.assertIn("It has SCI, DQ, ERR", self.call("cut", "a.fz[WHT][1:2,*]", "x", status=1))
        self.assertIn("is no piece of a section", self.call("cut", "a.fz[SCI][1-5,*]", "x", status=1))


@needs_program
class Reading(InAShell):
    def test_list(self):
        said = self.call("list", SAMPLES / "several.fits", PACKED / "grid.2x2.fits", "missing", status=1)
        self.assertRegex(said, r"(?m)^1    SCI   image  uint16  64x48 ")
        self.assertRegex(said, r"(?m)^1    -     packed image  uint8  5x3   NOCOMPRESS  2x2 ")
        self.assertIn("missing: No such file or directory", said)
        Path("text").write_text("hello\n")
        self.assertIn("It is a text file", self.call("list", "text", status=1))
        Path("long").write_bytes((SAMPLES / "small.fits").read_bytes() + b"x")
        self.assertIn("what follows from byte 5760 on, 1 byte, is no HDU: see fzfits why long", self.call("list", "long", status=1))

    @unittest.skipUnless(FPACK, "fpack is not installed")
    def test_files_of_other_packers(self):
        self.copy(SAMPLES / "several.fits", "a.fits")
        subprocess.run(["fpack", "-g1", "-O", "a.fz", "a.fits"], check=True, capture_output=True)
        said = self.call("list", "a.fz")
        self.assertEqual(said.count("is passed over: fz does not read the codec GZIP_1"), 3)
        self.assertEqual(self.call("verify", "a.fz"), "a.fz: ok, 5 HDUs, 0 tiles decoded, 3 HDUs not decoded\n" + "".join(
            f"    HDU {it} ({name}): not decoded: fz does not read the codec GZIP_1; ok: DATASUM, CHECKSUM\n" for it, name in ((1, "SCI"), (2, "DQ"), (3, "ERR"))))
        raw = bytearray(Path("a.fz").read_bytes())
        raw[fzfits.headers.header_of("a.fz", 2).data + 900] ^= 1
        Path("b.fz").write_bytes(raw)
        said = self.call("verify", "b.fz", status=1)
        self.assertIn("HDU 2 (DQ): WRONG: DATASUM, CHECKSUM; not decoded", said)
        self.assertIn("ZCMPTYPE = 'GZIP_1'", self.call("why", "a.fz", status=1))

    def test_verify_goes_on(self):
        files = refused_files(self.folder / "files")
        faults = 0
        for number, path in files.items():
            if number in (1, 3):
                continue
            found = checks.check(path)
            if number in (13, 14, 15, 20):
                self.assertTrue(any(it.undecoded for it in found), path.name)
            elif number not in (5, 6, 7, 9, 10, 27, 28, 29, 31, 32):
                self.assertTrue(any(it.fault.startswith(f"{number} ") for it in found), (path.name, found))
                faults += 1
        self.assertGreaterEqual(faults, 12)
        said = self.call("verify", files[18], PACKED / "grid.sums.fits", status=1)
        self.assertIn("FAULT: 18 DescriptorRange, row 3", said)
        self.assertIn("grid.sums.fits: ok, 2 HDUs, 6 tiles decoded", said)
        self.assertIn("1 NotFits", self.call("verify", files[1], status=1))

    def test_the_sums_that_an_image_had(self):
        with open(SAMPLES / "sums.fits", "rb") as file:
            raw = file.read()
        self.assertEqual(len([it for it in fzfits.headers.headers(SAMPLES / "sums.fits") if it.card("CHECKSUM")]), 2)
        Path("a.fits").write_bytes(raw)
        fzfits.pack("a.fits", "a.fz", sums=True)
        found = {it.hdu: it for it in checks.check("a.fz")}
        self.assertEqual((found[1].image_datasum, found[1].image_checksum, found[1].checksum), ("ok", "ok", "ok"))
        self.assertEqual(checks.check("a.fz", images=False)[1].image_datasum, "none")
        Path("b.fits").write_bytes(raw[: 2880 * 2] + bytes([raw[2880 * 2] ^ 255]) + raw[2880 * 2 + 1 :])
        fzfits.pack("b.fits", "b.fz", sums=True)
        self.assertIn("WRONG: DATASUM of the image, CHECKSUM of the image", self.call("verify", "b.fz", status=1))

    def test_why(self):
        files = refused_files(self.folder / "files")
        for number, path in files.items():
            if number in (27, 28, 31, 32):
                continue
            said = self.call("why", *(["--pack"] if number == 10 else []), path, status=0 if number == 29 else 1)
            if number != 29:
                self.assertIn(f"refused: {number} ", said)
        self.assertIn("fzfits mend --pad", self.call("why", files[2], status=1))
        self.assertIn("nothing is wrong: fz packs it", self.call("why", SAMPLES / "small.fits"))
        self.assertIn("nothing is wrong: fz unpacks", self.call("why", PACKED / "small.rice.fits"))
        self.assertIn("DATASUM of HDU 1 does not fit its data", self.call("why", PACKED / "grid.wrong.fits", status=1))

    def test_wrong_sums_are_named_packed_and_mended(self):
        raw = (SAMPLES / "sums.fits").read_bytes()
        Path("of_data.fits").write_bytes(raw[:5767] + bytes([raw[5767] ^ 1]) + raw[5768:])
        self.copy(SAMPLES / "sums.fits", "of_header.fits")
        for name, means in (("of_header", "CHECKSUM of HDU 2 does not fit its bytes; its data are as DATASUM says"), ("of_data", "DATASUM of HDU 1 does not fit its data")):
            said = self.call("why", f"{name}.fits", status=1)
            self.assertIn(means, said)
            self.assertIn(f"fzfits mend --sums {name}.fits OUT", said)
            self.assertIn(f"warning: {name}.fits: {means}", self.call("pack", f"{name}.fits"))
            self.call("unpack", "-o", "back", f"{name}.fits.fz")
            self.assertEqual(Path("back").read_bytes(), Path(f"{name}.fits").read_bytes())
            os.unlink("back")
            self.assertIn("HDU 2: CHECKSUM made anew; its data are as DATASUM says", self.call("mend", "--sums", f"{name}.fits", f"{name}.right.fits"))
            self.assertIn("nothing is wrong", self.call("why", f"{name}.right.fits"))
            self.assertNotIn("warning", self.call("pack", f"{name}.right.fits"))
        self.assertIn("nothing to mend", self.call("mend", "--sums", "of_data.right.fits", "more.fits", status=1))
        self.assertFalse(Path("more.fits").exists())

    def test_mend(self):
        raw = (SAMPLES / "small.fits").read_bytes()
        Path("short.fits").write_bytes(raw[:-60])
        self.assertIn("fzfits mend --pad short.fits OUT", self.call("pack", "short.fits", status=1))
        self.call("mend", "--pad", "short.fits", "long.fits")
        self.assertEqual(Path("long.fits").read_bytes(), raw)
        self.assertIn("no file was made", self.call("mend", "--pad", "long.fits", "more.fits", status=1))
        self.assertIn("say which faults", self.call("mend", "short.fits", "more.fits", status=1))
        self.assertEqual(self.left(), [b"long.fits", b"short.fits"])

    def test_plan(self):
        said = self.call("plan", SAMPLES / "star_field.fits")
        self.assertRegex(said, r"(?m)^rice +row +20,160 +1\.43 +\d+ of 96 ")
        self.assertRegex(said, r"(?m)^smallest of those that the most readers read: fzfits pack.* .*star_field\.fits$")
        self.assertRegex(said, r"(?m)^none .* all but .*astropy 5")

    def test_header(self):
        said = self.call("header", "--hdu", "DQ", SAMPLES / "several.fits")
        self.assertIn("EXTNAME = 'DQ", said)
        self.assertEqual(said, self.call("header", f"{SAMPLES}/several.fits[DQ]"))
        self.assertEqual(self.call("header", SAMPLES / "several.fits").count("# "), 5)
        self.assertIn("there is no HDU 9: it has 5, counted from 0", self.call("header", "--hdu", "9", SAMPLES / "several.fits", status=1))
        self.assertIn("no HDU has the EXTNAME WHT", self.call("header", "--hdu", "WHT", SAMPLES / "several.fits", status=1))

    def test_words_that_are_not_taken(self):
        for words in ((), ("pack",), ("nothing", "a"), ("cut", "a.fits"), ("mend", "a")):
            self.call(*words, status=2)
        self.assertIn("usage: fzfits", self.call("--help"))
        self.assertIn(fzfits.__version__, self.call("--version"))

    def test_without_the_program_this_is_said_once(self):
        with mock.patch.dict(os.environ, {"FZ": "/nowhere/fz"}):
            said = self.call("verify", SAMPLES / "small.fits", SAMPLES / "grid.fits", status=1)
            self.assertEqual(said, "fzfits verify: the environment variable FZ names '/nowhere/fz', which is not a program\n")
            self.assertEqual(self.call("list", SAMPLES / "small.fits").count("\n"), 3)

    @needs_numpy
    def test_types_are_those_of_arrays(self):
        fzfits.pack(SAMPLES / "several.fits", "a.fz")
        for path in (SAMPLES / "several.fits", Path("a.fz")):
            for it in contents(path)[0]:
                if it.sort.endswith("image"):
                    self.assertEqual(np.dtype(it.type), fzfits.section(path, it.number).dtype)


if __name__ == "__main__":
    unittest.main()
