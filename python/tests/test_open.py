"""fzfits.open: the mapping of HDUs, what is refused and how, where bytes come from, threads, pickling and closing."""
import gc
import io
import os
import pickle
import random
import re
import subprocess
import threading
import unittest
from pathlib import Path

from support import FZ, PACKED, SAMPLES, InAFolder, needs_library, needs_numpy, needs_program, np, refused_files

import fzfits
from fzfits import errors, refusals
from fzfits.opening.faults import Kind

REFUSED = re.compile(r"refused: (\d+) (\w+) hdu (\d+) (\w+ \d+)")


def told(error):
    """What the program prints of a refusal."""
    return f"refused: {error.number} {error.kind} hdu {error.hdu} {error.place}"


def told_by_cut(path, hdu):
    """What `fz cut` prints for this HDU and the box of its first pixel, or None if it cuts."""
    for axes in range(1, 10):
        said = subprocess.run([FZ, "cut", f"--hdu={hdu}", f"--box={','.join(['1:1'] * axes)}", path, "cut.fits"], capture_output=True, text=True, check=False)
        Path("cut.fits").unlink(missing_ok=True)
        found = REFUSED.search(said.stdout + said.stderr)
        if found is None or found[2] != "OutOfBox":
            break
    return found[0] if found else None


def told_by_open(path, hdu):
    """What `fzfits.open` says for it, or None if its first pixel can be read."""
    try:
        image = fzfits.open(path)[hdu]
        image.section[(slice(1),) * image.ndim]
    except errors.Refused as error:
        return told(error)
    except errors.NoSuchHdu:
        return "none"
    return None


@needs_numpy
class Mapping(InAFolder):
    def test_hdus_by_number_and_name(self):
        with fzfits.open(SAMPLES / "several.fits") as file:
            self.assertEqual((len(file), list(file), [it.name for it in file.values()]), (5, [0, 1, 2, 3, 4], ["", "SCI", "DQ", "ERR", ""]))
            self.assertEqual([it.number for it in file.images], [1, 2, 3])
            self.assertIs(file["SCI"], file[1])
            self.assertIs(file["sci", 1], file[1])
            self.assertEqual((file["DQ"].shape, file["DQ"].dtype, len(file["DQ"])), ((48, 64), np.dtype("u1"), 48))
            self.assertEqual([it in file for it in ("ERR", 4, 5, "NONE", ("SCI", 2))], [True, True, False, False, False])
            self.assertEqual(file.first.number, 1)
            self.assertIsNone(file.refused)
            for key in (5, -1, "NONE", ("SCI", 2)):
                with self.subTest(key=key), self.assertRaises(fzfits.NoSuchHdu):
                    file[key]
            self.assertIsNone(file.get("NONE"))

    def test_what_has_no_pixels_says_why(self):
        file = fzfits.open(SAMPLES / "several.fits")
        self.assertEqual((file[0].undecoded, file[4].undecoded, file[1].undecoded), ("it is no image: empty", "it is no image: table", ""))
        for use in (lambda it: it.shape, lambda it: it.section, lambda it: it[0], lambda it: it.read(), lambda it: it.to_dask(), np.asarray):
            with self.assertRaises(fzfits.Refused) as caught:
                use(file[4])
            self.assertEqual((caught.exception.kind, caught.exception.hdu), ("NotPacked", 4))
        self.assertIn("HDU 4", repr(file))

    def test_headers(self):
        plain = fzfits.open(SAMPLES / "several.fits")["SCI"].header
        self.assertEqual(plain.value("EXTNAME"), "SCI")

    @needs_program
    @needs_library
    def test_a_packed_image_has_the_header_that_unpack_restores(self):
        fzfits.pack(SAMPLES / "several.fits", "packed.fits", sums=True)
        plain, packed = fzfits.open(SAMPLES / "several.fits"), fzfits.open("packed.fits")
        for number in (1, 2, 3):
            self.assertEqual(packed[number].header.raw, plain[number].header.raw)
            self.assertTrue(np.array_equal(packed[number], plain[number]))
        fzfits.pack(SAMPLES / "star_field.fits", "field.fits", tile=(32, 32))
        packed = fzfits.open("field.fits")
        self.assertEqual(packed["PRIMARY"].header.raw, fzfits.open(SAMPLES / "star_field.fits")["PRIMARY"].header.raw)
        self.assertEqual((packed[1].chunks, packed[1].tiles), ((32, 32), tuple(-(-it // 32) for it in packed[1].shape)))

    @needs_library
    def test_an_image_is_an_array(self):
        image = fzfits.open(PACKED / "grid.2x2.fits").first
        whole = np.arange(1, 16, dtype="u1").reshape(3, 5)
        self.assertTrue(np.array_equal(np.asarray(image), whole))
        self.assertEqual((image.ndim, image.size, image.nbytes, image.chunks, image.tiles), (2, 15, 15, (2, 2), (2, 3)))
        self.assertEqual(np.asarray(image, "f8").dtype, np.dtype("f8"))
        self.assertEqual((image[1, 2], image[..., -1].tolist(), image[::-2, 1].tolist()), (8, [5, 10, 15], [12, 2]))
        self.assertEqual((image[2:1].shape, image.section[0:0, 0:3].shape), ((0, 5), (0, 3)))
        self.assertTrue(np.array_equal(image.tile(1, 2), whole[2:, 4:]))
        for wrong in ((2, 0), (0,), (-1, 0)):
            with self.assertRaises(IndexError):
                image.tile(*wrong)


@needs_numpy
@needs_library
@needs_program
class Refusals(InAFolder):
    def test_files_of_each_kind_are_refused_as_cut_refuses_them(self):
        kinds = set()
        for number, path in refused_files(self.folder).items():
            for hdu in (0, 1, 2):
                wanted, found = told_by_cut(path, hdu), told_by_open(path, hdu)
                with self.subTest(file=path.name, hdu=hdu):
                    # A plain image and an HDU that is not there are NotPacked for cut; open reads the one, and has not the other.
                    self.assertEqual(found, wanted if wanted is None or "NotPacked" not in wanted or found not in (None, "none") else found)
                kinds.add(number)
        self.assertGreater(len(kinds), 25)

    def test_the_kinds_are_those_of_the_page(self):
        for it in Kind:
            self.assertEqual(refusals.kind(int(it)).name, it.name)

    def test_a_fault_after_an_hdu_does_not_hide_it(self):
        whole = (PACKED / "grid.2x2.fits").read_bytes()
        Path("more.fits").write_bytes(whole + b"more")
        file = fzfits.open("more.fits")
        self.assertEqual((len(file), file[1].shape, file.refused.kind), (2, (3, 5), "TrailingBytes"))
        with self.assertRaises(fzfits.Refused):
            file[2]
        with self.assertRaises(fzfits.Refused) as caught:
            fzfits.open(b"no FITS file")
        self.assertEqual(told(caught.exception), "refused: 2 Truncated hdu 0 byte 12")

    def test_errors_say_file_hdu_and_pixels(self):
        damaged = bytearray((PACKED / "small.rice.fits").read_bytes())
        damaged[5760:5764] = b"\0\0\x40\0"
        Path("damaged.fits").write_bytes(damaged)
        image = fzfits.open("damaged.fits")[1]
        with self.assertRaises(fzfits.Refused) as caught:
            image.section[...]
        said = str(caught.exception)
        for it in ("damaged.fits", "DescriptorRange", "HDU 1", "row 0", "[1:4,1:1]"):
            self.assertIn(it, said)
        self.assertEqual(image.section[1].tolist(), [0, 1, 0, 1])
        self.assertEqual(pickle.loads(pickle.dumps(caught.exception)).kind, "DescriptorRange")


@needs_numpy
@needs_library
class Sources(InAFolder):
    def setUp(self):
        super().setUp()
        self.copy(PACKED / "grid.2x2.fits", "grid.fits")
        self.whole = np.arange(1, 16, dtype="u1").reshape(3, 5)

    def test_bytes_and_open_files(self):
        raw = Path("grid.fits").read_bytes()
        with open("grid.fits", "rb") as opened, open("grid.fits", "rb", buffering=0) as unbuffered:
            for thing in (raw, bytearray(raw), memoryview(raw), io.BytesIO(raw), opened, unbuffered, "grid.fits", Path("grid.fits")):
                with fzfits.open(thing) as file:
                    self.assertTrue(np.array_equal(file[1][...], self.whole), thing)
            self.assertEqual((opened.tell(), opened.closed), (0, False))
        with self.assertRaises(fzfits.Usage):
            fzfits.open(3.5)
        with open("grid.fits", encoding="latin-1") as text, self.assertRaises(fzfits.Usage):
            fzfits.open(text)
        with self.assertRaises(fzfits.ReadFault) as caught:
            fzfits.open("missing.fits")
        self.assertIn("missing.fits", str(caught.exception))

    def test_a_file_that_was_cut_short_is_a_read_fault(self):
        image = fzfits.open("grid.fits")[1]
        os.truncate("grid.fits", 5760)
        with self.assertRaises(fzfits.ReadFault) as caught:
            image.section[...]
        self.assertIn("open it again", str(caught.exception))

    def test_after_close_nothing_is_read(self):
        for thing in ("grid.fits", Path("grid.fits").read_bytes()):
            with fzfits.open(thing) as file:
                image = file[1]
            with self.assertRaises(ValueError):
                image.section[...]

    def test_descriptors_are_closed(self):
        gc.collect()
        before = len(os.listdir("/proc/self/fd"))
        for _ in range(50):
            with fzfits.open("grid.fits") as file:
                file[1].section[...]
        self.assertEqual(len(os.listdir("/proc/self/fd")), before)

    def test_pickling(self):
        for raw in (False, True):
            for thing in ("grid.fits", Path("grid.fits").read_bytes()):
                file = fzfits.open(thing, raw=raw)
                again, image = pickle.loads(pickle.dumps(file)), pickle.loads(pickle.dumps(file[1]))
                self.assertTrue(np.array_equal(again[1], self.whole))
                self.assertEqual((image.raw, again.raw), (raw, raw))
                self.assertTrue(np.array_equal(image[1:], self.whole[1:]))
        with open("grid.fits", "rb") as opened, self.assertRaisesRegex(fzfits.Usage, "by its path"):
            pickle.dumps(fzfits.open(opened)[1])

    def test_four_threads_find_what_one_finds(self):
        rng = random.Random(4)
        Path("field.fits").write_bytes((SAMPLES / "star_field.fits").read_bytes())
        plain = fzfits.open("field.fits").first[...]
        path = "field.fits"
        if FZ:
            path = "packed.fits"
            fzfits.pack("field.fits", path, tile=(20, 20))
        image, wrong, done = fzfits.open(path).first, [], []

        def work(seed):
            its = random.Random(seed)
            for _ in range(200):
                y, x = its.randrange(plain.shape[0] - 30), its.randrange(plain.shape[1] - 30)
                key = slice(y, y + its.randint(1, 30)), slice(x, x + its.randint(1, 30), its.choice((1, 2, 3)))
                if not np.array_equal(image.section[key], plain[key]):
                    wrong.append(key)
                done.append(key)

        threads = [threading.Thread(target=work, args=(rng.random(),)) for _ in range(4)]
        for it in threads:
            it.start()
        for it in threads:
            it.join()
        self.assertEqual((len(done), wrong), (800, []))


if __name__ == "__main__":
    unittest.main()
