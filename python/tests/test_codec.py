"""libfz from Python: numbers there and back in each form, what is refused, threads, and where the library is looked for."""
import pickle
import subprocess
import sys
import threading
import unittest
from array import array

from support import TOP, InAFolder, needs_library, needs_numpy, np

from fzfits import codec, errors, library

ROW = [1000, 1000, 1003]
RICE = bytes.fromhex("03e81c08")
LINE = [0, 0, 5, 5, 0]
LIST = bytes.fromhex("00000007ff9c000b00000000000020040002" "40020001")


@needs_library
class Codes(unittest.TestCase):
    def test_codes_worked_out_by_hand(self):
        self.assertEqual(codec.rice_encode(ROW, 2), RICE)
        self.assertEqual(list(codec.rice_decode(RICE, 3, 2)), ROW)
        self.assertEqual(codec.plio_encode(LINE), LIST)
        self.assertEqual(list(codec.plio_decode(LIST, 5)), LINE)
        self.assertEqual(codec.checksum(b"\0\0\0\1\2", 0xFFFFFFFF), 0x02000001)
        self.assertEqual(codec.checksum(b""), 0)
        self.assertEqual(codec.version(), (TOP / "VERSION").read_text(encoding="ascii").strip())

    def test_tiles(self):
        for bits, numbers in ((8, [200] * 40), (16, [-5, 7] * 20), (32, [70000] * 40)):
            for name in ("RICE_1", "NOCOMPRESS"):
                column, data = codec.encode_tile(numbers, codec=name, bitpix=bits)
                self.assertEqual(column == "UNCOMPRESSED_DATA", name == "NOCOMPRESS")
                self.assertEqual(list(codec.decode_tile(data, 40, codec=name, bitpix=bits, column=column)), numbers)
        many = [-(2**63), 2**63 - 1, -1, 2**32]
        column, data = codec.encode_tile(many, codec="NOCOMPRESS", bitpix=64)
        self.assertEqual(data, b"".join(it.to_bytes(8, "big", signed=True) for it in many))
        self.assertEqual(list(codec.decode_tile(data, 4, codec="NOCOMPRESS", bitpix=64, column=column)), many)

    def test_forms_of_bytes(self):
        for it in (RICE, bytearray(RICE), memoryview(RICE), array("B", RICE)):
            self.assertEqual(list(codec.rice_decode(it, 3, 2)), ROW)
        self.assertEqual(codec.rice_encode(array("h", ROW), 2), RICE)
        room = bytearray(100)
        self.assertEqual(bytes(codec.rice_encode(ROW, 2, out=room)), RICE)
        self.assertEqual(room[:4], RICE)

    def test_out_without_numpy(self):
        code = "from array import array; import sys; sys.modules['numpy'] = None; from fzfits import codec; out = array('i', bytes(12))\n"
        code += f"assert codec.rice_decode({RICE!r}, None, 2, out=out) is out and list(out) == {ROW}\n"
        code += f"out = array('h', bytes(6)); codec.rice_decode({RICE!r}, 3, 2, out=out); assert list(out) == {ROW}\n"
        code += f"assert codec.rice_decode({RICE!r}, 3, 2) == array('h', {ROW}) and codec.rice_encode({ROW}, 2) == {RICE!r}\n"
        code += "many = [-2**63, 2**63 - 1, -1]; column, data = codec.encode_tile(many, codec='NOCOMPRESS', bitpix=64)\n"
        code += "assert list(codec.decode_tile(data, 3, codec='NOCOMPRESS', bitpix=64, column=column)) == many; print('done')"
        said = subprocess.run([sys.executable, "-c", code], cwd=TOP / "python", capture_output=True, text=True, check=False)
        self.assertEqual(said.stdout, "done\n", said.stderr)

    @needs_numpy
    def test_arrays(self):
        for kind in ("u1", "i2", "i4", ">i2", ">i4"):
            image = np.array([[7, 9], [9, 8], [5, 5]] * 9, kind)
            column, data = codec.encode_tile(image)
            for it in (data, np.frombuffer(data, "u1"), np.frombuffer(data + b"\0", "u1")[:-1]):
                found = codec.decode_tile(it, image.size, codec="RICE_1", bitpix=8 * image.itemsize, column=column)
                self.assertEqual(found.dtype, image.dtype.newbyteorder("="))
                self.assertTrue((found.reshape(image.shape) == image).all())
        apart = np.arange(60, dtype="i2")[::2]
        self.assertTrue((codec.rice_decode(codec.rice_encode(apart, 2), 30, 2) == apart).all())

    @needs_numpy
    def test_out_of_numpy(self):
        for kind in ("i2", "i4", "i8", ">i4"):
            out = np.zeros(3, kind)
            self.assertIs(codec.rice_decode(RICE, None, 2, out=out), out)
            self.assertEqual(out.tolist(), ROW)
        apart = np.zeros(6, "i4")
        codec.rice_decode(RICE, 3, 2, out=apart[::2])
        self.assertEqual(apart.tolist(), [1000, 0, 1000, 0, 1003, 0])
        wide = np.zeros((2, 2), "i8")
        codec.decode_tile(bytes(range(32)), None, codec="NOCOMPRESS", bitpix=64, column="UNCOMPRESSED_DATA", out=wide)
        self.assertEqual(wide.astype(">i8").tobytes(), bytes(range(32)))
        both = np.frombuffer(bytearray(RICE + bytes(8)), "u1")
        self.assertEqual(codec.rice_decode(both, None, 2, out=both.view("i4")).tolist(), ROW)  # in its own code: by a copy


@needs_library
class Faults(unittest.TestCase):
    def test_damage(self):
        cases = [
            (21, "CodeShort", lambda: codec.rice_decode(RICE[:2], 3, 2)),
            (22, "CodeValue", lambda: codec.rice_decode(bytes.fromhex("00000005d8"), 1, 4)),
            (23, "LineList", lambda: codec.plio_decode(LIST[:13], 5)),
            (24, "PixelRange", lambda: codec.decode_tile(RICE, 3, codec="RICE_1", bitpix=8, bytepix=2)),
            (25, "TileSize", lambda: codec.decode_tile(b"123", 2, codec="NOCOMPRESS", bitpix=16, column="UNCOMPRESSED_DATA")),
        ]
        for number, name, call in cases:
            with self.assertRaises(errors.BadCode) as caught:
                call()
            error = caught.exception
            self.assertEqual((error.number, error.kind), (number, name))
            self.assertIn(f"{number} {name}\n", str(error))
            self.assertTrue(error.meaning)
            self.assertEqual(str(pickle.loads(pickle.dumps(error))), str(error))
            self.assertIsInstance(error, ValueError)

    def test_arguments(self):
        calls = [
            lambda: codec.rice_decode(RICE, 3, 3),
            lambda: codec.rice_decode(RICE, 3, 2, 0),
            lambda: codec.rice_decode(RICE, 3, 2, -1),
            lambda: codec.rice_decode(RICE, None, 2),
            lambda: codec.rice_decode(RICE, -1, 2),
            lambda: codec.rice_encode([], 2),
            lambda: codec.rice_encode([40000], 2),
            lambda: codec.rice_encode([2**40], 4),
            lambda: codec.rice_encode([1.5], 4),
            lambda: codec.plio_encode([-1]),
            lambda: codec.rice_encode(ROW, 2, out=bytearray(3)),
            lambda: codec.rice_encode(ROW, 2, out=bytes(100)),
            lambda: codec.decode_tile(RICE, 3, codec="GZIP_1", bitpix=16),
            lambda: codec.decode_tile(RICE, 3, codec="RICE_1", bitpix=16, column="OTHER"),
            lambda: codec.decode_tile(RICE, 3, codec="RICE_1", bitpix=-32),
            lambda: codec.decode_tile(RICE, 0, codec="RICE_1", bitpix=16),
            lambda: codec.encode_tile([1, 2], bitpix=64),
            lambda: codec.checksum(b"", -1),
        ]
        for it in calls:
            with self.assertRaises(errors.BadArgument) as caught:
                it()
            self.assertNotRegex(str(caught.exception), r"libfz answers")

    @needs_numpy
    def test_out_that_does_not_do(self):
        locked = np.zeros(3, "i4")
        locked.flags.writeable = False
        for out in (np.zeros(4, "i4"), np.zeros(3, "i1"), np.zeros(3, "u2"), locked):
            with self.assertRaises(errors.BadArgument):
                codec.rice_decode(RICE, 3, 2, out=out)
        with self.assertRaises(errors.BadArgument):
            codec.encode_tile(np.zeros(3, "f4"))

    def test_threads(self):
        code, wrong = codec.rice_encode(list(range(5000)), 4), []

        def work():
            for _ in range(10):
                if list(codec.rice_decode(code, 5000, 4)) != list(range(5000)):
                    wrong.append(1)

        crew = [threading.Thread(target=work) for _ in range(8)]
        for it in crew:
            it.start()
        for it in crew:
            it.join()
        self.assertEqual(wrong, [])


class Library(InAFolder):
    def test_one_that_is_named_and_not_there(self):
        with self.assertRaises(errors.NoLibrary) as caught:
            library.find({"FZ_LIBRARY": "/nowhere/libfz.so.1"})
        for it in ("FZ_LIBRARY", "/nowhere/libfz.so.1", "make lib"):
            self.assertIn(it, str(caught.exception))

    def test_one_that_is_nowhere(self):
        with self.assertRaises(errors.NoLibrary) as caught:
            library.opened("libfz-of-nobody.so.1")
        self.assertIn("libfz-of-nobody.so.1", str(caught.exception))

    def test_where_it_looks(self):
        said = [str(it) for it in library.PLACES]
        self.assertIn(str(TOP / "out" / "libfz.so.1"), said)
        self.assertTrue(said[0].endswith("fzfits/_lib/libfz.so.1"))

    def test_another_library(self):
        with self.assertRaises(errors.NoLibrary) as caught:
            library.opened("libc.so.6")
        self.assertIn("libc.so.6", str(caught.exception))


if __name__ == "__main__":
    unittest.main()
