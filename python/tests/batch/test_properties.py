"""Random manifests, messages, headers and names: what others may have written never ends in a traceback or outside.

They need python3-hypothesis of Debian. Cases that were found are kept as examples.
"""
from __future__ import annotations

import base64
import contextlib
import dataclasses
import io
import json
import os
import shutil
import sqlite3
import subprocess
import sys
import tempfile
import unittest
from pathlib import Path

sys.path[:0] = [str(Path(__file__).resolve().parents[2]), str(Path(__file__).resolve().parents[1])]

from batch import hostile  # noqa: E402
from fzfits import headers  # noqa: E402
from fzfits.batch import checks, cli, expansion, inside, keep, lock, manifest, messages, names, record, report, scan, survey  # noqa: E402

try:
    from hypothesis import HealthCheck, example, given, settings
    from hypothesis import strategies as some
except ImportError:
    raise unittest.SkipTest("hypothesis is not installed") from None

# More of them: FZBATCH_EXAMPLES=10000.
settings.register_profile("fz", max_examples=int(os.environ.get("FZBATCH_EXAMPLES", "60")), deadline=None, derandomize=True, database=None, suppress_health_check=list(HealthCheck))
settings.load_profile("fz")

values = some.one_of(some.none(), some.integers(-(1 << 63), (1 << 63) - 1), some.floats(allow_nan=True), some.text(max_size=30), some.binary(max_size=30), some.sampled_from(["", "packed", "2026-02-31T00:00:00Z", "0" * 64, b"a.fits", b"../a.fits", "\x1b[2J"]))
paths = some.binary(max_size=40)
text = some.text(max_size=60)


class InAFolder(unittest.TestCase):
    @classmethod
    def setUpClass(cls) -> None:
        cls.room = Path(tempfile.mkdtemp())
        cls.addClassCleanup(shutil.rmtree, cls.room, True)


class Names(InAFolder):
    @given(paths)
    @example(b"a\0.fits")
    @example(b"./a.fits")
    @example(b"a//b.fits")
    @example(b"..fits")
    def test_a_path_without_fault_stays_below_its_folder(self, path: bytes) -> None:
        fault = names.fault_of(path)
        joined = os.path.normpath(os.path.join(b"/root/folder", path)) if b"\0" not in path else b""
        if not fault:
            self.assertEqual(joined, b"/root/folder/" + path)
        elif joined == b"/root/folder/" + path and names.is_fits(path):
            self.fail(f"{path!r}: {fault}")

    @given(paths)
    def test_a_name_is_one_line_that_prints(self, path: bytes) -> None:
        self.assertTrue(names.shown(path).isprintable())

    @given(paths.filter(lambda it: b"\0" not in it))
    def test_bash_reads_a_printed_name(self, path: bytes) -> None:
        shown = names.shown(path)
        if shown.startswith("$'"):
            said = subprocess.run(["bash", "-c", f"printf %s {shown}"], capture_output=True, check=True).stdout
            self.assertEqual(said, path)

    @given(text)
    def test_told_text_controls_nothing(self, line: str) -> None:
        self.assertTrue(names.told(line).isprintable())
        to = io.StringIO()
        names.Escaping(to).write(line)
        self.assertFalse([it for it in to.getvalue() if not it.isprintable() and it != "\n"])

    @given(some.lists(some.tuples(paths.filter(lambda it: it and b"\0" not in it), some.binary(min_size=32, max_size=32)), max_size=5))
    def test_sha256sums_come_back(self, rows: "list[tuple[bytes, bytes]]") -> None:
        wanted = {path: digest.hex() for path, digest in rows if b"\r" not in path}
        (self.room / "SHA256SUMS").write_bytes(keep.HEAD + b"".join(keep.line_of(*it) for it in wanted.items()))
        self.assertEqual(keep.read_sums(os.fsencode(self.room)), wanted)

    @given(some.binary(max_size=300))
    def test_sums_of_others_are_read_without_a_fault(self, data: bytes) -> None:
        (self.room / "SHA256SUMS").write_bytes(keep.HEAD + data)
        try:
            found = keep.read_sums(os.fsencode(self.room))
        except manifest.BadManifest as error:
            self.assertIn("is none that fzbatch wrote", str(error))
        else:
            self.assertEqual(len(found) > 0, bool(data))


class Messages(unittest.TestCase):
    @given(some.sampled_from([messages.Settings, messages.Task, messages.Result]), some.dictionaries(some.sampled_from([it.name for kind in (messages.Settings, messages.Task, messages.Result) for it in dataclasses.fields(kind)]), values))
    def test_a_message_of_others_has_the_right_types_or_is_none(self, kind: type, fields: dict) -> None:
        plain = {name: {"b": base64.b64encode(it).decode()} if isinstance(it, bytes) else it for name, it in fields.items()}
        word = base64.urlsafe_b64encode(json.dumps(plain).encode()).decode()
        try:
            made = kind.of(word)
        except messages.BadMessage:
            return
        for it in dataclasses.fields(kind):
            self.assertTrue(messages.is_of(getattr(made, it.name), str(it.type)))
        self.assertEqual(kind.of(made.word()), made)

    @given(some.one_of(text, some.sampled_from(["e30=", "W10=", "MQ==", "", "!!"])))
    def test_a_line_of_others(self, line: str) -> None:
        for kind in (messages.Settings, messages.Task, messages.Result):
            with contextlib.suppress(messages.BadMessage):
                kind.of(line)

    @given(text)
    def test_a_lock_of_others(self, line: str) -> None:
        with tempfile.TemporaryDirectory() as room:
            path = os.fsencode(os.path.join(room, "lock"))
            data = line.encode("utf-8", "surrogatepass")
            Path(os.fsdecode(path)).write_bytes(data)
            try:
                with lock.held(path):
                    pass
            except lock.Locked as error:
                self.assertNotIn("\x1b", str(error))
                self.assertEqual(Path(os.fsdecode(path)).read_bytes(), data)


class Manifests(InAFolder):
    @classmethod
    def setUpClass(cls) -> None:
        super().setUpClass()
        cls.packed = cls.room / "packed"
        cls.packed.mkdir()
        with manifest.Manifest(os.fsencode(cls.packed / "fzbatch.sqlite")) as it:
            for number in range(3):
                result = messages.Result(b"%d.fits" % number, "pack", "packed", size=5, mtime=6, mode=0o644, looked=7, sha256="1" * 64, packed_size=3, packed_mtime=4, packed_sha256="2" * 64)
                record.record(it, None, result, "3" * 64, "--sums")
            it.begin("0" * 16, "pack", "here", 1)
            it.tell("source", b"/nowhere")
        cls.good = (cls.packed / "fzbatch.sqlite").read_bytes()

    def opens(self) -> bool:
        """Whether the manifest is accepted; then all that reads it works."""
        path = os.fsencode(self.packed / "fzbatch.sqlite")
        try:
            with manifest.Manifest(path, writes=False) as it:
                rows = list(it.rows())
                found = survey.survey(it, b"/nowhere", os.fsencode(self.packed))
                page = report.page(it, os.fsencode(self.packed), found)
                cli.tally_of(found).print(io.StringIO(), True)
                list(keep.sums_of(rows))
        except manifest.BadManifest as error:
            self.assertTrue(str(error).isprintable(), str(error))
            return False
        self.assertNotIn("<script", page)
        for row in rows:
            self.assertEqual(names.fault_of(row.path), "")
        return True

    @given(some.sampled_from([(table, column) for table, forms in checks.FORMS.items() for column in forms if table in ("files", "facts", "runs")]), values)
    @example(("files", "packed_at"), "2026-02-31T00:00:00Z")
    @example(("files", "seconds"), 1e308)
    @example(("facts", "name"), "\x1b")
    def test_a_manifest_with_another_value(self, where: "tuple[str, str]", value: object) -> None:
        (self.packed / "fzbatch.sqlite").write_bytes(self.good)
        hostile.loose(self.packed)
        try:
            hostile.change(self.packed, (f"UPDATE OR REPLACE {where[0]} SET {where[1]} = ?", (value,)))
        except (sqlite3.Error, OverflowError, UnicodeEncodeError):
            return
        self.opens()

    @given(some.integers(0, 1 << 40), some.integers(1, 255), some.integers(1, 40))
    def test_a_manifest_with_damage_has_the_same_rows_or_is_none(self, at: int, change: int, many: int) -> None:
        data = bytearray(self.good)
        for it in range(many):
            data[(at + it) % len(data)] ^= change
        (self.packed / "fzbatch.sqlite").write_bytes(data)
        if self.opens():
            with manifest.Manifest(os.fsencode(self.packed / "fzbatch.sqlite"), writes=False) as it:
                self.assertEqual([row.sha256 for row in it.rows()], ["1" * 64] * 3)

    @given(some.integers(0, 1 << 40))
    def test_a_manifest_that_was_cut_short(self, length: int) -> None:
        (self.packed / "fzbatch.sqlite").write_bytes(self.good[: length % len(self.good)])
        self.assertFalse(self.opens())

    @given(some.binary(max_size=2000))
    def test_a_journal_of_others(self, data: bytes) -> None:
        (self.packed / "fzbatch.sqlite").write_bytes(self.good)
        (self.packed / "fzbatch.sqlite-journal").write_bytes(bytes.fromhex("d9d505f920a163d7") + data)
        self.opens()
        (self.packed / "fzbatch.sqlite-journal").unlink(missing_ok=True)


cards = some.one_of(
    some.binary(max_size=80).map(lambda it: it.ljust(80)[:80]),
    some.tuples(some.sampled_from(["SIMPLE", "XTENSION", "BITPIX", "NAXIS", "NAXIS1", "ZNAXIS", "ZNAXIS1", "ZBITPIX", "ZIMAGE", "PCOUNT", "GCOUNT", "EXTNAME", "DATASUM"]), some.one_of(some.integers(-(10**18), 10**18).map(str), some.sampled_from(["T", "'BINTABLE'", "'x", "-", "1e999", "999"]))).map(lambda it: f"{it[0]:8}= {it[1]}".encode().ljust(80)[:80]),
)


class Headers(InAFolder):
    @given(some.lists(cards, max_size=80), some.binary(max_size=100))
    @example([f"{name:8}= {value:>20}".encode().ljust(80) for name, value in (("NAXIS", 0), ("ZIMAGE", "T"), ("ZBITPIX", 10**17), ("ZNAXIS", 999), *((f"ZNAXIS{it}", 10**17) for it in range(1, 1000)))], b"")
    @example([f"{name:8}= {value:>20}".encode().ljust(80) for name, value in (("BITPIX", 8), ("NAXIS", 999), *((f"NAXIS{it}", 10**17) for it in range(1, 1000)))], b"")
    def test_headers_of_others(self, made: "list[bytes]", rest: bytes) -> None:
        raw = b"".join([b"SIMPLE  =                    T".ljust(80), *made, b"END".ljust(80)])
        path = self.room / "h.fits"
        path.write_bytes(raw.ljust(-(-len(raw) // 2880) * 2880) + rest)
        for it in headers.headers(path):
            self.assertGreaterEqual(it.size, 0)
            _ = it.axes, it.tile, it.is_packable, it.name, it.end
        with inside.file(os.fsencode(self.room), b"h.fits") as number:
            size = path.stat().st_size
            found = expansion.unpacked(number, size)
            self.assertGreaterEqual(found, size)
            self.assertTrue(expansion.warning(found, size).isprintable())
            self.assertLess(found / 1e6, 1e13)

    @given(some.lists(some.tuples(some.binary(min_size=1, max_size=12).filter(lambda it: it not in (b".", b"..") and not set(it) & {0, 47}), some.sampled_from(["file", "link", "pipe", "folder"])), max_size=6, unique_by=lambda it: it[0]))
    def test_folders_of_others(self, entries: "list[tuple[bytes, str]]") -> None:
        with tempfile.TemporaryDirectory() as room:
            for name, kind in entries:
                path = os.path.join(os.fsencode(room), name)
                with contextlib.suppress(FileExistsError):
                    if kind == "file":
                        Path(os.fsdecode(path)).write_bytes(b"x")
                    elif kind == "link":
                        os.symlink(b"..", path)
                    elif kind == "pipe":
                        os.mkfifo(path)
                    else:
                        os.mkdir(path)
            found = scan.scan(os.fsencode(room))
            for it in found.left:
                self.assertTrue(names.shown(it.path).isprintable())
            for path in found.files:
                self.assertEqual(names.fault_of(path), "")


if __name__ == "__main__":
    unittest.main()
