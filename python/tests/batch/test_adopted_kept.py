"""What the manifest of an adopted folder knows is not forgotten by a command that did not look at it. Each class is one find."""
from __future__ import annotations

import os
import shutil
import subprocess
import sys
import unittest
from pathlib import Path

sys.path[:0] = [str(Path(__file__).resolve().parents[1])]

from batch.test_adopted import FZ, SAMPLES  # noqa: E402
from batch.test_adopted_called_well import Whole  # noqa: E402
from batch.two_files import image  # noqa: E402
from making.fits import card, filled, header  # noqa: E402


def write(path: Path, data: bytes, time: int = 1) -> None:
    path.write_bytes(data)
    os.utime(path, (time, time))


class PackedByOthers(Whole):
    """`pack --beside` puts no file in the place of a packed one that the manifest knows, and of which it has no plain file."""

    def setUp(self) -> None:
        super().setUp()
        self.plain, self.packed = self.night / "small.fits", self.night / "small.fits.fz"
        subprocess.run([FZ, "pack", self.plain, self.packed], check=True)
        os.utime(self.packed, (1, 1))
        self.plain.unlink()
        self.assertEqual(self.run_it("adopt", self.night, "--update")[0], 1)
        self.assertEqual(self.run_it("forget", self.night, "--name", "small.fits")[0], 0)
        self.assertEqual(self.run_it("missing", self.night)[0], 0)

    def test_it_is_gone(self) -> None:
        self.packed.unlink()
        write(self.plain, image(7))
        for _ in range(2):
            self.named("packed file is lost", "pack", "--beside", "--delete", self.night)
            self.named("small.fits.fz: it is not there", "missing", self.night)
            self.run_it("adopt", self.night)
        self.assertFalse(self.packed.exists())
        self.assertTrue(self.plain.exists())
        self.assertEqual(self.run_it("forget", self.night, "--name", "small.fits.fz")[0], 0)
        self.assertEqual(self.run_it("pack", "--beside", self.night)[0], 0)

    def test_it_is_another_one(self) -> None:
        self.packed.unlink()
        write(self.plain, image(7))
        subprocess.run([FZ, "pack", self.plain, self.packed], check=True)
        os.utime(self.packed, (2, 2))
        for _ in range(2):
            self.named("packed file changed", "pack", "--beside", "--delete", self.night)
            self.assertTrue(self.plain.exists())
            self.run_it("adopt", self.night)
            self.named("small.fits.fz: it is another file", "missing", self.night)
        self.assertEqual(self.run_it("adopt", "--update", self.night)[0], 0)
        self.assertEqual(self.run_it("pack", "--beside", "--delete", self.night)[0], 0)
        self.assertFalse(self.plain.exists())


class PlainFileBeside(Whole):
    """A plain file that is not the one that the file beside it was packed of is not adopted as right."""

    def test_it_changed_before_it_was_adopted(self) -> None:
        path = self.night / "new.fits"
        write(path, image(3))
        self.assertEqual(self.run_it("pack", "--beside", self.night)[0], 0)
        right = path.read_bytes()
        write(path, image(4))
        self.named("new.fits: it is another file than the one that new.fits.fz was packed of", "adopt", self.night)
        for words in (("adopt",), ("verify",), ("verify", "--sha256-only"), ("missing",), ("adopt", "--reread", "0")):
            self.named("new.fits: it is another file", *words, self.night)
        write(path, right, 5)
        self.assertEqual(self.run_it("adopt", self.night)[0], 0)
        self.assertEqual(self.run_it("missing", self.night)[0], 0)

    def test_an_update_takes_it(self) -> None:
        path = self.night / "new.fits"
        write(path, image(3))
        self.assertEqual(self.run_it("pack", "--beside", self.night)[0], 0)
        write(path, image(4))
        self.assertEqual(self.run_it("adopt", "--update", self.night)[0], 0)
        self.assertEqual(self.run_it("missing", self.night)[0], 0)


class WrongChecksumOnce(Whole):
    """A wrong checksum that was accepted is shown from then on, also if the packed file does not show it."""

    def test_of_the_header(self) -> None:
        path = self.night / "wrong.fits"
        data = bytearray(image(3, sums_too=True))
        # a comment of BITPIX: the pixels are those that DATASUM is of
        data[120:124] = b"/ by"
        write(path, bytes(data))
        self.named("wrong checksum", "pack", "--beside", "--delete", self.night)
        self.assertEqual(self.run_it("pack", "--beside", "--delete", "--accept-wrong-sums", self.night)[0], 0)
        packed = self.night / "wrong.fits.fz"
        for words in (("missing",), ("verify",), ("missing",), ("adopt", "--reread", "0"), ("status",)):
            self.named("which was accepted", *words, self.night)
        kept = packed.read_bytes()
        packed.unlink()
        self.named("wrong.fits.fz", "adopt", self.night)
        write(packed, kept)
        self.named("which was accepted", "adopt", self.night)
        write(packed, image(9), 3)
        self.named("wrong.fits.fz", "adopt", self.night)
        write(packed, kept)
        self.named("which was accepted", "verify", self.night)


class LostManifest(Whole):
    """A folder whose manifest is lost is not adopted anew beside the list of its SHA-256, which would be replaced."""

    def test_the_list_is_there(self) -> None:
        listed = Path(f"{self.manifest}.SHA256SUMS")
        kept = listed.read_bytes()
        self.manifest.unlink()
        Path(f"{self.manifest}.copy").unlink()
        write(self.night / "small.fits", image(7))
        for words in (("adopt",), ("pack", "--beside")):
            self.named("its list for sha256sum is", *words, self.night, status=2)
            self.assertFalse(self.manifest.exists())
        self.assertEqual(listed.read_bytes(), kept)
        listed.unlink()
        self.assertEqual(self.run_it("adopt", self.night)[0], 0)


class OnlyInThePackedFile(Whole):
    """`retile` replaces no file that has what the file which it stands for has not: it would be gone."""

    def setUp(self) -> None:
        super().setUp()
        subprocess.run([FZ, "pack", SAMPLES / "star_field.fits", self.room / "packed"], check=True)
        self.head, self.table = (self.room / "packed").read_bytes()[:2880], (self.room / "packed").read_bytes()[2880:]

    def retiles(self, data: bytes, said: str = "") -> None:
        """It is adopted, and named by `retile`, or packed again if nothing is said."""
        path = self.night / "new.fits.fz"
        write(path, data)
        self.assertEqual(self.run_it("adopt", self.night, "--update", "--reread", "0")[0], 0)
        self.named(said or "retiled", "retile", self.night, "--tile", "20,20", status=int(bool(said)))
        self.assertEqual(path.read_bytes() == data, bool(said))

    def with_card(self, text: str) -> bytes:
        """The packed file with one more card in its table, after TFORM2."""
        at = self.table.index(b"TFORM2") + 80
        cards = self.table[: self.table.index(b"END     ") + 80]
        made = cards[:at] + text.encode().ljust(80) + cards[at:]
        return self.head + made + b" " * (-len(made) % 2880) + self.table[len(cards) + -len(cards) % 2880 :]

    def test_a_card_of_the_first_header(self) -> None:
        cards = [card("SIMPLE", True), card("BITPIX", 8), card("NAXIS", 0), card("EXTEND", True)]
        self.retiles(header([*cards, card("OBSERVER", "Herschel")]) + self.table, "HDU 0 has a card OBSERVER")
        self.retiles(header([*cards, b"HISTORY made by hand".ljust(80)]) + self.table, "HDU 0 has a card 'HISTORY made by hand'")
        fpack = [b"COMMENT   FITS (Flexible Image Transport System) format is defined in 'Astronomy".ljust(80), b"COMMENT   and Astrophysics', volume 376, page 359; bibcode: 2001A&A...376..359H".ljust(80)]
        self.retiles(header([*cards, *fpack]) + self.table)

    def test_a_card_of_the_table(self) -> None:
        self.retiles(self.with_card("ZBLANK  =                   -5"), "HDU 1 has a card ZBLANK")
        self.retiles(self.with_card("OBSERVER= 'Herschel'"))
        self.retiles(self.with_card("EXTNAME = 'COMPRESSED_IMAGE'   / of fpack"))

    def test_a_column_of_the_table(self) -> None:
        cards = self.table[: self.table.index(b"END     ")]
        read = {it: int(cards[cards.index(it.ljust(8).encode() + b"=") + 10 :][:20]) for it in ("NAXIS1", "NAXIS2", "PCOUNT", "TFIELDS")}
        made = []
        for at in range(0, len(cards), 80):
            name = cards[at : at + 8].rstrip().decode()
            more = {"NAXIS1": 8, "TFIELDS": 1}.get(name)
            made.append(card(name, read[name] + more) if more else cards[at : at + 80])
            made += [b"TTYPE3  = 'QUALITY'".ljust(80), b"TFORM3  = '1D'".ljust(80)] if name == "TFORM2" else []
        rows = self.table[len(cards) + 80 + -(len(cards) + 80) % 2880 :]
        wide, many = read["NAXIS1"], read["NAXIS2"]
        table = b"".join(rows[it * wide : (it + 1) * wide] + bytes(8) for it in range(many)) + rows[wide * many : wide * many + read["PCOUNT"]]
        self.retiles(self.head + header(made) + filled(table), "HDU 1 has a column QUALITY")


class OlderManifest(Whole):
    """A manifest whose second copy knows later runs, or the end of one, is an older one: what was found since is not forgotten."""

    def test_from_a_backup(self) -> None:
        path, copy = self.night / "small.fits", Path(f"{self.manifest}.copy")
        shutil.copy(self.manifest, self.room / "backup")
        data, it = bytearray(path.read_bytes()), path.stat()
        data[3000] ^= 1
        path.write_bytes(data)
        os.utime(path, ns=(it.st_atime_ns, it.st_mtime_ns))
        self.named("small.fits", "verify", self.night)
        kept = copy.read_bytes()
        shutil.copy(self.room / "backup", self.manifest)
        for words in (("missing",), ("status",), ("report", "-o", self.room / "r.html"), ("adopt",), ("verify",), ("pack", "--beside"), ("forget", "--name", "small.fits")):
            self.named("is an older one", words[0], self.night, *words[1:], status=2)
        self.named("is an older one", "missing", self.night, "--manifest", self.manifest, "--manifest", self.manifest, status=2)
        self.assertEqual(copy.read_bytes(), kept)
        # as the message says
        self.manifest.unlink()
        shutil.copy(copy, self.manifest)
        self.named("small.fits: it has the length and the time that it had, and other bytes", "missing", self.night)

    def test_a_copy_that_is_older_or_damaged_says_nothing(self) -> None:
        copy = Path(f"{self.manifest}.copy")
        before = copy.read_bytes()
        self.assertEqual(self.run_it("verify", self.night)[0], 0)
        for it in (before, before[:3000], b"SQLite format 3\0", b""):
            copy.write_bytes(it)
            self.assertEqual(self.run_it("missing", self.night)[0], 0)


class NoManifest(Whole):
    """A folder of manifests that has none, as on a disk that is not mounted, does not mean the one beside the folder."""

    def test_it_is_named(self) -> None:
        many = self.room / "many"
        many.mkdir()
        for verb in ("status", "missing", "report"):
            self.named("many: no manifest", verb, self.night, "--manifest", many, status=2)


class ForgetWhatIsBack(Whole):
    """A file that is back is not taken out of the manifest: another one in its place would be adopted as it is."""

    def test_it_is_read_first(self) -> None:
        path = self.night / "small.fits"
        path.unlink()
        self.named("small.fits", "adopt", self.night)
        write(path, image(7))
        self.named("is there again", "forget", self.night, "--name", "small.fits", status=2)
        self.named("small.fits: it is another file", "adopt", self.night)


class CopyOfAChangedFile(Whole):
    """A new file with the bytes that another one had is named until `adopt --update` takes it, also after it was read again."""

    def test_it_is_named_again(self) -> None:
        path = self.night / "small.fits"
        shutil.copy2(path, self.night / "copy.fits")
        write(path, image(7))
        for words in (("adopt",), ("verify",), ("verify", "--sha256-only"), ("missing",), ("adopt", "--reread", "0")):
            self.named("copy.fits: it has the bytes that small.fits had", *words, self.night)
        self.assertEqual(self.run_it("adopt", "--update", self.night)[0], 0)
        self.assertEqual(self.run_it("verify", self.night)[0], 0)


class LinksBetweenManifests(Whole):
    """With several manifests, what may have files and is in none of their folders is named: links, pipes, and what cannot be read."""

    def test_each_is_named(self) -> None:
        top, many, other = self.room / "top", self.room / "many", self.room / "other"
        many.mkdir()
        shutil.copytree(self.night / "n", other)
        for name in ("one", "two"):
            shutil.copytree(self.night, top / name)
            self.assertEqual(self.run_it("adopt", top / name, "--manifest", many / f"{name}.sqlite")[0], 0)
        self.assertEqual(self.run_it("missing", top, "--manifest", many)[0], 0)
        for name, make in (("folder", lambda it: it.symlink_to(other)), ("a.fits", lambda it: it.symlink_to(other / "b.fits.fz")), ("p.fits", os.mkfifo)):
            make(top / name)
            for verb in ("status", "missing", "report"):
                with self.subTest(what=name, verb=verb):
                    self.named(name, verb, top, "--manifest", many, *(("-o", self.room / "report.html") if verb == "report" else ()))
            (top / name).unlink()


if __name__ == "__main__":
    unittest.main()
