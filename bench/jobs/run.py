#!/usr/bin/env python3
"""run.py FZ FOLDER [JOB..]: times the jobs of the program FZ on the images of FOLDER, beside fpack, funpack, imcopy and cp.

JOB is pack, unpack, verify, cut, retile, patch or list; tiles, which is pack, unpack and verify in tiles of other lengths; or disk,
which is pack and unpack where each tool waits for the disk. Without one all are timed.

Each time is the least of five runs, which take turns. The most resident memory is that of one run more, by the command time.
"""
import math
import os
import shutil
import subprocess
import sys
from functools import partial
from pathlib import Path

sys.path.insert(0, str(Path(__file__).resolve().parent.parent))
from timing import peak, remove, run

PASSES = 5
# What is cut from an image of 10,000 x 10,000 pixels: a corner in its middle, and every tenth pixel of the whole.
BOXES = ("4951:5050,4951:5050", "1:10000:10,1:10000:10")
CUT_TILES = ("10000,1", "100,100")
WORKERS = (1, 2, 4, 16, 32, 64)
# From which tiles to which an image is packed again, and with how many workers.
RETILINGS = (("4096,1", "4096,1"), ("4096,1", "256,256"), ("256,256", "4096,1"))
RETILE_WORKERS = (1, 4, 32)
# What is put into the large image in squares: as much as is cut out above.
PATCH_AT, PATCH_BOX = "4951,4951", BOXES[0]
# An image, the codec, and what asks fpack for the same, which stores no tiles.
IMAGES = (
    ("ccd.fits", "rice", ["-r"]),
    ("sky.fits", "rice", ["-r"]),
    ("mask.fits", "plio", ["-p"]),
    ("mask.fits", "rice", ["-r"]),
    ("ccd.fits", "none", None),
)
# Images in tiles other than rows of 4,096 pixels: short rows, squares, and one tile.
TILINGS = (
    ("rows16.fits", "16,1"),
    ("rows100.fits", "100,1"),
    ("rows512.fits", "512,1"),
    ("ccd.fits", "64,64"),
    ("ccd.fits", "4096,4096"),
)
TILES_WORKERS = (1, 4, 16)
DISK_WORKERS = (1, 32, 64)
IN_MEMORY = ("tmpfs", "ramfs")


def with_workers(fz, job, options, files, workers):
    """The job with each number of workers."""
    return [(f"fz {job}, {it} worker{'s' * (it > 1)}", [fz, job, *options, "--workers", str(it), *files]) for it in workers]


def packing(fz, plain, out, ours, theirs, workers=WORKERS):
    """Names of what is timed, with its words; each command writes the file `out`."""
    made = with_workers(fz, "pack", ours, [plain, out], workers)
    if theirs and shutil.which("fpack"):
        made.append(("fpack -C", ["fpack", "-C", *theirs, "-O", out, plain]))
    return made + [("cp", ["cp", plain, out])]


def packed_by(words, packed):
    """Packs once, so that there is something to unpack."""
    remove(packed)
    run(words)
    return packed


def unpacking(fz, plain, out, ours, theirs, workers=WORKERS):
    """The same for unpack: of what fz packed and, if it is installed, of what fpack packed, beside funpack on both."""
    files = [("fz", packed_by([fz, "pack", *ours, plain, f"{plain}.fz"], f"{plain}.fz"))]
    if theirs and shutil.which("fpack"):
        files.append(("fpack", packed_by(["fpack", "-C", *theirs, "-O", f"{plain}.fpack", plain], f"{plain}.fpack")))
    made = []
    for packer, packed in files:
        made += [(f"{title}, packed by {packer}", words) for title, words in with_workers(fz, "unpack", [], [packed, out], workers)]
        if shutil.which("funpack"):
            made.append((f"funpack -C, packed by {packer}", ["funpack", "-C", "-O", out, packed]))
    return made + [("cp", ["cp", plain, out])]


def verifying(fz, plain, out, ours, theirs, _workers=None):
    """verify of what fz packed with sums, with --strict and without it, and, if it is installed, of what fpack packed, which has
    sums too and is not strict; beside it the unpacking of the same files by fz with one worker and by funpack, without sums. verify
    has one worker."""
    files = [("fz", packed_by([fz, "pack", "--sums", *ours, plain, f"{plain}.fz"], f"{plain}.fz"))]
    if theirs and shutil.which("fpack"):
        files.append(("fpack", packed_by(["fpack", *theirs, "-O", f"{plain}.fpack", plain], f"{plain}.fpack")))
    made = []
    for packer, packed in files:
        made.append((f"fz verify, packed by {packer}", [fz, "verify", packed]))
        if packer == "fz":
            made.append((f"fz verify --strict, packed by {packer}", [fz, "verify", "--strict", packed]))
        made.append((f"fz unpack, 1 worker, packed by {packer}", [fz, "unpack", packed, out]))
        if shutil.which("funpack"):
            made.append((f"funpack -C, packed by {packer}", ["funpack", "-C", "-O", out, packed]))
    return made


# The jobs that are timed on images with a codec or tiles.
ROWS = {"pack": packing, "unpack": unpacking, "verify": verifying}


def out_of(job, out):
    """What is unpacked beside verify goes to memory, where there is a folder for that: verify writes nothing."""
    return "/dev/shm/fz_jobs_out.fits" if job == "verify" and os.access("/dev/shm", os.W_OK) else out


def each_image(job, fz, folder, out):
    """A job on each image with its codec."""
    for name, codec, theirs in IMAGES:
        plain = f"{folder}/{name}"
        size = os.path.getsize(plain)
        print(f"{job}, {name}, {codec}, {size / 1e6:.1f} MB")
        time_all(ROWS[job](fz, plain, out_of(job, out), ["--codec", codec], theirs), size, out_of(job, out))


def each_tiling(fz, folder, out):
    """pack, unpack and verify, as RICE_1, in tiles other than rows of 4,096 pixels; fpack makes the same tiles."""
    for name, tile in TILINGS:
        plain = f"{folder}/{name}"
        size = os.path.getsize(plain)
        for job, rows in ROWS.items():
            print(f"{job}, {name}, rice, tiles of {tile}, {size / 1e6:.1f} MB")
            time_all(rows(fz, plain, out_of(job, out), ["--tile", tile], ["-r", "-t", tile], TILES_WORKERS), size, out_of(job, out))


def then_sync(rows, fz, out):
    """The rows, each but those of fz, which waits for the disk itself, with a sync of what it wrote."""
    return [(title, words) if words[0] == fz else (f"{title}, sync", [words, ["sync", out]]) for title, words in rows]


def on_disk(fz, folder, out):
    """pack and unpack, the other tools with a sync after them, so that the disk has what each wrote. The last row is what the command
    sync takes if the disk has the file already."""
    kind = subprocess.run(["stat", "-f", "-c", "%T", folder], stdout=subprocess.PIPE, text=True, check=True).stdout.strip()
    if kind in IN_MEMORY:
        return print(f"disk: {folder} is in memory ({kind}), left out")
    for name, codec, theirs in (it for it in IMAGES if it[2]):
        plain = f"{folder}/{name}"
        size = os.path.getsize(plain)
        for job in ("pack", "unpack"):
            rows = then_sync(ROWS[job](fz, plain, out, ["--codec", codec], theirs, DISK_WORKERS), fz, out)
            print(f"disk ({kind}), {job}, {name}, {codec}, {size / 1e6:.1f} MB")
            time_all([*rows, ("sync", ["sync", plain])], size, out, ready=os.sync)
    return None


def cutting(fz, packed, box, out):
    """A cutout of what fz packed, with 1 and 4 workers, beside imcopy."""
    made = with_workers(fz, "cut", ["--box", box], [packed, out], (1, 4))
    if shutil.which("imcopy"):
        made.append(("imcopy", ["imcopy", f"{packed}[{box}]", out]))
    return made


def each_cut(fz, folder, out):
    """The cutouts of the large image, in row tiles and in square ones; MB/s are those of what is cut out."""
    for tile in CUT_TILES:
        packed = packed_by([fz, "pack", "--tile", tile, f"{folder}/large.fits", f"{folder}/large.{tile}.fz"], f"{folder}/large.{tile}.fz")
        for box in BOXES:
            remove(out)
            run([fz, "cut", "--box", box, packed, out])
            size = os.path.getsize(out)
            print(f"cut {box}, large.fits in tiles of {tile}, {size / 1e6:.2f} MB")
            time_all(cutting(fz, packed, box, out), size, out)


def retiling(fz, packed, plain, out, tile):
    """A packed file packed again in other tiles, beside unpack and then pack, and funpack and then fpack, by way of a plain file."""
    made = []
    for it in RETILE_WORKERS:
        workers = ["--workers", str(it)]
        name = f"{it} worker{'s' * (it > 1)}"
        both = [[fz, "unpack", *workers, packed, plain], [fz, "pack", "--tile", tile, *workers, plain, out]]
        made.append((f"fz retile, {name}", [fz, "retile", "--tile", tile, *workers, packed, out]))
        made.append((f"fz unpack, fz pack, {name}", both))
    if shutil.which("fpack") and shutil.which("funpack"):
        both = [["funpack", "-C", "-O", plain, packed], ["fpack", "-C", "-r", "-t", tile, "-O", out, plain]]
        made.append(("funpack -C, fpack -C", both))
    return made


def each_retiling(fz, folder, out):
    """Counts from rows to rows, from rows to squares and back; MB/s are those of the plain file."""
    source = f"{folder}/ccd.fits"
    for old, new in RETILINGS:
        packed = packed_by([fz, "pack", "--tile", old, source, f"{source}.{old}.fz"], f"{source}.{old}.fz")
        size = os.path.getsize(source)
        print(f"retile, ccd.fits, rice, tiles of {old} to {new}, {size / 1e6:.1f} MB")
        plain = f"{folder}/between.fits"
        time_all(retiling(fz, packed, plain, out, new), size, out, plain)


def patching(fz, folder, out):
    """A patch of a small box of the large image in squares, without checksums and with them, beside a cutout of that box; MB/s are those
    of the packed file. Each patch is of a copy that the disk has, and whose making is not timed."""
    plain, given, copy = (f"{folder}/{it}" for it in ("large.fits", "given.fits", "patched.fz"))
    for name, sums in (("no checksums", []), ("checksums", ["--sums"])):
        packed = packed_by([fz, "pack", "--tile", CUT_TILES[1], *sums, plain, f"{folder}/large.patch.fz"], f"{folder}/large.patch.fz")
        remove(given)
        run([fz, "cut", "--box", PATCH_BOX, packed, given])
        size = os.path.getsize(packed)
        print(f"patch {PATCH_BOX}, large.fits in tiles of {CUT_TILES[1]}, {name}, {size / 1e6:.1f} MB packed")
        rows = [("fz patch", [fz, "patch", "--at", PATCH_AT, given, copy]), ("fz cut", [fz, "cut", "--box", PATCH_BOX, packed, out])]
        time_all(rows, size, out, ready=partial(copy_synced, packed, copy))
        remove(copy)


def copy_synced(path, copy):
    """Copies a file, and waits until the disk has the copy."""
    shutil.copyfile(path, copy)
    os.sync()


def listing(fz, folder, out):
    """The headers of the file whose data are holes."""
    path = f"{folder}/holes.fits"
    size = os.path.getsize(path)
    print(f"list, holes.fits, {size / 1e6:.1f} MB")
    time_all([("fz list", [fz, "list", path])], size, out)


def steps_of(words):
    """The commands of a row, which has one or several."""
    return words if isinstance(words[0], list) else [words]


def told(title, seconds, words, size, out):
    """A row of the table that is printed, with the memory of one run more."""
    if math.isinf(seconds):
        return f"| {title} | over limit |"
    peaks = [peak(it) for it in steps_of(words)]
    memory = ", ".join("unknown" if it is None else f"{it:.1f} MB" for it in peaks)
    written = f"{os.path.getsize(out) / 1e6:.2f} MB written" if os.path.exists(out) else "no file"
    return f"| {title} | {1000 * seconds:.1f} ms | {size / 1e6 / seconds:.0f} MB/s | {written} | {memory} resident |"


def time_all(rows, size, out, between=None, ready=lambda: None):
    """Times each row and prints it. If it has several commands, `between` is the file that one leaves for the next. Before each row
    the files that it writes are removed, and `ready` is called."""
    made = [it for it in (out, between) if it]

    def begin():
        remove(*made)
        ready()

    least = {}
    for _ in range(PASSES):
        for title, words in rows:
            begin()
            seconds = sum(run(it).wall for it in steps_of(words))
            least[title] = min(seconds, least.get(title, seconds))
    for title, words in rows:
        begin()
        print(told(title, least[title], words, size, out), flush=True)
    remove(*made)


JOBS = {
    "pack": partial(each_image, "pack"),
    "unpack": partial(each_image, "unpack"),
    "cut": each_cut,
    "retile": each_retiling,
    "patch": patching,
    "verify": partial(each_image, "verify"),
    "list": listing,
    "tiles": each_tiling,
    "disk": on_disk,
}


def main():
    fz, folder = os.path.abspath(sys.argv[1]), os.path.abspath(sys.argv[2])
    for job in sys.argv[3:] or JOBS:
        JOBS[job](fz, folder, f"{folder}/out.fits")


if __name__ == "__main__":
    main()
