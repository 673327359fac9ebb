"""The most bytes of buffers that a job on a file has live at once: the bound that the program promises (`buffers` of `run`).

It is made of three numbers: the longest header H that the job's checks of headers reach, the pixels n of the largest tile that
the job works on (none where a header is refused), and the workers W. There are the longest header and the translated one, which
may be a block longer, and one more block; for each worker two slots of 8 bytes a pixel for numbers and 8 bytes a pixel and 64
more for a code; and a copy buffer of 65,536 bytes: 2 H + 5,760 + 2 W (16 n + 64) + 65,536.
"""
import math

from .fits import hdus_of
from .tiles import tile_for

BEFORE_THE_HEADER = ("NotFits", "LongHeader", "TrailingBytes")


def formula(longest, pixels, workers):
    return 2 * longest + 5760 + 2 * workers * (16 * pixels + 64) + 65536


def is_packable(hdu, number):
    sort = "IMAGE" if number == 0 else hdu.text("XTENSION")
    alone = number == 0 or hdu.integer("PCOUNT") == 0 and hdu.integer("GCOUNT") == 1
    axes = hdu.axes()
    return sort == "IMAGE" and alone and len(axes) > 0 and 0 not in axes and hdu.integer("BITPIX") in (8, 16, 32, 64)


def pixels_to_pack(hdu, number, asked):
    return math.prod(tile_for(hdu.axes(), asked)) if is_packable(hdu, number) else 0


def pixels_packed(hdu, _number, _asked):
    if not hdu.is_packed():
        return 0
    axes = hdu.axes("ZNAXIS")
    given = [hdu.integer(f"ZTILE{it + 1}", axes[0] if it == 0 else 1) for it in range(len(axes))]
    return math.prod(min(axis, it) for axis, it in zip(axes, given))


def bound_of(job, file, tile, workers, refused):
    """The bound of pack or unpack. `refused` is None, or the kind, the HDU and the sort of the place of a refusal."""
    hdus = hdus_of(file)
    longest = pixels = 0
    many = len(hdus)
    if refused is not None and refused[2] != "row":
        many = min(many, refused[1] + (refused[0] not in BEFORE_THE_HEADER))
    else:
        of_tile = pixels_to_pack if job == "pack" else pixels_packed
        pixels = max((of_tile(it, number, tile) for number, it in enumerate(hdus)), default=0)
    for it in hdus[:many]:
        longest = max(longest, len(it.header))
    return formula(longest, pixels, workers)
