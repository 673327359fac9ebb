"""Images drawn by matplotlib: with title, colour bar and world coordinates, one or all of a file on a sheet."""
from __future__ import annotations

import io
import math
import warnings
from dataclasses import dataclass
from typing import Any, List, Optional, Sequence, Tuple

from ..headers import CARD, Header, Name
from . import NoPicture, images, library, plain_text

STRETCHES = {"linear": "LinearStretch", "sqrt": "SqrtStretch", "log": "LogStretch", "asinh": "AsinhStretch"}
# Inches of a picture for each pixel of the longer side of an image, and what is around the image.
INCH = 100
AROUND = (2.2, 1.3)
# At most so many images are on a sheet.
PANELS = 36
# The pixels of an image that is so many times as long as wide are not drawn as squares.
LONG = 20
# Cards of a packed table that are none of its image.
OF_THE_TABLE = ("XTENSION", "BITPIX", "NAXIS", "PCOUNT", "GCOUNT", "TFIELDS", "TTYPE", "TFORM", "Z", "CHECKSUM", "DATASUM", "THEAP", "END", "SIMPLE", "EXTEND")


@dataclass(frozen=True)
class Look:
    """How images are drawn."""

    box: str = ""
    size: int = 800
    stretch: str = "linear"
    exact: bool = False
    with_grid: bool = True
    program: Optional[str] = None


def look(path: Name, name: str, out: Name, found: Sequence[Header], how: Look) -> str:
    """Draws one image, or all of a file on a sheet, into a new PNG file, and says what it shows."""
    figure_of, canvas = library("matplotlib.figure").Figure, library("matplotlib.backends.backend_agg").FigureCanvasAgg
    with warnings.catch_warnings():
        warnings.simplefilter("ignore")
        if len(found) == 1:
            figure, said = _single(figure_of, path, name, found[0], how)
        else:
            figure, said = _sheet(figure_of, path, name, found, how)
        canvas(figure)
        made = io.BytesIO()
        figure.savefig(made, format="png", dpi=INCH, metadata={"Software": None})
    with open(out, "xb") as file:
        file.write(made.getvalue())
    return said


def _single(figure_of: Any, path: Name, name: str, header: Header, how: Look) -> Tuple[Any, str]:
    part = images.part_of(header, how.box, how.size, how.exact)
    values = images.bins(path, header, part, how.program)
    wide, high = _inches(part, how.size)
    figure = figure_of(figsize=(max(4.2, wide + AROUND[0]), max(2.6, high + AROUND[1])), layout="constrained")
    said = _draw(figure, (1, 1, 1), header, part, values, how, title=f"{name}\n{images.title_of(header)}")
    return figure, said


def _inches(part: images.Part, size: int) -> Tuple[float, float]:
    """The size of the image in a picture: its longer side has `size` pixels, the shorter one at least an eighth of that."""
    lengths = [last - first + 1 for first, last in part.spans]
    longest = max(lengths)
    wide, high = (size / INCH * max(it / longest, 1 / 8) for it in lengths)
    return wide, high


def _sheet(figure_of: Any, path: Name, name: str, found: Sequence[Header], how: Look) -> Tuple[Any, str]:
    shown = found[:PANELS]
    columns = math.ceil(math.sqrt(len(shown)))
    rows = math.ceil(len(shown) / columns)
    side = max(150, how.size // columns)
    small = Look(how.box, side, how.stretch, how.exact, False, how.program)
    # as high as the highest image needs
    tall = max(min(2.0, max(0.25, (*it.axes, 1)[1] / it.axes[0])) for it in shown)
    figure = figure_of(figsize=((side / INCH + 1.1) * columns, (side * tall / INCH + 0.7) * rows + 0.5), layout="constrained")
    figure.suptitle(plain_text(name if len(shown) == len(found) else f"{name}: the first {PANELS} of {len(found)} images"))
    for at, header in enumerate(shown, 1):
        try:
            part = images.part_of(header, how.box, side, how.exact)
            _draw(figure, (rows, columns, at), header, part, images.bins(path, header, part, how.program), small, title=images.title_of(header))
        except Exception as error:  # one image that cannot be shown leaves the others
            axes = figure.add_subplot(rows, columns, at)
            axes.set_axis_off()
            axes.text(0.5, 0.5, plain_text(f"{images.title_of(header)}\n{images.wanted(error)}"), ha="center", va="center", wrap=True, fontsize=8)
    return figure, f"{len(found)} images: " + ", ".join(f"HDU {it.number}{' ' + it.name if it.name else ''}" for it in shown)


def _draw(figure: Any, place: Tuple[int, int, int], header: Header, part: images.Part, values: Any, how: Look, title: str) -> str:
    """One image in its place of a figure."""
    norm = norm_of(values, how.stretch)
    wcs, why = wcs_of(header, part) if how.with_grid else (None, "it was not asked for")
    alone = place[:2] == (1, 1)
    extent = extent_of(part, 0 if wcs is not None else 1)
    axes = figure.add_subplot(*place, projection=wcs) if wcs is not None else figure.add_subplot(*place)
    square = max(part.count) < LONG * min(part.count)
    drawn = axes.imshow(values, origin="lower", cmap=greys(), norm=norm, extent=extent, aspect="equal" if square else "auto")
    axes.set_title(plain_text(title), fontsize=10 if alone else 8)
    axes.tick_params(labelsize=8 if alone else 6)
    bar = figure.colorbar(drawn, cax=axes.inset_axes([1.02, 0, 0.04, 1]))
    if part.bin == 1 and "int" in images.type_of(header):
        # flags have no values between two integers
        bar.locator = library("matplotlib.ticker").MaxNLocator("auto", steps=[1, 2, 2.5, 5, 10], integer=True)
        bar.update_ticks()
    bar.ax.tick_params(labelsize=8 if alone else 6)
    bar.ax.yaxis.get_offset_text().set_fontsize(8 if alone else 6)
    units = header.value("BUNIT")
    if isinstance(units, str) and units:
        bar.ax.set_title(plain_text(units), fontsize=8)
    told = f"axes of {wcs.wcs.ctype[0][:4].strip('-')} and {wcs.wcs.ctype[1][:4].strip('-')}" if wcs is not None else f"axes of pixels: {why}"
    if wcs is not None:
        axes.coords.grid(color="#5adcff", alpha=0.45, linewidth=0.6)
        for coordinate, kind in zip(axes.coords, wcs.wcs.ctype):
            coordinate.set_axislabel(plain_text(kind[:4].rstrip("-")), fontsize=8)
    elif alone:
        axes.set_xlabel("axis 1", fontsize=8)
        axes.set_ylabel("axis 2" if part.count[1] > 1 else "", fontsize=8)
    if part.count[1] == 1:
        axes.set_yticks([])
    if alone:
        axes.annotate(plain_text(f"{part.says}; {how.stretch}, {norm.vmin:g} to {norm.vmax:g}"), (0, 0), (0, -34), "axes fraction", textcoords="offset points", fontsize=7, va="top")
    return f"{images.title_of(header)}; {part.says}; grey from {norm.vmin:g} to {norm.vmax:g}; {told}"


def extent_of(part: images.Part, first: int) -> Tuple[float, float, float, float]:
    """Where the bins are, in pixels of the image: left, right, bottom and top. The middle of the first pixel has the number `first`."""
    (left, _), (bottom, _) = part.spans
    wide, high = part.count
    x, y = left - 1.5 + first, bottom - 1.5 + first
    return x, x + wide * part.bin, y, y + high * part.bin


def greys() -> Any:
    """The colours of values: greys, and blue for pixels that are not defined."""
    matplotlib = library("matplotlib")
    found = matplotlib.colormaps["gray"].copy() if hasattr(matplotlib, "colormaps") else library("matplotlib.cm").get_cmap("gray").copy()
    found.set_bad("#5577aa")
    return found


def norm_of(values: Any, stretch: str) -> Any:
    """The range of values that shows what is near the sky, as zscale of IRAF finds it, with the stretch that was asked for."""
    np, shows = library("numpy"), library("astropy.visualization")
    found = values[np.isfinite(values)]
    found = found if found.size else np.zeros(1)
    try:
        low, high = shows.ZScaleInterval().get_limits(found)
    except Exception:  # too few values, or too large ones
        low, high = float(found.min()), float(found.max())
    if not (math.isfinite(low) and math.isfinite(high) and low < high):
        low, high = float(found.min()), float(found.max())
    return shows.ImageNormalize(vmin=low, vmax=high if high > low else low + 1, stretch=getattr(shows, STRETCHES[stretch])(), clip=False)


def wcs_of(header: Header, part: images.Part) -> Tuple[Optional[Any], str]:
    """The world coordinates of the image; or why there are none that can be drawn on this part."""
    fits, wcs = library("astropy.io.fits"), library("astropy.wcs")
    raw = [header.raw[at : at + CARD] for at in range(0, CARD * len(header.cards), CARD)]
    kept = b"".join(it for it, card in zip(raw, header.cards) if not card.keyword.startswith(OF_THE_TABLE))
    try:
        own = fits.Header.fromstring(kept.decode("latin-1"))
        found = wcs.WCS(own, naxis=[1, 2])
        if not found.has_celestial or found.naxis != 2:
            return None, "there are no celestial coordinates"
        left, right, bottom, top = extent_of(part, 0)
        corners = found.pixel_to_world_values([left, right, left, right], [bottom, bottom, top, top])
        if not all(math.isfinite(it) for values in corners for it in values):
            return None, "a corner has no celestial coordinates"
        return found, ""
    except NoPicture:
        raise
    except Exception as error:  # whatever a header of others makes of it
        return None, f"the world coordinates are not understood ({str(error).strip().splitlines()[0] if str(error).strip() else type(error).__name__})"
