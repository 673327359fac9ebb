"""Charts of `fzbatch report` as SVG that is part of a page, drawn by matplotlib. Their lines and letters have the colour of the page's text."""
from __future__ import annotations

import io
import re
import textwrap
import warnings
from typing import Any, Dict, Sequence, Tuple

from . import library, plain_text

# Matplotlib draws in this colour what is to have the colour of the text around the chart, be it light or dark.
INK = "#010203"
# Colours of the states of a file; all others are causes of what is not well.
COLOURS = {"compressed": "#2a9d78", "copied unchanged": "#7fb8a4", "right": "#2a9d78", "part": "#7fb8a4"}
OTHER = "#cf4a3f"
# Inches of a chart, and letters in a line of the name of a bar.
WIDE, LETTERS = 4.8, 26
# Ratios that are marked on a logarithmic axis.
ROUND = (0.1, 0.2, 0.3, 0.5, 0.7, 0.8, 1, 1.2, 1.5, 2, 2.5, 3, 4, 5, 7, 10, 15, 20, 30, 50, 70, 100, 200, 500, 1000)
STYLE: Dict[str, Any] = {
    "svg.fonttype": "none", "font.family": "sans-serif", "font.size": 10, "text.color": INK, "axes.labelcolor": INK, "axes.edgecolor": INK,
    "xtick.color": INK, "ytick.color": INK, "axes.spines.top": False, "axes.spines.right": False, "figure.facecolor": "none", "axes.facecolor": "none",
}


def _chart(name: str, high: float, draw: Any) -> str:
    """A chart of this height; `draw` gets its axes. It is so narrow that its letters can be read on the screen of a phone too."""
    matplotlib, figure_of = library("matplotlib"), library("matplotlib.figure").Figure
    with warnings.catch_warnings(), matplotlib.rc_context({**STYLE, "svg.hashsalt": name}):
        warnings.simplefilter("ignore")
        figure = figure_of(figsize=(WIDE, high), layout="constrained")
        draw(figure.add_subplot())
        made = io.StringIO()
        figure.savefig(made, format="svg", transparent=True, metadata={"Date": None, "Creator": None, "Format": None, "Type": None})
    text = made.getvalue()
    text = text[text.index("<svg") :].replace(INK, "currentColor")
    # names of a chart are its own on a page with several
    text = re.sub(r'\b(id="|href="#|url\(#)', rf"\g<1>{name}-", text)
    return re.sub(r"<metadata>.*?</metadata>\s*", "", text, flags=re.S).replace('<svg ', f'<svg role="img" class="{name}" ', 1)


def bars(name: str, rows: Sequence[Tuple[str, float, str]]) -> str:
    """A bar for each row: its name, its length, and what is written after it. The first row is the highest."""

    names = [plain_text("\n".join(textwrap.wrap(it[0][:48], LETTERS))) for it in rows]
    lines = max((it.count("\n") + 1 for it in names), default=1)

    def draw(axes: Any) -> None:
        lengths, after = [it[1] for it in rows], [plain_text(it[2]) for it in rows]
        drawn = axes.barh(range(len(rows)), lengths, color=[COLOURS.get(it[0], OTHER) for it in rows], height=0.7)
        axes.bar_label(drawn, after, padding=4)
        axes.set_yticks(range(len(rows)), names)
        axes.invert_yaxis()
        axes.set_xlim(0, 1.25 * (max(lengths) or 1))
        axes.set_xticks([])
        axes.tick_params(left=False)
        for it in axes.spines.values():
            it.set_visible(False)

    return _chart(name, 0.3 + (0.1 + 0.15 * lines) * len(rows), draw) if rows else ""


def ratios(name: str, values: Sequence[float], label: str) -> str:
    """How many files have each ratio, on a logarithmic axis with round numbers."""
    if not values:
        return ""
    np, ticker = library("numpy"), library("matplotlib.ticker")
    low, high = min(values), max(values)
    low, high = (low, high) if high > 1.02 * low else (low / 1.2, high * 1.2)

    def draw(axes: Any) -> None:
        axes.set_xscale("log")
        axes.hist(values, bins=np.geomspace(low, high, 33), color=COLOURS["compressed"])
        marks = [it for it in ROUND if low / 1.02 <= it <= high * 1.02]
        if len(marks) < 2:
            marks = [float(f"{it:.3g}") for it in np.geomspace(low, high, 4)]
        axes.set_xticks(marks[:: max(1, len(marks) // 6)])
        axes.get_xaxis().set_major_formatter(ticker.FormatStrFormatter("%g"))
        axes.get_xaxis().set_minor_locator(ticker.NullLocator())
        axes.get_yaxis().set_major_locator(ticker.MaxNLocator(4, integer=True))
        axes.set_xlabel(label)
        axes.set_ylabel("files")

    return _chart(name, 2.2, draw)
