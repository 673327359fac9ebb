"""A picture of growth as SVG: panels with two logarithmic axes, which are readable on a light and on a dark screen."""
import math
from dataclasses import dataclass

WIDE, HIGH = 360, 220
# Where the first panel begins, and how far it is from one to the next.
LEFT, TOP, RIGHT, DOWN = 90, 96, 470, 310
# A mark of its own for each job, around its point.
MARKS = (
    "M-3.5 0a3.5 3.5 0 1 0 7 0a3.5 3.5 0 1 0 -7 0z",
    "M-3 -3h6v6h-6z",
    "M0 -4.5l4.5 7.5h-9z",
    "M0 -4.5l4.5 4.5l-4.5 4.5l-4.5 -4.5z",
    "M0 4.5l-4.5 -7.5h9z",
)
LIGHT = ("#0072b2", "#c85200", "#007a5a", "#a8428a", "#806000")
DARK = ("#5ab8f0", "#ff9850", "#30d0a0", "#f09cd0", "#e8c848")
BOTH = """
    text { font: 13px sans-serif } .title { font-weight: bold } .middle { text-anchor: middle } .end { text-anchor: end }
    .line { fill: none; stroke-width: 1.8 } .grid, .axis, .slope { fill: none; stroke-width: 1 } .slope { stroke-dasharray: 6 4 }"""


@dataclass
class Panel:
    """Of each job its points: steps of what grows, and seconds."""

    title: str
    unit: str
    lines: dict


@dataclass
class Scale:
    """A logarithmic axis: the values at its ends, and where these are in the picture."""

    low: float
    high: float
    begin: float
    end: float

    def at(self, value):
        share = math.log(value / self.low) / math.log(self.high / self.low)
        return round(self.begin + share * (self.end - self.begin), 1)

    def ticks(self):
        """The powers of ten, on a short axis also 2 and 5 times them."""
        leads = (1, 2, 5) if self.high / self.low < 100 else (1,)
        tens = range(math.floor(math.log10(self.low)), math.ceil(math.log10(self.high)))
        return [value for ten in tens for value in (lead * 10**ten for lead in leads) if self.low <= value <= self.high]


def style():
    """Colours of the text and of each job, on a light and on a dark ground."""

    def colours(back, text, grid, slope, jobs):
        made = [f".back {{ fill: {back} }} text {{ fill: {text} }} .axis {{ stroke: {text} }}"]
        made += [f".grid {{ stroke: {grid} }} .slope {{ stroke: {slope} }}"]
        made += [f".job{at} {{ stroke: {it}; fill: {it} }}" for at, it in enumerate(jobs)]
        return " ".join(made)

    light = colours("#ffffff", "#222222", "#e4e4e4", "#8a8a8a", LIGHT)
    dark = colours("#14171a", "#dddddd", "#30353a", "#8a8a8a", DARK)
    return f"<style>{BOTH}\n    {light}\n    @media (prefers-color-scheme: dark) {{ {dark} }}\n  </style>"


def text(x, y, what, kind="", turned=False):
    turn = f' transform="rotate(-90 {x} {y})"' if turned else ""
    return f'<text x="{x}" y="{y}" class="{kind}"{turn}>{what}</text>'


def path(points, kind):
    return f'<path class="{kind}" d="M{" L".join(f"{x} {y}" for x, y in points)}"/>'


def time_text(seconds):
    return f"{seconds:g} s" if seconds >= 1 else f"{1000 * seconds:g} ms"


def frame(x, y, panel):
    """The axes with ticks, and a line of slope 1 through the corner above on the right."""
    made = [text(x.begin, y.end - 12, panel.title, "title")]
    made.append(text((x.begin + x.end) / 2, y.begin + 40, panel.unit, "middle"))
    made.append(text(x.begin - 64, (y.begin + y.end) / 2, "processor time", "middle", turned=True))
    for it in x.ticks():
        made.append(path([(x.at(it), y.begin), (x.at(it), y.end)], "grid"))
        made.append(text(x.at(it), y.begin + 20, f"{it:,}", "middle"))
    for it in y.ticks():
        made.append(path([(x.begin, y.at(it)), (x.end, y.at(it))], "grid"))
        made.append(text(x.begin - 8, y.at(it) + 4, time_text(it), "end"))
    times = min(x.high / x.low, y.high / y.low)
    made.append(path([(x.at(x.high / times), y.at(y.high / times)), (x.end, y.end)], "slope"))
    made.append(path([(x.begin, y.end), (x.begin, y.begin), (x.end, y.begin)], "axis"))
    return made


def marks(at, points):
    return [f'<path d="{MARKS[at]}" transform="translate({x} {y})"/>' for x, y in points]


def drawn_panel(left, top, panel, jobs):
    """A panel, whose frame has its upper left corner at a place."""
    steps = [step for line in panel.lines.values() for step, _ in line]
    times = [seconds for line in panel.lines.values() for _, seconds in line]
    x = Scale(min(steps) / 1.25, max(steps) * 1.25, left, left + WIDE)
    y = Scale(min(times) / 1.5, max(times) * 1.5, top + HIGH, top)
    made = frame(x, y, panel)
    for at, job in enumerate(jobs):
        points = [(x.at(step), y.at(seconds)) for step, seconds in panel.lines[job]]
        made += [f'<g class="job{at}">', path(points, "line"), *marks(at, points), "</g>"]
    return made


def legend(jobs):
    """The marks of the jobs, and the line of slope 1."""
    made = []
    for at, job in enumerate(jobs):
        left = LEFT + 110 * at
        points = [(left, 40), (left + 28, 40)]
        made += [f'<g class="job{at}">', path(points, "line"), *marks(at, [(left + 14, 40)]), "</g>", text(left + 36, 44, job)]
    left = LEFT + 110 * len(jobs)
    return [*made, path([(left, 40), (left + 28, 40)], "slope"), text(left + 36, 44, "slope 1: in proportion")]


def picture(panels, jobs):
    """All panels, two in a row."""
    size = (LEFT + RIGHT + WIDE + 30, TOP + DOWN * ((len(panels) + 1) // 2) - 30)
    made = [style(), f'<rect class="back" width="{size[0]}" height="{size[1]}"/>', *legend(jobs)]
    for at, panel in enumerate(panels):
        made += drawn_panel(LEFT + RIGHT * (at % 2), TOP + DOWN * (at // 2), panel, jobs)
    top = f'<svg xmlns="http://www.w3.org/2000/svg" viewBox="0 0 {size[0]} {size[1]}" role="img" aria-labelledby="title">'
    title = '<title id="title">Processor time of the jobs of fz, with one worker, by what grows</title>'
    return "\n  ".join([top, title, *made]) + "\n</svg>\n"
