"""A curve over two scales by powers of ten, as a picture."""
import math
import typing

from pictures import MARGIN, STYLE, element, words

WIDTH, HEIGHT = 480, 300
LEFT, TOP, RIGHT, BOTTOM = 84, 76, 48, 52
LINE = ".line { stroke: #bc4c00; stroke-width: 1.5; fill: none }\n@media (prefers-color-scheme: dark) { .line { stroke: #f0883e } }\n"


class Curve(typing.NamedTuple):
    title: str
    under: str
    across: str  # what the points vary
    up: str  # what was measured, with its unit
    points: list  # pairs of numbers above 0


class Scale(typing.NamedTuple):
    """Whole powers of ten from one to another, between two places of the picture."""

    low: int
    high: int
    start: float
    end: float

    def at(self, value):
        return self.start + (self.end - self.start) * (math.log10(value) - self.low) / (self.high - self.low)

    def ticks(self):
        return [10.0**power for power in range(self.low, self.high + 1)]


def scale(values, start, end):
    low = math.floor(math.log10(min(values)))
    return Scale(low, max(math.ceil(math.log10(max(values))), low + 1), start, end)


def figure(value):
    """A power of ten, in digits."""
    return f"{value:,.0f}" if value >= 1 else f"{value:.{round(-math.log10(value))}f}"


def grid(across, up):
    right, bottom = WIDTH - RIGHT, HEIGHT - BOTTOM
    for tick in across.ticks():
        yield element("line", x1=f"{across.at(tick):.1f}", x2=f"{across.at(tick):.1f}", y1=TOP, y2=bottom, **{"class": "grid"})
        yield words(f"{across.at(tick):.1f}", bottom + 16, figure(tick), "middle", "quiet")
    for tick in up.ticks():
        yield element("line", x1=LEFT, x2=right, y1=f"{up.at(tick):.1f}", y2=f"{up.at(tick):.1f}", **{"class": "grid"})
        yield words(LEFT - 8, f"{up.at(tick) + 4:.1f}", figure(tick), "end", "quiet")


def svg(curve):
    across = scale([x for x, _ in curve.points], LEFT, WIDTH - RIGHT)
    up = scale([y for _, y in curve.points], HEIGHT - BOTTOM, TOP)
    places = [(f"{across.at(x):.1f}", f"{up.at(y):.1f}") for x, y in curve.points]
    parts = [
        element("title", f"{curve.title}: {curve.up}"),
        element("style", STYLE + LINE),
        element("rect", x=0.5, y=0.5, width=WIDTH - 1, height=HEIGHT - 1, rx=6, **{"class": "paper"}),
        words(MARGIN, 28, curve.title, kind="title"),
        words(MARGIN, 46, f"{curve.up}, {curve.under}", kind="quiet"),
        *grid(across, up),
        words((LEFT + WIDTH - RIGHT) / 2, HEIGHT - 14, curve.across, "middle", "quiet"),
        element("path", d="M" + "L".join(f"{x} {y}" for x, y in places), **{"class": "line"}),
        *(element("circle", cx=x, cy=y, r=4, **{"class": "share"}) for x, y in places),
    ]
    head = f'<svg xmlns="http://www.w3.org/2000/svg" viewBox="0 0 {WIDTH} {HEIGHT}" width="{WIDTH}" height="{HEIGHT}" role="img">'
    return "\n".join([head, *parts, "</svg>"]) + "\n"
