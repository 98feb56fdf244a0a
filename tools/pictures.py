"""The exact mass of each outcome beside the share that was counted, in lines of text and as a picture."""
import fractions
import math
import subprocess
import typing
import xml.sax.saxutils

import printed

# How many standard deviations of a share may be from its mass.
DEVIATIONS = 3
# The length of the longest bar of a text.
LONGEST = 30


class Row(typing.NamedTuple):
    outcome: str  # in words
    mass: fractions.Fraction
    count: int


class Comparison(typing.NamedTuple):
    """The rows of a program, and how many runs were counted."""

    rows: list
    runs: int


def said(zar, *words):
    """What a command prints. One that fails is a CalledProcessError, with its reason."""
    return subprocess.run([zar, *words], capture_output=True, text=True, check=True).stdout


def joined(masses, counts):
    """Masses and counts, side by side. An outcome that one of them does not have is 0 there, and what never ends is counted where runs
    reach the limit of turns."""
    if printed.Rest.ENDLESS in masses and printed.Limit.TURNS in counts:
        counts = {printed.Rest.ENDLESS if it == printed.Limit.TURNS else it: count for it, count in counts.items()}
    rows = [
        Row(printed.words(outcome), masses.get(outcome, fractions.Fraction(0)), counts.get(outcome, 0))
        for outcome in sorted({*masses, *counts}, key=printed.order)
    ]
    return Comparison(rows, sum(row.count for row in rows))


def compared(zar, mass, tally):
    """What the words of a `mass` or an `exact` and of a `tally` print, side by side."""
    return joined(printed.rows(said(zar, *mass), "mass"), printed.rows(said(zar, *tally), "count"))


def bound(mass, runs):
    """How far the share of an outcome of this mass may be from it: some standard deviations of a binomial share."""
    return DEVIATIONS * math.sqrt(mass * (1 - mass) / runs)


def streams(seed, first, end):
    """A line that says which runs were counted."""
    return f"{end - first} runs, on the streams {first} to {end - 1} of seed {seed}"


def percent(share):
    return f"{100 * float(share):.2f} %"


# ---- text


def bar(share, greatest):
    halves = round(2 * LONGEST * share / greatest)
    return "█" * (halves // 2) + "▌" * (halves % 2)


def text(comparison):
    """A line for each row: the outcome, its mass, that in percent, the share counted, and a bar of the share."""
    shares = [row.count / comparison.runs for row in comparison.rows]
    cells = [
        (row.outcome, str(row.mass), percent(row.mass), percent(share), bar(share, max(shares)))
        for row, share in zip(comparison.rows, shares)
    ]
    widths = [max(len(row[i]) for row in cells) for i in range(4)]
    return "".join(
        f"{a:<{widths[0]}}  {b:<{widths[1]}}  {c:>{widths[2]}}  counted {d:>{widths[3]}}  {e}".rstrip() + "\n" for a, b, c, d, e in cells
    )


# ---- a picture

# Light colours, and dark ones where the reader's are.
STYLE = """
text { font: 13px ui-monospace, "DejaVu Sans Mono", Menlo, Consolas, monospace; fill: #1f2328 }
.title { font-weight: 600; font-size: 16px }
.quiet { fill: #59636e; font-size: 12px }
.paper { fill: #ffffff; stroke: #d1d9e0 }
.grid { stroke: #d1d9e0 }
.mass { fill: #a9c6e8 }
.bound { stroke: #34597f; stroke-width: 1.5; fill: none }
.share { fill: #bc4c00; stroke: #ffffff; stroke-width: 1.5 }
@media (prefers-color-scheme: dark) {
text { fill: #f0f6fc }
.quiet { fill: #9198a1 }
.paper { fill: #0d1117; stroke: #3d444d }
.grid { stroke: #3d444d }
.mass { fill: #2f5583 }
.bound { stroke: #a9c6e8 }
.share { fill: #f0883e; stroke: #0d1117 }
}
"""
LETTER = 8  # the width of a letter
MARGIN = 24
PLOT = 360  # the width of the greatest share on the scale
STEP = 30  # from row to row
TOP = 92  # the first row
STEPS = (0.01, 0.02, 0.05, 0.1, 0.2, 0.25)


def scale(comparison):
    """The steps of the scale: as many as reach over each mass with its bound, and each share."""
    reach = max(max(float(row.mass) + bound(row.mass, comparison.runs), row.count / comparison.runs) for row in comparison.rows)
    step = next((step for step in STEPS if reach / step <= 5), STEPS[-1])
    return [i * step for i in range(math.ceil(min(reach, 1) / step - 1e-9) + 1)]


def element(name, content=None, **attributes):
    told = "".join(f" {key.replace('_', '-')}={xml.sax.saxutils.quoteattr(str(it))}" for key, it in attributes.items())
    return f"<{name}{told}/>" if content is None else f"<{name}{told}>{xml.sax.saxutils.escape(content)}</{name}>"


def words(x, y, content, anchor="start", kind=None):
    return element("text", content, x=x, y=y, text_anchor=anchor, **({"class": kind} if kind else {}))


def whisker(low, high, y):
    return element("path", d=f"M{low:.1f} {y - 5}v10M{low:.1f} {y}H{high:.1f}M{high:.1f} {y - 5}v10", **{"class": "bound"})


def drawn(row, runs, y, at, columns):
    """The parts of a row at the height y: its name, the bar of its mass, the bound, the share, and both in figures."""
    mass, share, far = float(row.mass), row.count / runs, bound(row.mass, runs)
    return [
        words(at(0) - 10, y + 4, row.outcome, "end"),
        element("rect", x=at(0), y=y - 9, width=f"{at(mass) - at(0):.1f}", height=18, rx=2, **{"class": "mass"}),
        whisker(at(max(mass - far, 0)), at(min(mass + far, 1)), y),
        element("circle", cx=f"{at(share):.1f}", cy=y, r=4, **{"class": "share"}),
        words(columns[0], y + 4, str(row.mass), "end"),
        words(columns[1], y + 4, percent(mass), "end"),
        words(columns[2], y + 4, percent(share), "end"),
    ]


def legend(left, y):
    """What the marks stand for, in two lines."""
    return [
        element("rect", x=left, y=y - 9, width=24, height=12, rx=2, **{"class": "mass key"}),
        words(left + 32, y + 1, "exact mass p", kind="quiet"),
        element("circle", cx=left + 152, cy=y - 3, r=4, **{"class": "share"}),
        words(left + 164, y + 1, "counted share of n runs", kind="quiet"),
        whisker(left, left + 24, y + 19),
        words(left + 32, y + 23, f"what chance allows: p ± {DEVIATIONS}·√(p(1−p)/n), {DEVIATIONS} standard deviations", kind="quiet"),
    ]


def svg(title, under, comparison):
    """The picture, with a title and a line under it."""
    rows, runs = comparison
    left = MARGIN + LETTER * max(len(row.outcome) for row in rows) + 10
    ticks = scale(comparison)
    columns = [left + PLOT + 24 + LETTER * max(4, *(len(str(row.mass)) for row in rows))]
    columns += [columns[0] + 10 * LETTER, columns[0] + 21 * LETTER]
    width, bottom = columns[2] + MARGIN, TOP + STEP * len(rows) - 6
    at = lambda share: left + PLOT * share / ticks[-1]
    parts = [
        element("title", f"{title}: exact masses and counted shares"),
        element("style", STYLE),
        element("rect", x=0.5, y=0.5, width=width - 1, height=bottom + 79, rx=6, **{"class": "paper"}),
        words(MARGIN, 32, title, kind="title"),
        words(MARGIN, 52, under, kind="quiet"),
        *(words(x, TOP - 20, said, "end", "quiet") for x, said in zip(columns[1:], ("mass", "counted"))),
    ]
    for tick in ticks:
        parts.append(element("line", x1=f"{at(tick):.1f}", x2=f"{at(tick):.1f}", y1=TOP - 14, y2=bottom, **{"class": "grid"}))
        parts.append(words(f"{at(tick):.1f}", bottom + 16, f"{100 * tick:.0f} %", "middle", "quiet"))
    for i, row in enumerate(rows):
        parts += drawn(row, runs, TOP + STEP * i + 5, at, columns)
    parts += legend(MARGIN, bottom + 46)
    head = f'<svg xmlns="http://www.w3.org/2000/svg" viewBox="0 0 {width} {bottom + 80}" width="{width}" height="{bottom + 80}" role="img">'
    return "\n".join([head, *parts, "</svg>"]) + "\n"
