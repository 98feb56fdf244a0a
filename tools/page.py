"""A page of HTML for a program, of what `zar` says of it: without a script, for light and dark screens and for phones."""
import fractions
import hashlib
import html
import math
import pathlib
import subprocess
import typing

import jumps
import pictures
import printed
from caller import Refused, Silent

STYLE = pathlib.Path(__file__).with_name("page.css")
PAGE = """<!DOCTYPE html>
<html lang="en">
<head>
<meta charset="utf-8">
<meta name="viewport" content="width=device-width, initial-scale=1">
<title>{title}</title>
{style}
</head>
<body>
<h1>{title}</h1>
{body}</body>
</html>
"""


class Asked(typing.NamedTuple):
    """What a page is made for: numbers of the streams, limits of turns, and the most bits of the strings that are looked at."""

    seed: int = 1
    runs: int = 1000
    turns: int = 30
    depth: int = 12


LEAST = Asked(seed=0, runs=1, turns=0, depth=0)
MOST = Asked(seed=2**64 - 1, runs=2**40, turns=10**9, depth=20)


def is_within(asked, most):
    return all(least <= it <= greatest for least, it, greatest in zip(LEAST, asked, most))


def tag(name, content="", **attributes):
    told = "".join(f' {key}="{html.escape(str(it))}"' for key, it in attributes.items() if it != "")
    return f"<{name}{told}>{content}</{name}>"


def div(kind, content="", style=""):
    return tag("div", content, **{"class": kind, "style": style})


def pre(text):
    return tag("pre", html.escape(text))


def percent(share):
    """A share of the width, in CSS."""
    return f"{100 * float(share):.4g}%"


def row(name, marks, said):
    """A line with a name, a bar of marks, and figures."""
    return div("row", div("name", html.escape(name)) + div("bar", marks) + div("said", html.escape(said)))


def figure(title, body, calls, note=""):
    """A part of the page, with the calls that made it under it."""
    under = "<br>".join([*(tag("code", html.escape(call)) for call in calls), *([html.escape(note)] if note else [])])
    return tag("h2", title) + "\n" + tag("figure", body + tag("figcaption", under)) + "\n"


# ---- the parts


def program(zar, _):
    return figure("The program", pre(zar.said("show")), [zar.typed("show")])


def between(low, high):
    """Two bounds in figures: the fraction where they are one, else six digits, rounded so that what lies between them still does."""
    if low == high:
        return str(low)
    return f"{math.floor(low * 10**6) / 10**6:.6f} to {math.ceil(high * 10**6) / 10**6:.6f}"


def comparison_row(line, high, runs, reach):
    """The mass, which is at most `high`, as a bar, what chance allows as an interval, and the share that was counted as a dot."""
    share, low = fractions.Fraction(line.count, runs), line.mass
    least, most = max(float(low) - pictures.bound(low, runs), 0) / reach, min(float(high) + pictures.bound(high, runs), 1) / reach
    marks = div("mass", style=f"width:{percent(float(low) / reach)}")
    marks += div("chance", style=f"left:{percent(least)};width:{percent(most - least)}")
    marks += div("share", style=f"left:{percent(float(share) / reach)}")
    figures = f"{low}  {pictures.percent(low)}" if low == high else between(low, high)
    return row(line.outcome, marks, f"{figures}  counted {pictures.percent(share)}")


# So many rounds and bits that they end a run only where hardly any observation succeeds.
AMPLE = "--rounds 1000000 --budget 1000000"
# So many turns, at least, have the runs beside masses that have no limit of them, and bounds where a limit of turns has much of all mass.
MANY_TURNS, MUCH = 1000, fractions.Fraction(1, 100)
# What the bars of a comparison are.
BARS = {"mass": "exact masses", "exact": "exact masses where nothing is limited", "enclose": "the lower of two bounds of each mass"}


def turns_of(asked):
    return "--turns", str(asked.turns)


def counted(zar, asked, turns):
    """A tally, and its counts."""
    call = ("tally", *f"--seed {asked.seed} --from 0 --to {asked.runs} --turns {turns} {AMPLE}".split())
    return call, printed.rows(zar.said(*call), "count")


def counts(zar, asked, why):
    """The shares of runs alone."""
    call, rows = counted(zar, asked, asked.turns)
    shares = {it: fractions.Fraction(count, asked.runs) for it, count in rows.items()}
    lines = [row(printed.words(it), div("share", style=f"left:{percent(share)}"), f"counted {pictures.percent(share)}") for it, share in shares.items()]
    note = f"{why} Dots are the shares of {asked.runs} runs, on a scale from 0 to 1."
    return figure("Masses and counts", "\n".join(lines), [zar.typed(*call)], note)


def masses(zar, asked):
    turns = turns_of(asked)
    try:
        told = zar.told(("mass", *turns), ("exact",), ("enclose", *turns))
    except Refused as why:
        return counts(zar, asked, str(why))
    tally, rows = counted(zar, asked, max(asked.turns, MANY_TURNS) if told.call == ("exact",) else asked.turns)
    bounds = {it: two for it, two in told.bounds().items() if it != printed.Rest.OTHER}
    compared = pictures.joined({it: low for it, (low, _) in bounds.items()}, rows)
    highs = {printed.words(it): high for it, (_, high) in bounds.items()}
    reach = pictures.scale(compared)[-1]
    body = "\n".join(comparison_row(line, highs.get(line.outcome, line.mass), compared.runs, reach) for line in compared.rows)
    note = (
        f"{told.refused} Bars are {BARS[told.call[0]]}, on a scale from 0 to {100 * reach:.3g} %. Dots are the shares of {asked.runs} runs, "
        f"which chance leaves between the marks but for about 3 times in 1000."
    )
    return figure("Masses and counts", body, [zar.typed(*told.call), zar.typed(*tally)], note.strip())


LIE_BETWEEN = "Each mass lies on its mark, on a scale from 0 to 1, at every greater limit of turns, too; orange where two bounds differ."
MOST_ROWS = 20  # of bounds of masses without a limit


def bounds_row(outcome, low, high):
    mark = div("bounds one" if low == high else "bounds", style=f"left:{percent(low)};width:{percent(high - low)}")
    return row(printed.words(outcome), mark, between(low, high))


def settled_row(outcome, low, high):
    if low < high:
        return bounds_row(outcome, low, high)
    return row(printed.words(outcome), div("mass settled", style=f"width:{percent(low)}"), f"{low}  {pictures.percent(low)}")


def most(bounds):
    """The outcomes that may have most, MOST_ROWS of them at most, in their order."""
    kept = sorted(bounds, key=lambda it: bounds[it].high, reverse=True)[:MOST_ROWS]
    return [it for it in bounds if it in kept]


def settled(zar, asked):
    """The masses where nothing is limited, where a limit of turns changes them; or bounds of these, where it has much of all mass."""
    further = ("enclose", "--turns", str(max(asked.turns, MANY_TURNS)), "--all-turns")
    try:
        cut = printed.rows(zar.said("mass", *turns_of(asked)), "mass").get(printed.Limit.TURNS, 0)
        told = zar.told(("exact",), *([further] if cut > MUCH else [])) if cut else None
    except Silent:
        told = None
    if not told:
        return ""
    if told.call == ("exact",):
        kept, note = told.bounds(), "The masses where neither turns nor attempts nor rounds have a limit, on a scale from 0 to 1."
    else:
        kept, note = most(told.bounds()), f"{told.refused} {LIE_BETWEEN} At most {MOST_ROWS} outcomes are shown, those that may have most."
    lines = [settled_row(it, *told.bounds()[it]) for it in kept]
    return figure("Masses without a limit", "\n".join(lines), [zar.typed(*told.call)], note)


def bounds(zar, asked):
    turns = turns_of(asked)
    told = zar.told(("posterior", *turns), ("enclose", *turns, "--all-turns"))
    lines = [bounds_row(it, *two) for it, two in told.bounds().items()]
    return figure("Bounds", "\n".join(lines), [zar.typed(*told.call)], f"{told.refused} {LIE_BETWEEN}".strip())


def decided(zar, bits, turns):
    """The share of the strings of so many bits that end the run."""
    shares = printed.rows(zar.said("audit", "--depth", str(bits), "--turns", str(turns)), "mass")
    return 1 - next((share for it, share in shares.items() if printed.words(it) == "undecided"), fractions.Fraction(0))


def column(bits, share):
    """A column with the share in percent above it, rounded down, and the bits under it."""
    return div("column", f"{math.floor(100 * share)}" + tag("span", tag("b", style=f"height:{percent(share)}")) + str(bits))


def read_on_average(told):
    """What is said of the bits that a run reads."""
    average, limits = printed.bits(told.text), "With one attempt at each draw and one round" if told.call[1:] else "With no limit"
    if average == math.inf:
        return f"{limits} there is no bound to the bits that a run reads on average."
    return f"{limits} a run reads {average} bits on average, {float(average):.4g} in decimals."


def bits_read(zar, *calls):
    """The last of these calls that tells how many bits a run reads, if any does, and what is said of them, with why later ones do not."""
    answered, note = [], ""
    for call in calls:
        try:
            answered, note = [call], read_on_average(zar.told(call))
        except Refused as why:
            note = f"{why} {note}"
        except Silent as why:
            note = f"{zar.typed(*call)}: {why}. {note}"
    return answered, note.strip()


def reading(zar, asked):
    turns = turns_of(asked)
    audit, limited = ("audit", "--depth", f"0 .. {asked.depth}", *turns), ("cost", *"--attempts 1 --rounds 1".split(), *turns)
    body = div("columns", "".join(column(bits, decided(zar, bits, asked.turns)) for bits in range(asked.depth + 1)))
    # What has no limit may take long, so it is asked last.
    answered, note = bits_read(zar, limited, ("cost",))
    return figure("Bits", body, [zar.typed(*it) for it in (audit, *answered)], f"Of all strings of so many bits, how many in a hundred end the run. {note}")


def code(zar, _):
    listing = zar.said("code")
    body = div("code", jumps.drawn(listing) + pre(listing))
    return figure("Code", body, [zar.typed("code")], "An arrow for each jump, orange where it leads back.")


# In the order of a page; what needs least comes last.
PARTS = {"Masses and counts": masses, "Masses without a limit": settled, "Bounds": bounds, "Bits": reading, "Code": code}


def part(title, make, zar, asked):
    """A part of the page, or why it is not there."""
    zar.begin()
    try:
        return make(zar, asked)
    except Silent as why:
        return figure(title, pre(str(why)), [])


def whole(title, body, is_alone=True):
    """A page with a title, of parts. It is one file where it is alone; else its style is STYLE, beside it."""
    style = f"<style>\n{STYLE.read_text(encoding='utf-8')}</style>" if is_alone else f'<link rel="stylesheet" href="{STYLE.name}">'
    return PAGE.format(title=html.escape(title), style=style, body=body)


def page(zar, asked, is_alone=True):
    """The page of a program, as `whole` makes it. One whose text is refused is Silent."""
    zar.said("check")
    version = subprocess.run([zar.zar, "--version"], capture_output=True, text=True, check=True).stdout.strip()
    made = {title: part(title, PARTS[title], zar, asked) for title in reversed(PARTS)}
    parts = program(zar, asked) + "".join(made[title] for title in PARTS)
    foot = f"Made by tools/report with {version}. The program is the text with the SHA-256 {hashlib.sha256(zar.text).hexdigest()}."
    return whole(zar.name, parts + tag("footer", tag("p", foot)) + "\n", is_alone)
