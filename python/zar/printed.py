"""How runs end, and the lines in which `zar` and its library tell it.

This is the one reader of these lines: the package and the scripts of the repository go through it.
"""
from __future__ import annotations

import enum
import math
import re
import typing
from fractions import Fraction


class Fault(enum.Enum):
    """A fault of the program, which ended its run."""

    OVERFLOW = "fault overflow"
    ZERO_DIVISOR = "fault zero divisor"
    BAD_BOUND = "fault bad bound"


class Limit(enum.Enum):
    """A limit that ended the run."""

    TURNS = "limit turns"
    ATTEMPTS = "limit attempts"
    ROUNDS = "limit rounds"
    FLIPS = "limit flips"


class Rest(enum.Enum):
    """What is no end of a run: it needs more bits, a string does not decide it, it never ends, or it is all that has no row."""

    MORE_BITS = "more bits"
    UNDECIDED = "undecided"
    ENDLESS = "endless"
    OTHER = "other"


Outcome = typing.Union[int, Fault, Limit, Rest]

# The outcomes without a number, in the order in which they are printed, after all values.
NAMED: dict[str, Fault | Limit | Rest] = {it.value: it for it in (*Fault, *Limit, *Rest)}
PLACES = {it: place for place, it in enumerate(NAMED.values())}
VALUE = re.compile(r"value (0|-?[1-9][0-9]*)")
MASS, COUNT, FRACTION = r"[1-9][0-9]*/[1-9][0-9]*", r"[1-9][0-9]*", r"(?:0|[1-9][0-9]*)/[1-9][0-9]*"
# The word between an outcome and what is told of it: the form of that, in words, its type, and which rest has such a row.
KINDS = {
    "mass": (re.compile(MASS), "a fraction above 0", Fraction, (Rest.UNDECIDED, Rest.ENDLESS)),
    "count": (re.compile(COUNT), "a number above 0 without leading zeros", int, (Rest.MORE_BITS,)),
}
BOUNDS = re.compile(rf"(.*) from ({FRACTION}) to ({FRACTION})\n")
BITS = re.compile(rf"bits (?:({FRACTION})|unbounded)\n")
ROUNDS = re.compile(rf"rounds (?:({FRACTION})|unbounded)\n")
COUNTS = {word: re.compile(rf"{word} (?:({FRACTION})|(unbounded)|unknown)\n") for word in ("draws", "turns")}


# The most characters of a text that a message quotes.
QUOTED = 80


class Bounds(typing.NamedTuple):
    """Two fractions between which a mass lies."""

    low: Fraction
    high: Fraction


def quoted(text: str) -> str:
    """A text as a message quotes it, cut where it is long."""
    return repr(text) if len(text) <= QUOTED else f"{text[:QUOTED]!r}.."


def outcome(text: str) -> Outcome:
    """The outcome that these words name, else a ValueError."""
    value = VALUE.fullmatch(text)
    if value and -(2**63) <= int(value[1]) < 2**63:
        return int(value[1])
    if text not in NAMED:
        raise ValueError(f"{quoted(text)} is no outcome")
    return NAMED[text]


def words(it: Outcome) -> str:
    """The words by which an outcome is printed."""
    return str(it.value) if isinstance(it, enum.Enum) else f"value {it}"


def order(it: Outcome) -> tuple[int, int]:
    """Where an outcome stands among others: values ascend, and the others follow."""
    return (1, PLACES[it]) if isinstance(it, enum.Enum) else (0, it)


def row(line: str, word: str) -> tuple[Outcome, typing.Any]:
    """The outcome and the number of a row, whose last byte is a line feed. Else a ValueError says why it is none."""
    if not line.endswith("\n"):
        raise ValueError("it does not end in a line feed, and may be cut off")
    name, between, number = line[:-1].partition(f" {word} ")
    form, said, read, rest = KINDS[word]
    if not between:
        raise ValueError(f"it does not have ` {word} `")
    if not form.fullmatch(number):
        raise ValueError(f"{quoted(number)} is not {said}")
    found = outcome(name)
    if isinstance(found, Rest) and found not in rest:
        raise ValueError(f"{quoted(name)} has no {word}")
    return found, read(number)


def rows(text: str, word: str) -> dict[Outcome, typing.Any]:
    """The numbers of the outcomes in the rows of a text."""
    return dict(row(line, word) for line in text.splitlines(keepends=True))


def told(form: re.Pattern[str], line: str) -> re.Match[str]:
    """The parts of a line of this form, else a ValueError."""
    found = form.fullmatch(line)
    if not found:
        raise ValueError(f"{quoted(line)} is not of the form {form.pattern}")
    return found


def bounds(text: str) -> dict[Outcome, Bounds]:
    """The bounds of the outcomes in the rows of a text."""
    rows = (told(BOUNDS, line) for line in text.splitlines(keepends=True))
    return {outcome(it[1]): Bounds(Fraction(it[2]), Fraction(it[3])) for it in rows}


def bits(text: str) -> Fraction | float:
    """The number of bits in the line of an expected cost, which is math.inf where it has no bound."""
    number = told(BITS, text)[1]
    return Fraction(number) if number else math.inf


def rounds(text: str) -> Fraction | float:
    """The number of rounds in such a line, likewise."""
    number = told(ROUNDS, text)[1]
    return Fraction(number) if number else math.inf


def counts(text: str, word: str) -> Fraction | float | None:
    """The number of draws, or of turns of loops, in such a line, by its word: likewise, or None where it is unknown."""
    number, without_bound = told(COUNTS[word], text).groups()
    return Fraction(number) if number else math.inf if without_bound else None
