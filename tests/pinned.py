"""Statements of laws and causes of refusals, worked out from their text on small cases, and the same said in fractions here.

A law that says "no more than" is true of other subjects, too, and a cause that is too weak refuses nothing that is wrong. So each is tried
where it holds and where it does not.
"""
import itertools
import math
from fractions import Fraction

import evaluating
import programs
import tables
from defined import Limited, option, program, program_of
from evaluating import Data

ATTEMPTS = None, 1, 2
# In place of the definition, which tries each number.
COMMON_DIVISOR = evaluating.strict(2, math.gcd)


# ---- divisors


def divisors():
    for a, b in itertools.product(range(13), repeat=2):
        yield evaluating.of("numbers", "Divisor", "gcd")(a, b) == math.gcd(a, b), f"the greatest common divisor of {a} and {b}"


# ---- rolls


def whole_parts(weights, flips):
    return sum(2**flips * weight // sum(weights) for weight in weights)


def all_flips(weights, most):
    """The flips of all strings: each front that has no label yet needs one more."""
    return sum(2 ** (most - flips) * (2**flips - whole_parts(weights, flips)) for flips in range(most))


def narrow_shares():
    """Both numbers of a share and of the average number of flips have at most 128 bits."""
    for weights, most in itertools.product([(1, 1), (3, 2, 1), (1, 1, 1)], range(6)):
        yield evaluating.of("weighted_roll", "Shares", "all_flips")(weights, most) == all_flips(weights, most), f"flips of {weights}, at most {most}"
    with evaluating.given(all_flips=evaluating.strict(2, all_flips)):
        for labels, most in itertools.product((2, 3, 7, 16, 17), (125, 126, 127, 128)):
            wanted = max(2**most, Fraction(all_flips((1,) * labels, most), 2)) < 2**128
            told = evaluating.of("weighted_roll", "Shares", "are_narrow")((1,) * labels, most)
            yield told == wanted, f"shares of {labels} labels within {most} flips are narrow"


def near_shares():
    """A roller that gives label 0 where a string begins with so many ones."""
    at_most = evaluating.field("weighted_roll", "ExactRollers", "HasAtMost", "near")
    for ones, (a, b), k, n, length in itertools.product((1, 2), [(1, 2), (1, 3), (2, 3), (1, 4)], range(3), (0, 2), range(4)):
        roller = evaluating.strict(1, lambda w: option(0 if len(w) >= ones and all(w[:ones]) else None))
        share = Fraction(length >= ones, 2**ones)
        wanted = n <= length and share <= Fraction(a, b) + Fraction(1, b * 2**k)
        yield at_most(roller, 0, a, b, k, n, length) == wanted, f"{share} of {length} bits is at most {a}/{b}, for {k} and {n}"


# ---- roundings


def weights_of(numbers, attempts, size):
    """What a class of this size weighs, and what no attempt decides."""
    again = 1 - Fraction(numbers, 2 ** (numbers - 1).bit_length())
    none = again**attempts if attempts else 0
    return Fraction(size, numbers) * (1 - none), Fraction(none)


def roundings():
    """Roundings that give each part so many units, about as many as its weight says."""
    down, few = ([evaluating.field("units_law", "Rounding", it, part) for part in ("shares", "rests")] for it in ("RoundsDown", "LosesFew"))
    for b, r, c, w in itertools.product((0, 1, 3, 6), ATTEMPTS, (1, 2, 4), (5, 9, 10)):
        share, rest = (weight * w for weight in weights_of(b, r, c)) if b else (0, 0)
        for off, lost in itertools.product(range(-2, 2), (0, 1)):
            parts = max(0, math.floor(share) + off), max(0, math.floor(rest) + off)
            cut = {"share": evaluating.strict(4, lambda *_: parts[0]), "rest": evaluating.strict(3, lambda *_: parts[1])}
            told = [down[0](cut, b, option(r), c, w), down[1](cut, b, option(r), w)]
            told += [few[0](lost, 9, option(r), cut, b, c, w), few[1](lost, 9, option(r), cut, b, w)]
            wanted = [parts[0] <= share, parts[1] <= rest, c > b or w > 9 or share <= parts[0] + lost, w > 9 or rest <= parts[1] + lost]
            yield told == [b == 0 or it for it in wanted], f"{parts} of {w} units, {c} of {b} by {r} attempts, {lost} lost"


def rounded_down():
    """The roundings of the code, each step in fractions."""
    share_of, rest_of = (evaluating.of("units_law", "Down", it) for it in ("share_of", "rest_of"))
    for b, r, c, all_units in itertools.product((1, 3, 5, 6, 8), (None, 1, 2, 3), (1, 2), (100, 2**20)):
        for w in (1, all_units // 3, all_units):
            high = low = all_units
            again = weights_of(b, 1, 1)[1] * all_units
            for _ in range(r or 0):
                high = math.ceil(Fraction(math.ceil(again) * high, all_units))
                low = math.floor(Fraction(math.floor(again) * low, all_units))
            some = math.floor(Fraction(w * (all_units - high), all_units)) if r else w
            wanted = math.floor(Fraction(some * c, b)), math.floor(Fraction(w * low, all_units)) if r else 0
            with evaluating.given(ALL=all_units):
                told = share_of(b, option(r), c, w), rest_of(b, option(r), w)
            yield told == wanted, f"{w} of {all_units} units, {c} of {b} by {r} attempts, rounded down"


# ---- causes of refusals

# So many numbers a draw is taken to have at most, where a cause asks for it.
NUMBERS = 4
ALWAYS = [("observe", ("=", 1, 0))]
SELDOM = [("while", ("=", "x", 0), [("choose", [(1, [("set", "x", 1)]), (1, [])])]), *ALWAYS]
# At so many turns the masses of a program with a loop are taken to be tried, and by then this one has ended.
TURNS = 3
ENDS = [("while", ("<", "x", 2), [("draw", "y", 4), ("set", "x", ("+", "x", 1))])]


def wide(part):
    """Four draws, with 2^128 or a little less as common denominator."""
    return [("choose", [(1, []), (part - 1, [])])] * 4


def chosen():
    """Programs that tell one cause from another, each with limits."""
    several = [([("draw", "x", 3), ("draw", "y", 2)], result) for result in ("y", ("+", "x", "y"))]
    several += [([("draw", "x", 4), ("observe", ("=", "x", 3))], "y"), *((body, "x") for body in (ALWAYS, SELDOM, [])), *((ENDS, it) for it in "xy")]
    yield from itertools.product(several, [(1, None, None), (2, 1, None), (1, None, 2)])
    for body in (wide(2**32), wide(2**32 - 1), [("while", "x", []), *wide(2**32)]):
        yield (body, "x"), (1, None, None)


def loops(b):
    return any(s[0] == "while" or any(loops(it) for it in blocks_of(s)) for s in b)


def blocks_of(s):
    return [b for _, b in s[1]] if s[0] == "choose" else [it for it in s[1:] if isinstance(it, list)]


def round_of(p, turns, attempts):
    """The tables of a round, and with what it fails."""
    walk = Limited(turns, attempts)
    return walk, Fraction(walk.round(p).get(tables.FAILED, 0))


class Causes:
    """What may be refused of a program where a table holds so many states, by the definitions and by tables here."""

    def __init__(self, p, states, all_units):
        self.p, self.made = p, program(p)
        many = evaluating.strict(2, lambda m, b: m >= NUMBERS)
        self.given = {"MOST_STATES": states, "TURNS_TRIED": TURNS, "ALL": all_units, "BlockWithin": many, "gcd": COMMON_DIVISOR}
        self.given["GoesBeyond"] = evaluating.some_case("exact_fold", "Refused", "GoesBeyond")
        self.forgetful = program_of(evaluating.of("forgetting", "Forgetful", "forgetful_of")(self.made))

    def told(self, crate, name, error, *limits):
        with evaluating.given(**self.given):
            why = evaluating.of(crate, "Refused", name)
            return why(Data(error), self.made, *limits) if crate != "exact_fold" else why(self.made, Data(error))

    def of_limited(self, turns, attempts, rounds):
        """For masses and bounds under limits."""
        limits = turns, option(attempts), option(rounds)
        (written, failed), (walk, _) = (round_of(p, turns, attempts) for p in (self.p, self.forgetful))
        width = written.width * failed.denominator ** ((rounds or 1) - 1)
        always = rounds is None and failed == 1
        wanted = {"TooWide": width >= 2**128, "TooManyStates": written.peak > self.given["MOST_STATES"], "AllFailed": always, "OutOfMemory": True}
        for error, may in wanted.items():
            yield self.told("mass_fold", "MassRefused", error, *limits) == may, f"masses: {error}"
        lost = Fraction((6 if attempts else 1) * walk.peak * (NUMBERS + 1) * walk.tables, self.given["ALL"])
        unlikely = rounds is None and failed + lost >= 1
        wanted = {"TooManyStates": walk.peak > self.given["MOST_STATES"], "AllFailed": always, "TooUnlikely": unlikely, "OutOfMemory": True}
        for error, may in wanted.items():
            told = self.told("enclose_fold", "EncloseRefused", error, *limits)
            yield self.for_all(told, range(NUMBERS + 2)) == may, f"bounds: {error}"

    def goes_beyond(self):
        walk = Limited(TURNS, None)
        goes_on = walk.round(self.forgetful).get("limit turns", 0) > 0
        return goes_on or walk.width >= 2**128 or walk.peak > self.given["MOST_STATES"]

    def for_all(self, statement, members):
        """Whether a statement, if it is one of each number, holds of these."""
        with evaluating.given(**self.given):
            return all(evaluating.called(statement, it) for it in members) if callable(statement) else statement

    def of_unlimited(self):
        """For exact masses: with a loop, where its masses are refused at some turns or a run has not ended by then."""
        walk, _ = round_of(self.forgetful, 1, None)
        wanted = {"TooWide": walk.width >= 2**128, "TooManyStates": walk.peak > self.given["MOST_STATES"], "OutOfMemory": True}
        if loops(self.p[0]):
            wanted |= dict.fromkeys(("TooWide", "TooManyStates"), self.goes_beyond())
        for error, may in wanted.items():
            yield self.told("exact_fold", "WhyRefused", error) == may, f"exact masses: {error}"
        fails = self.told("exact_fold", "WhyRefused", "AllFailed")
        for part, least, turns in itertools.product((1, 2, 3), (1, 2), (1, 2, 3)):
            near = turns < least or 1 - round_of(self.p, turns, None)[1] <= Fraction(1, part)
            yield evaluating.called(fails, part, least, turns) == near, f"exact masses: fails within 1/{part} at {turns} turns, from {least} on"


def causes():
    for (p, limits), (states, all_units) in itertools.product(chosen(), [(3, 64), (4, 2**12)]):
        of = Causes(p, states, all_units)
        unlimited = of.of_unlimited() if limits == (1, None, None) else ()
        for same, what in itertools.chain(of.of_limited(*limits), unlimited):
            yield same, f"{what}, of {programs.text(p)} under {limits}, with {states} states and {all_units} units"


def draws_within():
    """How many numbers a draw has in a state."""
    within = evaluating.of("units_law", "FewOthers", "DrawsWithin")
    for m, value in itertools.product(range(4), (-1, 0, 2, 3, 2**63)):
        told = within(m, Data("Uniform", (0, Data("Var", (0,)))), (value,))
        yield told == (not -(2**63) <= value < 2**63 or value <= m), f"a draw among {value} numbers is within {m}"
        yield within(m, Data("Skip")), "no draw is within"


def cases():
    return itertools.chain(divisors(), narrow_shares(), near_shares(), roundings(), rounded_down(), draws_within(), causes())
