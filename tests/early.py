"""Programs that draw among many numbers and forget what was drawn behind a test, so that `exact` and `enclose` walk them state by state. As a whole
the tables of each have more than 65,536 states. What the draws lead to is counted here one by one."""
import fractions
import itertools
import math

from tables import BOUND, DIVISOR, FAILED

FIRST = 1000  # what the first draw is made among, which stays


def by_a_test(place, x):
    return place + 1 if x < place % 100 else place


def by_a_fault(place, x):
    return DIVISOR if x == 0 else place + 100 // x % 7


def by_an_observation(place, x):
    return place if x < place % 100 else FAILED


def by_a_bound(place, x):
    return BOUND if x is None else place + x


def by_both(place, x):
    return place + (x // 10) * (x % 10)


# the text behind the first draw, how many numbers the second is made among where the first gave this, and what comes of both
TABLE = {
    "a test behind a draw": ("x ~ uniform(100); if x < place % 100 { place := place + 1; } else { }", lambda place: 100, by_a_test),
    "a fault of what is read": ("x ~ uniform(100); place := place + 100 / x % 7;", lambda place: 100, by_a_fault),
    "an observation": ("x ~ uniform(100); observe x < place % 100;", lambda place: 100, by_an_observation),
    "a bound that may be none": ("x ~ uniform(place % 4 * 50); place := place + x;", lambda place: place % 4 * 50, by_a_bound),
    "two draws": ("x ~ uniform(10); y ~ uniform(10); place := place + x * y;", lambda place: 100, by_both),
}


# Bundles of unreliable gates (see nand.gcl of the examples), of which two lines are drawn before either is looked at: 74,840 states with both drawn.
BUNDLE = "a bundle of gates"
LINES, HOLDING = 15, 12
BY_CHANCE = "a bundle of gates whose lines come in by chance"  # each holds with 3/4: 99,372 states with both drawn
HELD = f"a := {HOLDING}; b := {HOLDING};"
CHOSEN = f"while line < {LINES} {{ choice 3/4 {{ a := a + 1; }} or {{ }} choice 3/4 {{ b := b + 1; }} or {{ }} line := line + 1; }}"
GATES = (
    f" left := {LINES}; while left > 0 {{ x ~ uniform(left); y ~ uniform(left); both := 0; if x < a and y < b {{ both := 1; }}"
    " if x < a { a := a - 1; } if y < b { b := b - 1; } choice 3/4 { out := out + 1 - both; } or { out := out + both; } left := left - 1; } return out;"
)
NAMES = [*TABLE, BUNDLE]
ENCLOSED = [*NAMES, BY_CHANCE]


def by_chance(count):
    """That so many lines of a bundle hold."""
    return fractions.Fraction(math.comb(LINES, count) * 3**count, 4**LINES)


def start(name):
    """How many lines of both bundles hold, and that none has come out."""
    if name == BUNDLE:
        return {(HOLDING, HOLDING, 0): fractions.Fraction(1)}
    return {(a, b, 0): by_chance(a) * by_chance(b) for a in range(LINES + 1) for b in range(LINES + 1)}


def gates(now):
    """How many lines come out, by the lines of both bundles that are left and what came out so far."""
    for left in range(LINES, 0, -1):
        after = {}
        for (a, b, out), weight in now.items():
            for first, second, right in itertools.product((0, 1), repeat=3):
                share = fractions.Fraction(a if first else left - a, left) * fractions.Fraction(b if second else left - b, left) * (3 if right else 1) / 4
                both = first * second
                key = (a - first, b - second, out + (1 - both if right else both))
                if share:
                    after[key] = after.get(key, 0) + weight * share
        now = after
    return now


def text(name):
    if name not in TABLE:
        return (HELD if name == BUNDLE else CHOSEN) + GATES
    return f"place ~ uniform({FIRST}); {TABLE[name][0]} return place % 10;"


def masses(name):
    """What each value and fault weighs, over what does not fail."""
    found = {}
    if name not in TABLE:
        for (_, _, out), weight in gates(start(name)).items():
            found[f"value {out}"] = found.get(f"value {out}", 0) + weight
        return found
    _, bound, after = TABLE[name]
    for place in range(FIRST):
        numbers = range(bound(place)) or [None]
        for x in numbers:
            end = after(place, x)
            outcome = end if isinstance(end, str) else f"value {end % 10}"
            found[outcome] = found.get(outcome, 0) + fractions.Fraction(1, FIRST * len(numbers))
    failed = found.pop(FAILED, 0)
    return {outcome: weight / (1 - failed) for outcome, weight in found.items()}
