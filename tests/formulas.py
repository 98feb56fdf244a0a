"""What the programs of docs/idioms.md print, by the formula that stands beside each: the weight of each value, and of the limit of turns."""
import collections
import itertools
from fractions import Fraction as F
from math import comb


def counted(values):
    """Each value by its share of equally likely cases."""
    counts = collections.Counter(values)
    return {value: F(counts[value], sum(counts.values())) for value in sorted(counts)}


def kept(order):
    return sum(i == it for i, it in enumerate(order))


def scaled(weights):
    """Bayes' rule: each weight over the sum of all."""
    return {value: F(weight, sum(weights.values())) for value, weight in weights.items()}


def stepped(rows, start, steps):
    """A chain by its matrix."""
    for _ in range(steps):
        start = [sum(weight * row[j] for weight, row in zip(start, rows)) for j in range(len(rows))]
    return start


def fever():
    """Both causes and the leak, each there or not, and what each brings about."""
    weights = {0: F(0), 1: F(0)}
    for flu, cold in itertools.product((0, 1), repeat=2):
        none = F(19, 20) * F(1, 5) ** flu * F(3, 5) ** cold
        weights[flu] += (F(1, 10) if flu else F(9, 10)) * (F(1, 4) if cold else F(3, 4)) * (1 - none)
    return scaled(weights)


def umbrella(seen):
    """The forward algorithm."""
    at = [F(1, 2), F(1, 2)]
    for there in seen:
        dry, rain = stepped([[F(7, 10), F(3, 10)], [F(3, 10), F(7, 10)]], at, 1)
        at = [dry * (F(2, 10) if there else F(8, 10)), rain * (F(9, 10) if there else F(1, 10))]
    return scaled(dict(enumerate(at)))


def queue(minutes):
    return dict(enumerate(stepped([[F(1, 2), F(1, 2), 0], [F(1, 2), 0, F(1, 2)], [0, F(1, 2), F(1, 2)]], [1, 0, 0], minutes)))


OZ = [[F(1, 2), F(1, 4), F(1, 4)], [F(1, 2), 0, F(1, 2)], [F(1, 4), F(1, 4), F(1, 2)]]
FACES = range(1, 7)

MASSES = {
    "parameter.gcl": {0: F(7, 10), 1: F(3, 10)},
    "urns.gcl": {k: F(k, 6) for k in (1, 2, 3)},
    "range.gcl": counted(range(10, 16)),
    "bands.gcl": {1: F(2, 10), 2: F(5, 10), 3: F(3, 10)},
    "dice.gcl": counted(map(sum, itertools.product(FACES, repeat=3))),
    "forty.gcl": {0: F(1, 2**40), 1: 1 - F(1, 2**40)},
    "again.gcl": counted(face for face in FACES if face > 2),
    "binomial.gcl": {k: F(comb(5, k) * 2**k, 3**5) for k in range(6)},
    "geometric.gcl": {**{k: F(2, 3) ** k / 3 for k in range(4)}, 4: F(2, 3) ** 4},
    "hypergeometric.gcl": {k: F(comb(5, k) * comb(7, 3 - k), comb(12, 3)) for k in range(4)},
    "polya.gcl": {k: F(1, 4) for k in range(4)},
    "lottery.gcl": {m: F(comb(m, 2), comb(6, 3)) for m in range(2, 6)},
    "shuffle.gcl": counted(map(kept, itertools.permutations(range(4)))),
    "boxes.gcl": counted(max(map(balls.count, range(3))) for balls in itertools.product(range(3), repeat=4)),
    "weather.gcl": dict(enumerate(stepped(OZ, [1, 0, 0], 3), 1)),
    "fever.gcl": fever(),
    "umbrella.gcl": umbrella([True, True, False]),
    "minutes.gcl": queue(3),
    "return.gcl": {**{2 * k: F(comb(2 * k, k), (2 * k - 1) * 4**k) for k in (1, 2, 3)}, "limit turns": F(comb(6, 3), 4**3)},
}


def lines(name):
    """What is printed of a program, whose values ascend in its table."""
    outcomes = ((it if isinstance(it, str) else f"value {it}", mass) for it, mass in MASSES[name].items())
    return [f"{outcome} mass {mass.numerator}/{mass.denominator}" for outcome, mass in outcomes]
