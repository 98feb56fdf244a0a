"""Programs with loops in which an elimination divides by multiples of given primes, though every mass is a fraction of narrow numbers.

`exact` works the visits of a loop out by remainders at primes of its own, and at one that divides a pivot, or a denominator, it knows nothing.
"""
import itertools
import re

import source

GREATEST_DENOMINATOR = 2**62
TAKEN, SPARE = 5, 3
# 24 times 2^62 less 1 is 5 times a prime of 65 bits.
NONE_LOST = (24, GREATEST_DENOMINATOR)
PRIME = re.compile(r"\bp: ([\d_]+),\s+inverse: ([\d_]+),\s+square: ([\d_]+),")
WITNESSES = (2, 3, 5, 7, 11, 13, 17, 19, 23, 29, 31, 37)  # these tell all primes below 2^64


# ---- the primes of the sources


def rows():
    """The primes with their two numbers."""
    return [tuple(int(it.replace("_", "")) for it in row) for row in PRIME.findall(source.module("visit_finder", ["primes"]))]


def passes(p, witness):
    """Miller and Rabin's test."""
    twos = (p - 1 & 1 - p).bit_length() - 1
    power = pow(witness, (p - 1) >> twos, p)
    return power == 1 or p - 1 in (pow(power, 1 << i, p) for i in range(twos))


def is_prime(p):
    return all(passes(p, witness) for witness in WITNESSES)


def are_right(found):
    """Eight primes of 63 bits above all denominators of weights, ascending, each with -1 over it modulo 2^64 and 2^128 modulo it."""
    primes = [p for p, _, _ in found]
    return (
        len(primes) == TAKEN + SPARE
        and primes == sorted(set(primes))
        and all(GREATEST_DENOMINATOR < p < 2**63 and is_prime(p) for p in primes)
        and all(p * inverse % 2**64 == 2**64 - 1 and square == 2**128 % p for p, inverse, square in found)
    )


# ---- loops


def choice(whole, one, other):
    """One block with 1 over a number, or the other."""
    return ("choose", [(1, one), (whole - 1, other)])


def weights(p):
    """Two numbers whose product is 1 more than a multiple of the prime. It has 71 bits or more, so the prime times it is too wide."""
    return next((b, pow(b, -1, p)) for b in itertools.count(1000) if 2**61 < pow(b, -1, p) <= GREATEST_DENOMINATOR)


def going(state):
    return [("set", "x", state)]


def leaving(value):
    return [("set", "z", value), *going(0)]


def pair(first, b, d, left, right):
    """Two states that lead to each other with 1/b and 1/d: whichever is eliminated last divides by 1 - 1/(bd)."""
    return {first: choice(b, going(first + 1), left), first + 1: choice(d, going(first), right)}


def turns(steps):
    """A loop that takes the step of the state x until that is 0."""
    body = ("skip",)
    for state, step in reversed(steps.items()):
        body = ("if", ("=", "x", state), [step], [body])
    return ("while", ("!=", "x", 0), [body])


def one_pair(p):
    return [*going(1), turns(pair(1, *weights(p), leaving(0), leaving(1)))]


def single(p):
    return one_pair(p), "z"


def before_another(p):
    """The loop behind it is entered with multiples of the prime below the line."""
    return [*one_pair(p), ("while", ("=", "z", 0), [choice(3, leaving(2), [("skip",)])])], "z"


def in_another(p):
    """A turn of the loop around it has multiples of the prime below the line."""
    again = ("if", ("=", "z", 1), [("set", "y", 1)], [choice(3, [("set", "y", 2)], [("skip",)])])
    return [("while", ("=", "y", 0), [*leaving(0), *one_pair(p), again])], "y"


def in_one_pivot(p, q):
    """One state, which a turn leads back to with 1 - pq/2^127, by three choices of 62, 62 and 3 bits."""
    first, rest = divmod(2**127 - p * q, 2**65)
    second, third = divmod(rest, 2**3)
    stay = [("skip",)]
    inner = ("choose", [(third, stay), (8 - third, leaving(3))])
    for part, value in ((second, 2), (first, 1)):
        inner = ("choose", [(part, stay), (1, [inner]), (GREATEST_DENOMINATOR - part - 1, leaving(value))])
    return [*going(1), ("while", ("!=", "x", 0), [inner])], "z"


def apart(pairs):
    """Pairs of states that do not lead to each other, each as likely as the others."""
    steps = {}
    for i, (b, d) in enumerate(pairs):
        steps |= pair(2 * i + 1, b, d, leaving(2 * i), leaving(2 * i + 1))
    return [("draw", "x", len(pairs)), ("set", "x", ("+", ("*", "x", 2), 1)), turns(steps)], "z"


def in_a_row(pairs):
    """Pairs of states, each of which leads to the next by a state between them."""
    steps = {}
    for i, (b, d) in enumerate(pairs[:-1]):
        on = going(3 * i + 3)
        steps |= pair(3 * i + 1, b, d, on, on)
        steps[3 * i + 3] = ("set", "x", 3 * i + 4)
    steps |= pair(3 * len(pairs) - 2, *pairs[-1], leaving(0), leaving(1))
    return [*going(1), turns(steps)], "z"


# ---- the table


def table(primes):
    """Programs in which one to four of the primes are lost, or none, each with what it is."""
    for p in primes:
        for make in (single, before_another, in_another):
            yield f"{make.__name__} of {p}", make(p)
    for few in itertools.combinations(primes, 2):
        yield f"in one pivot: {few}", in_one_pivot(*few)
    yield "apart: none", apart([NONE_LOST] * TAKEN)
    yield "in a row: none", in_a_row([NONE_LOST] * TAKEN)
    for few in (*itertools.combinations(primes, 3), primes[:4]):
        pairs = [*map(weights, few), NONE_LOST]
        yield f"apart: {few}", apart(pairs)
        yield f"in a row: {few}", in_a_row(pairs)
