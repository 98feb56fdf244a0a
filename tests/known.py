"""What the programs of examples/models print, by methods that know nothing of `zar`: closed formulas, cases that are counted, Bayes' rule,
linear equations whose states are eliminated one by one, networks whose nodes are, and tables that go forward step by step. All numbers are
fractions; those that hold powers of e are right to fifty decimals.
"""
import collections
import decimal
import functools
import itertools
import re
from fractions import Fraction as F
from math import comb, factorial, prod

import source

NETWORKS = source.ROOT / "examples" / "networks"

LIMIT = "limit turns"
HALF = F(1, 2)


class End(collections.namedtuple("End", "value")):
    """A state in which the answer is known."""


PAID = End("paid")


# ---- methods


def added(pairs):
    table = collections.defaultdict(F)
    for key, weight in pairs:
        table[key] += weight
    return dict(table)


def scaled(weights):
    whole = F(sum(weights.values()))
    return {key: weight / whole for key, weight in weights.items() if weight}


def counted(values):
    return scaled(collections.Counter(values))


def forward(table, step):
    """What comes of a table of states, of each of which the step says where it leads."""
    return added((after, weight * share) for state, weight in table.items() for after, share in step(state).items())


def after(steps, start, step):
    return functools.reduce(lambda table, _: forward(table, step), range(steps), {start: F(1)})


def solved(start, row_of):
    """What a start comes to at last, by linear equations: each state that it leads to has a row, and all but the first are eliminated."""
    rows, waiting = {}, [start]
    while waiting:
        state = waiting.pop()
        if state not in rows and not isinstance(state, End):
            rows[state] = dict(row_of(state))
            waiting += rows[state]
    for state in [it for it in rows if it != start]:
        out = leaving(rows.pop(state), state)
        for row in rows.values():
            weight = row.pop(state, 0)
            for other, share in out.items() if weight else ():
                row[other] = row.get(other, 0) + weight * share
    return leaving(rows[start], start)


def ended(start, step):
    """With what weight each answer comes at last."""
    return {it.value: weight for it, weight in solved(start, step).items()}


def paid(start, step, price):
    """What is paid on average until an answer is known, where each visit of a state has its price."""
    return solved(start, lambda state: {**step(state), PAID: F(price(state))})[PAID]


def leaving(row, state):
    stays = row.pop(state, 0)
    return {other: weight / (1 - stays) for other, weight in row.items()}


def coin(p):
    return {1: F(p), 0: 1 - F(p)}


def binomial(n, p):
    return {k: comb(n, k) * F(p) ** k * (1 - F(p)) ** (n - k) for k in range(n + 1)}


def rounds(success, most):
    """How many rounds there are where each ends with the same weight; the last number stands for all above."""
    return {**{k: (1 - success) ** (k - 1) * success for k in range(1, most)}, most: (1 - success) ** (most - 1)}


# ---- what runs cost


def drawn_bits(numbers):
    """The bits that a uniform draw reads: an attempt ends where all numbers that begin with its bits are one, or are drawn again."""
    width = (numbers - 1).bit_length()

    def read(low, wide):
        if len({min(it, numbers) for it in range(low, low + wide)}) == 1:
            return F(0)
        return 1 + (read(low, wide // 2) + read(low + wide // 2, wide // 2)) / 2

    return read(0, 2**width) * F(2**width, numbers)


def cost_of_turns(turns, numbers, draws=1):
    """A run whose turns have so many draws among so many numbers each."""
    return {"bits": turns * draws * drawn_bits(numbers), "rounds": 1, "draws": turns * draws, "turns": turns}


# ---- case studies of PRISM


def knuth_yao(state):
    leads = {0: (1, 2), 1: (3, 4), 2: (5, 6), 3: (1, End(1)), 4: (End(2), End(3)), 5: (End(4), End(5)), 6: (2, End(6))}
    return counted(leads[state])


def fast_dice_roller(state):
    wide, number = state
    return added((rolled(2 * wide, 2 * number + bit), HALF) for bit in (0, 1))


def rolled(wide, number):
    if wide < 6:
        return wide, number
    return End(number) if number < 6 else (wide - 6, number - 6)


def herman_turn(processes, tokens):
    """Each token stays or moves on by one place, and two that meet are gone."""
    moves = itertools.product((0, 1), repeat=len(tokens))
    places = [collections.Counter((it + move) % processes for it, move in zip(tokens, moved)) for moved in moves]
    return counted(tuple(sorted(it for it, count in at.items() if count == 1)) for at in places)


def herman(processes, most):
    """In how many turns one token is left."""

    def step(state):
        tokens, passed = state
        if len(tokens) == 1:
            return {state: 1}
        return {(left, min(passed + 1, most)): weight for left, weight in herman_turn(processes, tokens).items()}

    table, start = {}, (tuple(range(processes)), 0)
    for (tokens, passed), weight in after(most - 1, start, step).items():
        key = passed if len(tokens) == 1 else most
        table[key] = table.get(key, 0) + weight
    return table


def herman_time(processes):
    """Each turn draws a bit for each token."""
    step = lambda tokens: added((End(1) if len(it) == 1 else it, weight) for it, weight in herman_turn(processes, tokens).items())
    turns, draws = (paid(tuple(range(processes)), step, price) for price in (lambda _: 1, len))
    return {"bits": draws, "rounds": 1, "draws": draws, "turns": turns}


def leader(drawn):
    """Whether there is a number that one alone has drawn."""
    return 1 in collections.Counter(drawn).values()


def crowds(members, corrupt, on):
    """Reiter and Rubin's formula."""
    return coin(1 - on * F(members - corrupt - 1, members))


def brp(parts):
    return coin(1 - (1 - (1 - F(98, 100) * F(99, 100)) ** 3) ** parts)


def gates(lines, a, b, wrong):
    """How many of the lines that come out are 1: how many pairs are both 1 is a hypergeometric count."""
    table = []
    for both in range(min(a, b) + 1):
        paired = F(comb(a, both) * comb(lines - a, b - both), comb(lines, b)) if b - both <= lines - a else F(0)
        for right, x in binomial(lines - both, 1 - wrong).items():
            table += [(right + y, paired * x * z) for y, z in binomial(both, wrong).items()]
    return added(table)


def nand(lines, wrong):
    line = binomial(lines, F(9, 10))
    once = added((out, line[a] * line[b] * p) for a in line for b in line for out, p in gates(lines, a, b, wrong).items())
    return forward(once, lambda count: gates(lines, count, count, wrong))


def zeroconf(q, p, asked):
    return coin(q * p**asked / (1 - q * (1 - p**asked)))


# ---- networks, ciphers and hidden chains


def diamond(count):
    return coin((1 - F(1, 20000)) ** count)


def ladder(rail):
    if not rail:
        return {0: 1}
    lost = {1: F(1, 1000), 2: F(1, 500)}
    return added(pair for at in (1, 2) for pair in ((at, HALF * (1 - lost[at])), (0, HALF * lost[at])))


def caesar(read):
    comes = [F(1, 2), F(1, 4), F(1, 8), F(1, 8)]
    return scaled({key: prod(comes[(it - 1 - key) % 4] for it in read) for key in range(4)})


def sprinkler():
    wet = {(0, 0): F(0), (1, 0): F(9, 10), (0, 1): F(9, 10), (1, 1): F(99, 100)}
    weight = lambda s, r: HALF * (coin(F(1, 10))[s] * coin(F(8, 10))[r] + coin(HALF)[s] * coin(F(2, 10))[r]) * wet[s, r]
    return scaled({s + 2 * r: weight(s, r) for s, r in wet})


def survey():
    """All cases of a woman, added up."""
    ages = {F(64, 100): F(3, 10), F(70, 100): F(5, 10), F(90, 100): F(2, 10)}
    high = sum(age * share for age, share in ages.items())
    by = {(1, 1): (48, 42, 10), (1, 0): (56, 36, 8), (0, 1): (58, 24, 18), (0, 0): (70, 21, 9)}
    small, employed = {1: F(25, 100), 0: F(20, 100)}, {1: F(96, 100), 0: F(92, 100)}
    return added(
        (way, coin(high)[school] * coin(small[school])[s] * coin(employed[school])[e] * F(parts, 100))
        for school, (s, e) in itertools.product((0, 1), by)
        for way, parts in enumerate(by[s, e], 1)
    )


def cancer():
    """All cases of pollution and of a smoker: 0 is the cancer."""
    comes = {(0, 0): F(3, 100), (1, 0): F(5, 100), (0, 1): F(1, 1000), (1, 1): F(2, 100)}
    there = sum(coin(F(1, 10))[high] * coin(F(7, 10))[none] * p for (high, none), p in comes.items())
    return scaled({0: there * F(90, 100) * F(65, 100), 1: (1 - there) * F(20, 100) * F(30, 100)})


def asia():
    """All cases of tuberculosis, cancer and bronchitis, for each of a smoker: 0 is the cancer."""
    tuberculosis = coin(F(1, 100) * F(5, 100) + F(99, 100) * F(1, 100))
    breath = {(1, 1): F(9, 10), (1, 0): F(7, 10), (0, 1): F(8, 10), (0, 0): F(1, 10)}  # of either and of bronchitis
    table = []
    for lung, bronchitis in ((F(10, 100), F(60, 100)), (F(1, 100), F(30, 100))):
        for t, l, b in itertools.product((0, 1), repeat=3):
            seen = (F(98, 100) if t or l else F(5, 100)) * breath[t | l, b]
            table.append((1 - l, HALF * tuberculosis[t] * coin(lung)[l] * coin(bronchitis)[b] * seen))
    return scaled(added(table))


def tables_of(network):
    """For each node of a file of a network the nodes that its table is of, itself first, and a weight for each setting of them."""
    text = (NETWORKS / network).read_text(encoding="utf-8")
    values = {node: told.split(", ") for node, told in re.findall(r"variable (\w+) \{\s+type discrete \[ \d+ \] \{ (.*) \};", text)}
    for head, body in re.findall(r"probability \( ([^)]*) \) \{([^}]*)\}", text):
        nodes, weights = re.findall(r"\w+", head), {}
        for setting, row in re.findall(r"\s+(?:\((.*)\)|table) (.*);", body):
            parents = setting.split(", ") if setting else []
            weights |= {(value, *parents): F(it) for value, it in zip(values[nodes[0]], row.split(", "))}
        yield nodes, weights


def joined(first, second):
    """The product of two tables, over the nodes of both."""
    (nodes, weights), (others, factors) = first, second
    shared = [it for it in others if it in nodes]
    added_nodes = [it for it in others if it not in nodes]
    by_shared = collections.defaultdict(list)
    for setting, factor in factors.items():
        of = dict(zip(others, setting))
        by_shared[tuple(of[it] for it in shared)].append((tuple(of[it] for it in added_nodes), factor))
    product = {}
    for setting, weight in weights.items():
        of = dict(zip(nodes, setting))
        for more, factor in by_shared[tuple(of[it] for it in shared)]:
            product[setting + more] = weight * factor
    return nodes + added_nodes, product


def without(node, table):
    """A table whose weights are added up over the values of a node."""
    nodes, weights = table
    place = nodes.index(node)
    return nodes[:place] + nodes[place + 1 :], added((setting[:place] + setting[place + 1 :], weight) for setting, weight in weights.items())


def eliminated(network, query, seen):
    """The shares of the values of a node where others are seen: the others are eliminated one by one, always one with few neighbours."""
    tables = []
    for nodes, weights in tables_of(network):
        fits = lambda setting: all(seen.get(node, value) == value for node, value in zip(nodes, setting))
        tables.append((nodes, {setting: weight for setting, weight in weights.items() if fits(setting)}))
    left = {node for nodes, _ in tables for node in nodes} - {query}
    while left:
        neighbours = lambda node: len(set().union(*(nodes for nodes, _ in tables if node in nodes)))
        node = min(sorted(left), key=neighbours)
        left.remove(node)
        of_node = [it for it in tables if node in it[0]]
        tables = [it for it in tables if node not in it[0]] + [without(node, functools.reduce(joined, of_node))]
    return scaled({setting[0]: weight for setting, weight in functools.reduce(joined, tables)[1].items()})


def by_place(shares, values):
    return {place: shares[value] for place, value in enumerate(values)}


def casino(throws):
    """The forward algorithm."""
    fair, loaded = F(1), F(0)
    for face in throws:
        fair, loaded = fair * F(19, 20) + loaded * F(1, 10), fair * F(1, 20) + loaded * F(9, 10)
        fair, loaded = fair * F(1, 6), loaded * (HALF if face == 6 else F(1, 10))
    return scaled({0: fair, 1: loaded})


# ---- samplers


def e(power):
    with decimal.localcontext(prec=60):
        return F((decimal.Decimal(power.numerator) / power.denominator).exp())


def bernoulli_exp(turns):
    ends = [(k % 2, HALF ** (k - 1) / factorial(k - 1) * (1 - F(1, 2 * k))) for k in range(1, turns + 1)]
    return added([*ends, (LIMIT, HALF**turns / factorial(turns))])


def falling(weight):
    return scaled({y: weight(F(y)) for y in range(-150, 151)})


def is_prime(n):
    return n > 1 and all(n % it for it in range(2, n))


def hare_tortoise(most):
    """The shares of the starts from which the hare has not caught up behind nine turns; that it does at last is sure."""

    def step(state):
        start, ahead = state
        if ahead <= 0:
            return {state: 1}
        return added([((start, ahead + 1), F(3, 5)), *(((start, ahead + 1 - jump), F(2, 5) / 10) for jump in range(10))])

    table = {(start, start): F(1, 10) for start in range(10)}
    for _ in range(most - 1):
        table = forward(table, step)
    return scaled(added((start, weight) for (start, ahead), weight in table.items() if ahead > 0))


# ---- textbooks


def coupons(faces, most):
    """By inclusion and exclusion."""
    within = [sum((-1) ** k * comb(faces, k) * F(faces - k, faces) ** n for k in range(faces + 1)) for n in range(most)]
    return {**{n: within[n] - within[n - 1] for n in range(faces, most)}, most: 1 - within[most - 1]}


def penney(first, second):
    """Conway's rule."""
    leads = lambda x, y: sum(2 ** (k - 1) for k in range(1, 4) if x[-k:] == y[:k])
    return scaled({1: leads(second, second) - leads(second, first), 2: leads(first, first) - leads(first, second)})


JUMPS = {
    1: 38, 4: 14, 9: 31, 16: 6, 21: 42, 28: 84, 36: 44, 47: 26, 49: 11, 51: 67,
    56: 53, 62: 19, 64: 60, 71: 91, 80: 100, 87: 24, 93: 73, 95: 75, 98: 78,
}


def snakes_and_ladders(square, last=100):
    """A throw beyond the last square does not count, nor does a jump from it or beyond it."""
    ends = [square + die if square + die <= last else square for die in range(1, 7)]
    return counted(JUMPS[it] if it < last and JUMPS.get(it, last + 1) <= last else it for it in ends)


def throws(last):
    """In how many throws the last square is come to."""
    turn = lambda square: {End(1) if it == last else it: weight for it, weight in snakes_and_ladders(square, last).items()}
    return paid(0, turn, lambda _: 1)


def ehrenfest(first):
    return {first + by: weight for by, weight in ((-1, F(first, 6)), (1, F(6 - first, 6))) if weight}


def branching(generations):
    """The generating function of the children, again and again."""
    return coin(functools.reduce(lambda x, _: F(1, 4) + x / 4 + x * x / 2, range(generations), F(0)))


def secretary(n, skipped):
    return coin(F(skipped, n) * sum(F(1, i - 1) for i in range(skipped + 1, n + 1)))


def reed_frost(state):
    well, ill = state
    return added(((well - new, new) if new else End(6 - 1 - well), p) for new, p in binomial(well, 1 - F(4, 5) ** ill).items())


def tennis(p):
    """Within six points, or by two points in a row behind three all."""
    q = 1 - p
    return coin(p**4 * (1 + 4 * q + 10 * q**2) + 20 * p**3 * q**3 * p**2 / (p**2 + q**2))


SIXES = binomial(18, F(1, 6))
POINTS = binomial(4, HALF)

MASSES = {
    "alarm_network": by_place(eliminated("alarm_network.bif", "lvfailure", {"hrbp": "high", "bp": "low", "pcwp": "normal"}), ("yes", "no")),
    "asia": asia(),
    "ballot": coin(F(6 - 4, 6 + 4)),
    "bernoulli_exp": bernoulli_exp(12),
    "bertrand_box": coin(F(2, 3)),
    "birthdays_23": coin(1 - prod(F(365 - i, 365) for i in range(23))),
    "branching": branching(5),
    "brp_2": brp(2),
    "brp_16": brp(16),
    "caesar": caesar((1, 2, 2, 3)),
    "cancer": cancer(),
    "casino": casino((1, 6, 6, 2, 6, 6)),
    "circle": {place: F(1, 5) for place in range(1, 6)},
    "coupons_six": coupons(6, 20),
    "crowds": crowds(20, 3, F(3, 4)),
    "de_mere": coin(1 - F(35, 36) ** 24),
    "diamond": diamond(8),
    "diamond_100": diamond(100),
    "discrete_gaussian": falling(lambda y: e(-y * y / 2)),
    "discrete_laplace": falling(lambda y: e(-abs(y) / 2)),
    "dueling_coins": ended((0, 0), lambda _: {(0, 0): F(5, 9), End(0): F(2, 9), End(1): F(2, 9)}),
    "ehrenfest": after(12, 6, ehrenfest),
    "fast_dice_roller": ended((1, 0), fast_dice_roller),
    "geometric_primes": scaled({**{h: HALF ** (h + 1) for h in range(30) if is_prime(h)}, LIMIT: HALF**30}),
    "hare_tortoise": hare_tortoise(10),
    "herman_3": herman(3, 6),
    "herman_5": herman(5, 8),
    "knuth_yao": ended(0, knuth_yao),
    "ladder": after(10, 1, ladder),
    "leader": rounds(counted(map(leader, itertools.product(range(3), repeat=4)))[True], 5),
    "moran": coin((1 - HALF) / (1 - HALF**10)),
    "murder": scaled({1: F(7, 10) * F(2, 10) * F(5, 100), 2: F(3, 10) * F(9, 10) * F(5, 10)}),
    "nand": nand(4, F(1, 20)),
    "penney": penney("hhh", "thh"),
    "pepys": coin(sum(SIXES[k] for k in range(3, 19))),
    "points": {1: sum(POINTS[k] for k in (2, 3, 4)), 2: POINTS[0] + POINTS[1]},
    "polya": {red: F(1, 11) for red in range(11)},
    "reed_frost": ended((5, 1), reed_frost),
    "screening": scaled({1: F(1, 100) * F(80, 100), 0: F(99, 100) * F(96, 1000)}),
    "secretary": secretary(10, 3),
    "snakes_and_ladders": added((square // 100, p) for square, p in after(20, 0, snakes_and_ladders).items()),
    "sprinkler": sprinkler(),
    "survey": survey(),
    "tennis": tennis(F(3, 5)),
    "two_coins": counted(first for first, second in itertools.product((0, 1), repeat=2) if first + second < 2),
    "zeroconf": zeroconf(F(1000, 65024), F(1, 10), 4),
}

# What runs cost where nothing is limited: bits, rounds, draws and turns of loops.
COSTS = {
    "coupons_ten": cost_of_turns(paid(0, lambda n: {n: F(n, 10), End(1) if n == 9 else n + 1: F(10 - n, 10)}, lambda _: 1), 10),
    "herman_time": herman_time(5),
    "leader_time": cost_of_turns(1 / counted(map(leader, itertools.product(range(3), repeat=4)))[True], 3, draws=4),
    "snakes_time": cost_of_turns(throws(62), 6),
}
