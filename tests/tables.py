"""Tables of states with their weights, as a program makes them statement by statement: what the state is there, and what has ended.

How a loop goes on, and how a draw weighs its numbers, is said by the class that stands on this one.
"""
import math

FAILED, OVERFLOW, DIVISOR, BOUND = "failed", "fault overflow", "fault zero divisor", "fault bad bound"


class Fault(Exception):
    """A run ends in a fault."""


def narrow(number):
    """A number of 64 bits."""
    if not -(2**63) <= number < 2**63:
        raise Fault(OVERFLOW)
    return number


def cut(a, b):
    """A quotient that is cut towards 0."""
    if b == 0:
        raise Fault(DIVISOR)
    return narrow(abs(a) // abs(b) * (1 if (a < 0) == (b < 0) else -1))


OPERATORS = {
    "+": lambda a, b: narrow(a + b), "-": lambda a, b: narrow(a - b), "*": lambda a, b: narrow(a * b), "/": cut, "%": lambda a, b: a - b * cut(a, b),
    "=": lambda a, b: a == b, "!=": lambda a, b: a != b, "<": lambda a, b: a < b, ">": lambda a, b: a > b, "<=": lambda a, b: a <= b, ">=": lambda a, b: a >= b,
}


def names_in(part):
    """The names of variables in a program, or a part of it."""
    if isinstance(part, tuple) and part and part[0] in ("set", "draw"):
        return {part[1]} | names_in(part[2])
    return set().union(*map(names_in, part)) if isinstance(part, (tuple, list)) else set()


class Tables:
    """A state has the numbers of the names, in their order; all are 0 at first."""

    def __init__(self, names):
        self.at = {name: i for i, name in enumerate(names)}

    def start(self):
        return (0,) * len(self.at)

    def value(self, e, state):
        if not isinstance(e, tuple):
            return state[self.at[e]] if isinstance(e, str) else e
        word, left, right = e
        if word in ("and", "or"):
            return bool(self.value(right if bool(self.value(left, state)) == (word == "and") else left, state))
        return OPERATORS[word](self.value(left, state), self.value(right, state))

    def with_value(self, state, name, number):
        i = self.at[name]
        return (*state[:i], number, *state[i + 1 :])

    def add(self, table, key, weight):
        table[key] = table.get(key, 0) + weight

    def each(self, table, ended, step):
        """A table of what each state leads to, and what has ended. A step gives each key with its weight, of the weight of the state."""
        out = {}
        for state, weight in table.items():
            try:
                for part, other in step(state, weight):
                    self.add(ended if isinstance(other, str) else out, other, part)
            except Fault as fault:
                self.add(ended, str(fault), weight)
        return out

    def joined(self, one, other):
        for state, weight in other.items():
            self.add(one, state, weight)
        return one

    def sides(self, e, table, ended):
        """Where the condition holds, and where it does not."""
        found = self.each(table, ended, lambda state, weight: [(weight, (state, bool(self.value(e, state))))])
        return ({state: weight for (state, holds), weight in found.items() if holds is side} for side in (True, False))

    def block(self, b, table, ended):
        for s in b:
            table = self.statement(s, table, ended)
        return table

    def statement(self, s, table, ended):
        word, *parts = s
        if word == "skip":
            return table
        if word == "set":
            return self.each(table, ended, lambda state, weight: [(weight, self.with_value(state, parts[0], self.value(parts[1], state)))])
        if word == "draw":
            return self.each(table, ended, lambda state, weight: self.drawn(state, weight, parts[0], self.value(parts[1], state)))
        if word == "observe":
            return self.each(table, ended, lambda state, weight: [(weight, state if self.value(parts[0], state) else FAILED)])
        if word == "if":
            first, second = self.sides(parts[0], table, ended)
            return self.joined(self.block(parts[1], first, ended), self.block(parts[2], second, ended))
        if word == "choose":
            return self.chosen(parts[0], table, ended)
        return self.loop(parts[0], parts[1], table, ended)

    def drawn(self, state, weight, name, bound):
        if bound < 1:
            raise Fault(BOUND)
        one, none = self.classes(weight, [1], bound)
        return [*((one[0], self.behind(self.with_value(state, name, i), i)) for i in range(bound)), *none]

    def chosen(self, arms, table, ended):
        """Each arm has a table of its own. The parts are those in lowest terms."""
        divisor = math.gcd(*(part for part, _ in arms))
        sizes = [part // divisor for part, _ in arms]
        shares = [self.classes(weight, sizes, sum(sizes)) for weight in table.values()]
        for _, none in shares:
            for part, other in none:
                self.add(ended, other, part)
        out = {}
        for i, (_, b) in enumerate(arms):
            self.joined(out, self.block(b, {self.behind(state, i): parts[i] for state, (parts, _) in zip(table, shares) if parts[i]}, ended))
        return out

    def behind(self, state, i):
        """The state behind the class i of a draw."""
        return state

    def classes(self, weight, sizes, whole):
        """What classes of these sizes get of the weight in a draw of so many numbers, and what ends in none."""
        raise NotImplementedError

    def loop(self, e, b, table, ended):
        raise NotImplementedError

    def round(self, p):
        """What ended, with the values."""
        ended = {}
        table = self.block(p[0], {self.start(): self.whole()}, ended)
        self.each(table, ended, lambda state, weight: [(weight, f"value {self.value(p[1], state)}")])
        return ended

    def whole(self):
        raise NotImplementedError
