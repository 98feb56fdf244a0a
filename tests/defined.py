"""Programs at random as the definitions have them, and what the tables of states are that they go through under limits."""
import fractions
import math

import programs
import tables
from evaluating import Data

NONE = Data("None")
OPERATORS = {"+": "Add", "-": "Sub", "*": "Mul", "/": "Div", "%": "Rem", "=": "Eq", "!=": "Ne", "<": "Lt", "<=": "Le", ">": "Gt", ">=": "Ge"}
OUTCOMES = {
    "fault overflow": ("Fault", "Overflow"), "fault zero divisor": ("Fault", "ZeroDivisor"), "fault bad bound": ("Fault", "BadBound"),
    "limit turns": ("Limit", "Turns"), "limit attempts": ("Limit", "Attempts"), "limit rounds": ("Limit", "Rounds"),
}
WORDS = {name: word for word, name in OPERATORS.items()}


# ---- programs as the definitions have them


def option(it):
    return NONE if it is None else Data("Some", (it,))


def expression(e):
    if isinstance(e, tuple):
        return Data("Bin", (Data(OPERATORS[e[0]]), expression(e[1]), expression(e[2])))
    return Data("Var", (programs.NAMES.index(e),)) if isinstance(e, str) else Data("Num", (e,))


def block(b):
    return Data("◌▸◌", (statement(b[0]), block(b[1:]))) if b else Data("done")


def arms(these):
    return Data("arm", (these[0][0], block(these[0][1]), arms(these[1:]))) if these else Data("no_arm")


def statement(s):
    word, *parts = s
    if word in ("set", "draw"):
        return Data({"set": "Set", "draw": "Uniform"}[word], (programs.NAMES.index(parts[0]), expression(parts[1])))
    if word == "choose":
        divisor = math.gcd(*(part for part, _ in parts[0]))
        return Data("Choose", (arms([(part // divisor, b) for part, b in parts[0]]),))
    return Data(word.capitalize(), (*map(expression, parts[:1]), *map(block, parts[1:])))


def program(p):
    return {"names": tuple(tuple(name.encode()) for name in programs.NAMES), "body": block(p[0]), "result": expression(p[1])}


def outcome(text):
    kind, which = OUTCOMES.get(text, ("Value", None))
    return Data(kind, (Data(which) if which else int(text.split()[1]),))


def expression_of(made):
    if made.name == "Bin":
        return (WORDS[made.args[0].name], *map(expression_of, made.args[1:]))
    return programs.NAMES[made.args[0]] if made.name == "Var" else made.args[0]


def arms_of(made):
    return [(made.args[0], block_of(made.args[1])), *arms_of(made.args[2])] if made.args else []


def statement_of(made):
    word, parts = made.name, made.args
    if word in ("Set", "Uniform"):
        return ("set" if word == "Set" else "draw", programs.NAMES[parts[0]], expression_of(parts[1]))
    if word == "Choose":
        return ("choose", arms_of(parts[0]))
    return (word.lower(), *map(expression_of, parts[:1]), *map(block_of, parts[1:]))


def block_of(made):
    return [statement_of(made.args[0]), *block_of(made.args[1])] if made.args else []


def program_of(made):
    return block_of(made["body"]), expression_of(made["result"])


# ---- their masses by tables


class Limited(tables.Tables):
    """At most so many turns of a loop and attempts at a draw, where there is such a limit. Each path has an entry of its own, which its
    draws stand behind. Kept are how many tables there are and how many entries were made, the most states at one point, and the common
    denominator of all weights."""

    def __init__(self, turns, attempts):
        super().__init__(programs.NAMES)
        self.turns, self.attempts, self.tables, self.peak, self.added, self.width = turns, attempts, 0, 0, 0, 1

    def start(self):
        return (*super().start(), ())

    def behind(self, state, i):
        return (*state[:-1], (*state[-1], i))

    def meets(self, weight):
        self.width = math.lcm(self.width, weight.denominator)

    def whole(self):
        return fractions.Fraction(1)

    def classes(self, weight, sizes, whole):
        again = 1 - fractions.Fraction(whole, 2 ** (whole - 1).bit_length())
        none = 0 if self.attempts is None else again**self.attempts
        each = fractions.Fraction(1 - none) / whole
        self.meets(each)
        self.meets(none)
        return [weight * size * each for size in sizes], [(weight * none, "limit attempts")] if none else []

    def add(self, table, key, weight):
        super().add(table, key, weight)
        self.added += 1
        self.meets(weight)

    def seen(self, table):
        self.tables, self.peak = self.tables + 1, max(self.peak, len({state[:-1] for state in table}))
        return table

    def block(self, b, table, ended):
        for s in b:
            table = self.statement(s, self.seen(table), ended)
        return self.seen(table)

    def loop(self, e, b, table, ended):
        out = {}
        for turn in range(self.turns + 1):
            goes_on, left = self.sides(e, self.seen(table), ended)
            self.joined(out, left)
            if turn < self.turns:
                table = self.block(b, goes_on, ended)
        for weight in goes_on.values():
            self.add(ended, "limit turns", weight)
        return out
