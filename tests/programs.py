"""Programs as data: read from a text, written as one, and made at random with loops of few states.

An expression is a number, a name, or an operator with two expressions; a statement is its word and its parts; a program is its
statements and its result.
"""
import re

NAMES = ("x", "y", "z")


# ---- at random


def expression(rng, depth):
    if depth == 0 or rng.random() < 0.3:
        return rng.choice(NAMES) if rng.random() < 0.6 else rng.randrange(4)
    return (rng.choice("++++++----****/%"), expression(rng, depth - 1), expression(rng, depth - 1))


def condition(rng):
    return (rng.choice(["=", "!=", "<", ">", "<="]), rng.choice(NAMES), expression(rng, 1))


def block(rng, depth):
    return [statement(rng, depth) for _ in range(rng.randrange(3))]


def assignment(rng):
    name, most = rng.choice(NAMES), rng.randrange(2, 5)
    if rng.random() < 0.5:
        bound = most if rng.random() < 0.8 else ("%", expression(rng, 1), most)
        return ("draw", name, bound)
    return ("set", name, ("%", expression(rng, 2), most))


def statement(rng, depth):
    kind = rng.randrange(12) if depth else rng.randrange(5)
    if kind < 4:
        return assignment(rng)
    if kind == 4:
        return ("observe", condition(rng)) if rng.random() < 0.4 else ("skip",)
    if kind < 7:
        return ("if", condition(rng), block(rng, depth - 1), block(rng, depth - 1))
    if kind < 9:
        return ("while", condition(rng), [*block(rng, depth - 1), assignment(rng)])
    parts = [rng.randrange(1, 5) for _ in range(rng.choice([2, 2, 3]))]
    return ("choose", [(part, block(rng, depth - 1)) for part in parts])


def program(rng):
    body = [("draw", "x", 3), ("draw", "y", 2), *block(rng, 1), ("while", condition(rng), [statement(rng, 2), assignment(rng)]), *block(rng, 2)]
    return body, expression(rng, 1)


# ---- their text


def said(e):
    return str(e) if not isinstance(e, tuple) else f"({said(e[1])} {e[0]} {said(e[2])})"


def written(b):
    return " ".join(["{", *map(line, b), "}"])


def line(s):
    word, *parts = s
    if word == "skip":
        return "skip;"
    if word == "set":
        return f"{parts[0]} := {said(parts[1])};"
    if word == "draw":
        return f"{parts[0]} ~ uniform({said(parts[1])});"
    if word == "observe":
        return f"observe {said(parts[0])};"
    if word == "if":
        return f"if {said(parts[0])} {written(parts[1])} else {written(parts[2])}"
    if word == "while":
        return f"while {said(parts[0])} {written(parts[1])}"
    arms = parts[0]
    if len(arms) == 2 and arms[0][0] < arms[1][0]:
        return f"choice {arms[0][0]}/{arms[0][0] + arms[1][0]} {written(arms[0][1])} or {written(arms[1][1])}"
    return "choose { %s }" % " | ".join(f"{part}: {written(b)}" for part, b in arms)


def text(p):
    return "".join(f"{name} := 0; " for name in NAMES) + " ".join(map(line, p[0])) + f" return {said(p[1])};"


# ---- from a text that is accepted

TOKEN = re.compile(r"\s+|#[^\n]*|(\d+|\w+|:=|[!<>]=|.)")
LEVELS = (("or",), ("and",), ("=", "!=", "<", "<=", ">", ">="), ("+", "-"), ("*", "/", "%"))


class Reader:
    """Reads tokens from the front."""

    def __init__(self, text):
        self.tokens = [it for it in TOKEN.findall(text) if it][::-1]

    def next(self):
        return self.tokens.pop()

    def takes(self, *tokens):
        """Whether the next token is one of these; it is taken then."""
        there = self.tokens[-1] in tokens
        return self.next() if there else None

    def program(self):
        body = self.statements("return")
        result = self.expression(0)
        return body, result

    def statements(self, end):
        out = []
        while not self.takes(end):
            out.append(self.statement(self.next()))
        return out

    def block(self):
        self.takes("{")
        return self.statements("}")

    def closed(self, *statement):
        self.takes(";")
        return statement

    def statement(self, word):
        if word == "skip":
            return self.closed("skip")
        if word == "observe":
            return self.closed("observe", self.expression(0))
        if word == "if":
            return ("if", self.expression(0), self.block(), self.block() if self.takes("else") else [])
        if word == "while":
            return ("while", self.expression(0), self.block())
        if word == "choice":
            part, _, whole = (self.next() for _ in range(3))
            first, _ = self.block(), self.next()
            return ("choose", [(int(part), first), (int(whole) - int(part), self.block())])
        if word == "choose":
            return ("choose", self.arms())
        if self.takes("~"):
            self.takes("uniform")
            return self.closed("draw", word, self.expression(0))
        self.takes(":=")
        return self.closed("set", word, self.expression(0))

    def arms(self):
        self.takes("{")
        out = [self.arm()]
        while self.takes("|"):
            out.append(self.arm())
        self.takes("}")
        return out

    def arm(self):
        part, _ = self.next(), self.next()
        return int(part), self.block()

    def expression(self, level):
        if level == len(LEVELS):
            return self.unary()
        if level == 2 and self.takes("not"):
            return ("=", self.expression(2), 0)
        left = self.expression(level + 1)
        while word := self.takes(*LEVELS[level]):
            left = (word, left, self.expression(level + 1))
        return left

    def unary(self):
        if self.takes("-"):
            return ("-", 0, self.unary())
        if self.takes("("):
            inner = self.expression(0)
            self.takes(")")
            return inner
        word = self.next()
        if word in ("true", "false"):
            return ("=", 0, int(word == "false"))
        return int(word) if word.isdigit() else word


def read(text):
    return Reader(text).program()
