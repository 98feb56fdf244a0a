"""Works out what definitions of specs/ give, from their text, for arguments that are data of Python.

Whole numbers and integers are numbers, truths are truths, lists and products are tuples, a record is a dictionary, and any other data is
a `Data`. A function of a definition takes its arguments one by one and works each out when it is first asked for; constructors, and what
the standard library defines, take theirs worked out. Statements that can be decided are worked out as truths; one that is said of each
member of a type, or of some, is a function of the member.
"""
import contextlib
import functools
import itertools
import operator
import re
import typing

import definitions
import source

TOKEN = re.compile(r'"[^"]*"|\.[^\s(){}\[\],;.]+|[(){}\[\],;.]|[^\s(){}\[\],;.]+')
# How tightly an operator binds, and whether it groups to the right.
LEFT, RIGHT = 1, 0
OPERATORS = {
    "→": (0, RIGHT), "⊎": (1, RIGHT), "≡": (4, LEFT), "▸": (5, RIGHT), "▹": (5, RIGHT), ">>=": (10, LEFT), "||": (30, LEFT), "&&": (35, LEFT),
    "×": (36, RIGHT), "==": (40, LEFT), "≤": (50, LEFT), "<": (50, LEFT), "+": (65, LEFT), "-": (65, LEFT), "++": (65, LEFT),
    "+ℤ": (65, LEFT), "-ℤ": (65, LEFT),
    "∷": (67, RIGHT), "*": (70, LEFT), "/": (70, LEFT), "%": (70, LEFT), "*ℤ": (70, LEFT), "^": (75, RIGHT),
}
ENDS = {")", "]", "}", ",", ";", "then", "else", "in", "↦", "|", "="}


class Data(typing.NamedTuple):
    name: str
    args: tuple = ()


class Lazy:
    """What is worked out when it is first asked for."""

    def __init__(self, work):
        self.work, self.value = work, None

    def __call__(self):
        if self.work:
            self.value, self.work = self.work(), None
        return self.value


# ---- texts


class Reader:
    def __init__(self, text):
        self.tokens = TOKEN.findall(definitions.COMMENT.sub("", text))[::-1]

    def next(self, *wanted):
        found = self.tokens.pop()
        if wanted and found not in wanted:
            raise ValueError(f"{found} stands where {wanted} was expected")
        return found

    def sees(self, *tokens):
        return bool(self.tokens) and self.tokens[-1] in tokens

    def expression(self, least=0):
        left = self.term()
        while self.tokens and self.tokens[-1] in OPERATORS and OPERATORS[self.tokens[-1]][0] >= least:
            word = self.next()
            level, group = OPERATORS[word]
            left = ("apply", ("apply", ("name", f"◌{word}◌"), left), self.expression(level + group))
        return left

    def term(self):
        if self.binds():
            names = []
            while self.binds():
                found = self.group("(", ")")
                names += found[: found.index(":")]
            self.next("→", "×")
            return ("function", names, self.expression())
        if self.sees("λ"):
            self.next()
            names = self.binders()
            return ("function", names, self.expression())
        if self.sees("if"):
            return ("if", *(self.behind(word) for word in ("if", "then", "else")))
        if self.sees("let"):
            self.next()
            return ("let", self.next(), self.behind("="), self.behind("in"))
        if self.sees("elim"):
            self.next()
            return ("match", self.atom(), self.cases())
        left = self.atom()
        while self.tokens and self.tokens[-1] not in ENDS and self.tokens[-1] not in OPERATORS:
            if self.sees("{"):
                self.group("{", "}")  # an implicit argument
            else:
                left = ("apply", left, self.atom())
        return left

    def binds(self):
        """Whether names stand here in brackets, with their type."""
        ahead = self.tokens[-2:0:-1] if self.sees("(") else []
        names = list(itertools.takewhile(lambda token: token != ":" and token[0] not in "(){}[],;.λ" and token not in OPERATORS, ahead))
        return bool(names) and ahead[len(names) : len(names) + 1] == [":"]

    def behind(self, word):
        self.next(word)
        return self.expression()

    def binders(self):
        names = []
        while not self.sees("."):
            if self.sees("("):
                names.append(self.group("(", ")")[0])
            else:
                names.append(self.next())
        self.next(".")
        return names

    def group(self, begin, end):
        """The tokens between two brackets."""
        self.next(begin)
        found = []
        while not self.sees(end):
            found += self.group(begin, end) if self.sees(begin) else [self.next()]
        self.next(end)
        return found

    def cases(self):
        found = []
        while self.next("[", "|", "]") != "]":
            found.append((self.expression(), self.behind("↦")))
        return found

    def atom(self):
        token = self.next()
        if token == "(":
            found = [self.expression()]
            while self.next(",", ")") == ",":
                found.append(self.expression())
            left = found[0] if len(found) == 1 else ("tuple", found)
        elif token == "[":
            self.next("]")
            left = ("name", "[]")
        elif token == "record":
            left = ("record", self.fields())
        else:
            left = ("value", int(token)) if token.isdigit() else ("name", token)
        while self.tokens and len(self.tokens[-1]) > 1 and self.tokens[-1][0] == ".":
            left = ("field", left, self.next()[1:])
        return left

    def fields(self):
        found = {}
        self.next("{")
        while not self.sees("}"):
            name = self.next()
            found[name] = self.behind("=")
            if self.sees(";"):
                self.next()
        self.next("}")
        return found


# ---- values


def known(value):
    found = Lazy(None)
    found.value = value
    return found


def curried(count, run, taken=()):
    """A function that runs once it has so many arguments."""
    return run(*taken) if len(taken) == count else lambda lazy: curried(count, run, (*taken, lazy))


def called(function, *args):
    for arg in args:
        function = Data(function.name, (*function.args, arg)) if isinstance(function, Data) else function(known(arg))
    return function


def strict(count, run):
    """A function that takes its arguments worked out."""
    return curried(count, lambda *these: run(*(it() for it in these)))


def position(test, at, these):
    return next((Data("Some", (at + i,)) for i, it in enumerate(these) if called(test, it)), Data("None"))


def same_option(same, one, other):
    return one.name == other.name and all(called(same, a, b) for a, b in zip(one.args, other.args))


def cut(a, b):
    return abs(a) // abs(b) * (1 if (a < 0) == (b < 0) else -1)


# What the standard library and the language itself define, with the number of arguments.
STRICT = {
    "suc": (1, lambda n: n + 1), "pos": (1, lambda n: n), "negsuc": (1, lambda n: -1 - n), "neg_ℤ": (1, operator.neg), "not": (1, operator.not_),
    "◌+◌": (2, operator.add), "◌-◌": (2, lambda a, b: max(a - b, 0)), "◌*◌": (2, operator.mul), "◌/◌": (2, operator.floordiv), "◌%◌": (2, operator.mod),
    "◌^◌": (2, operator.pow), "◌+ℤ◌": (2, operator.add), "◌-ℤ◌": (2, operator.sub), "◌*ℤ◌": (2, operator.mul), "int_div": (2, cut),
    "div_ceil": (2, lambda a, b: -(-a // b)), "int_rem": (2, lambda a, b: a - b * cut(a, b)), "min": (2, min), "max": (2, max),
    "from_bool": (1, int), "sum": (1, sum),
    "◌==◌": (2, operator.eq), "◌≡◌": (2, operator.eq), "int_eq": (2, operator.eq), "bytes_eq": (2, operator.eq), "nat_lt": (2, operator.lt),
    "int_lt": (2, operator.lt), "◌<◌": (2, operator.lt), "nat_le": (2, operator.le), "int_le": (2, operator.le), "◌≤◌": (2, operator.le),
    "◌∷◌": (2, lambda x, xs: (x, *xs)), "◌++◌": (2, operator.add), "length": (1, len), "take": (2, lambda n, l: l[:n]), "drop": (2, lambda n, l: l[n:]),
    "map": (2, lambda f, l: tuple(called(f, it) for it in l)), "filter": (2, lambda f, l: tuple(it for it in l if called(f, it))),
    "list_all": (2, lambda f, l: all(called(f, it) for it in l)), "list_any": (2, lambda f, l: any(called(f, it) for it in l)),
    "replicate": (2, lambda n, x: (x,) * n), "range_with_len": (2, lambda first, n: tuple(range(first, first + n))), "position_from": (3, position),
    "slice_index": (2, lambda l, i: l[i]), "slice_index_or": (3, lambda l, i, d: l[i] if i < len(l) else d),
    "slice_set": (3, lambda l, i, x: (*l[:i], x, *l[i + 1 :]) if i < len(l) else l), "option_eq": (3, same_option),
    "pointwise": (1, lambda same: same), "distinct_count": (2, lambda same, l: len(set(l))), "IsTrue": (1, bool),
}
LAZY = {
    "◌&&◌": (2, lambda a, b: a() and b()), "◌||◌": (2, lambda a, b: a() or b()), "◌×◌": (2, lambda a, b: a() and b()), "◌⊎◌": (2, lambda a, b: a() or b()),
    "cond": (3, lambda test, a, b: a() if test() else b()), "◌→◌": (2, lambda a, b: b() if a() else True),
}
CONSTANTS = {"zero": 0, "true": True, "false": False, "[]": (), "Unit": True, "⊥": False}


@functools.cache
def standard(name):
    if name in CONSTANTS:
        return CONSTANTS[name]
    if name in LAZY:
        return curried(*LAZY[name])
    return strict(*STRICT[name])


# ---- numbers that the code gives, and what is given in place of a definition

CONSTANT = r"pub const %s: \w+ = (?:(\d+) << )?([\d_]+);"
GIVEN = {}


@functools.cache
def constant(module, name):
    _, crate, _, _, *file, _ = module.split(".")
    text = (source.ROOT / "crates" / crate / "src" / "/".join(file)).with_suffix(".rt").read_text(encoding="utf-8")
    base, number = re.search(CONSTANT % name, text).groups()
    return int(base) << int(number) if base else int(number)


@contextlib.contextmanager
def given(**these):
    """Takes these in place of what has such a name."""
    GIVEN.update(these)
    try:
        yield
    finally:
        for name in these:
            del GIVEN[name]


# ---- definitions


@functools.cache
def clauses(definition):
    """The cases of a definition, each by the patterns of its arguments and what it gives."""
    lines = [definitions.lines(definition.module)[number] for number in definition.lines]
    head = next(i for i, line in enumerate(lines) if definitions.HEAD.match(line) and not definitions.BLOCK.match(line))
    indent = len(lines[head]) - len(lines[head].lstrip())
    begins = [i for i in range(head + 1, len(lines)) if lines[i][: indent + 1].strip() not in ("", "}")] + [len(lines)]
    found = []
    for begin, end in zip(begins, begins[1:]):
        reader = Reader("\n".join(lines[begin:end]))
        found.append((unfolded(reader.expression())[1], reader.behind("=")))
    return found


@functools.cache
def parameters(definition):
    """The names of what the blocks of a definition are of, each with the line of its block."""
    lines = definitions.lines(definition.module)
    blocks = [number for number in definition.lines if definitions.BLOCK.match(lines[number])]
    return [(number, name) for number in blocks for group in re.findall(r"\(([^():]+) :", lines[number]) for name in group.split()]


def unfolded(e):
    """A call as its head and its arguments."""
    args = []
    while e[0] == "apply":
        args.insert(0, e[2])
        e = e[1]
    return e, args


@functools.cache
def meaning(definition):
    names, cases = [name for _, name in parameters(definition)], clauses(definition)

    def run(*these):
        given = dict(zip(names, these))
        for patterns, result in cases:
            env = dict(given)
            if all(fits(pattern, lazy, env, definition) for pattern, lazy in zip(patterns, these[len(names) :])):
                return value(result, env, definition)
        raise ValueError(f"no case of {definition.name} fits")

    return curried(len(names) + len(cases[0][0]), run)


@functools.cache
def named(word, field, file):
    """What a word stands for in a file, as a module and a name, or none; a field of an alias, too."""
    names, aliases = definitions.scope(file)
    if field is not None:
        return (aliases[word], field) if word in aliases else None
    return min(names.get("".join(definitions.words(word)), [None]))


def found_by(e, definition):
    if e[0] == "field":
        return named(e[1][1], e[2], definition.module) if e[1][0] == "name" else None
    return named(e[1], None, definition.module)


@functools.cache
def is_constructor(module, name):
    if module in definitions.modules():
        return definitions.owners(module)[name].kind == "data"
    return module.endswith(".TheVariants") or name in ("zero", "suc", "pos", "negsuc", "true", "false", "Some", "None", "Ok", "Err", "◌∷◌")


def constructor(e, definition):
    """The name of the constructor that a name stands for, or none."""
    if e == ("name", "[]"):
        return e[1]
    found = found_by(e, definition)
    return found[1] if found and is_constructor(*found) else None


NUMBERS = {"zero": lambda n: () if n == 0 else None, "suc": lambda n: (n - 1,) if n > 0 else None, "pos": lambda n: (n,) if n >= 0 else None,
    "negsuc": lambda n: (-1 - n,) if n < 0 else None, "true": lambda b: () if b else None, "false": lambda b: None if b else (),
    "[]": lambda l: None if l else (), "◌∷◌": lambda l: (l[0], l[1:]) if l else None}


def fits(pattern, lazy, env, definition):
    """Whether an argument has the form of a pattern; the names in it are bound then."""
    head, args = unfolded(pattern)
    if head[0] == "value":
        return lazy() == head[1]
    if head[0] == "tuple":
        return all(fits(it, known(part), env, definition) for it, part in zip(head[1], lazy()))
    name = constructor(head, definition)
    if name is None:
        env[head[1]] = lazy
        return True
    parts = NUMBERS[name](lazy()) if name in NUMBERS else lazy().args if lazy().name == name else None
    return parts is not None and all(fits(it, known(part), env, definition) for it, part in zip(args, parts))


def value(e, env, definition):
    """What an expression gives, where names are bound so in the file of a definition."""
    kind = e[0]
    if kind == "value":
        return e[1]
    if kind == "name" and e[1] in env:
        return env[e[1]]()
    if kind == "apply":
        function = value(e[1], env, definition)
        lazy = Lazy(lambda: value(e[2], env, definition))
        return Data(function.name, (*function.args, lazy())) if isinstance(function, Data) else function(lazy)
    if kind == "function":
        return curried(len(e[1]), lambda *these: value(e[2], {**env, **dict(zip(e[1], these))}, definition))
    if kind == "if":
        return value(e[2] if value(e[1], env, definition) else e[3], env, definition)
    if kind == "let":
        return value(e[3], {**env, e[1]: Lazy(lambda: value(e[2], env, definition))}, definition)
    if kind == "match":
        lazy = Lazy(lambda: value(e[1], env, definition))
        new, result = next((new, result) for pattern, result in e[2] if fits(pattern, lazy, new := dict(env), definition))
        return value(result, new, definition)
    if kind == "tuple":
        return tuple(value(it, env, definition) for it in e[1])
    if kind == "record":
        return {name: value(it, env, definition) for name, it in e[1].items()}
    found = found_by(e, definition)
    if kind == "field" and not found:
        of = value(e[1], env, definition)
        return of[e[2]] if isinstance(of, dict) else of[int(e[2])]
    module, name = found or ("", e[1])
    if name in GIVEN:
        return GIVEN[name]
    if module.endswith(".TheConstants"):
        return constant(module, name)
    if found and name not in CONSTANTS and name not in STRICT and is_constructor(module, name):
        return Data(name)
    if module not in definitions.modules():
        return standard(name)
    other = definitions.owners(module)[name]
    result = meaning(other)
    for number, parameter in parameters(other):
        if module == definition.module and number in definition.lines:
            result = result(env[parameter])
    return result


def defined(crate, file, name):
    module = next(it for it in definitions.modules() if it.startswith(f"Rattle.{crate}.specs.") and it.endswith(f".{file}"))
    return definitions.owners(module)[name]


def of(crate, file, name):
    """What a definition gives, as a function of Python."""
    return functools.partial(called, meaning(defined(crate, file, name)))


def field(crate, file, record, name):
    """What a field of a record says, as a function of what the record is of and then of what the field is."""
    definition = defined(crate, file, record)
    head, *fields = definitions.FIELD.split(definition.text())
    said = dict(zip(fields[1::3], fields[2::3]))[name]
    parameters_of = [it for group in re.findall(r"\(([^():]+) :", head) for it in group.split()]
    return functools.partial(called, value(("function", parameters_of, Reader(said).expression()), {}, definition))


def some_case(crate, file, name):
    """Whether what one of the cases of a statement asks holds, as a function of what the statement is of."""
    definition = defined(crate, file, name)
    head, *cases = definitions.FIELD.split(definition.text())
    parameters_of = [it for group in re.findall(r"\(([^():]+) :", head) for it in group.split()]
    asked = [Reader(case.rpartition("→")[0]).expression() for case in cases[2::3]]
    return curried(len(parameters_of), lambda *these: any(value(it, dict(zip(parameters_of, these)), definition) for it in asked))
