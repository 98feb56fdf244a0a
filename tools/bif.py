"""Reads a Bayesian network in the interchange format BIF, as the repository of networks of bnlearn has it.

A table of a node with parents has a row for each setting of the parents, or a `default` for those without one. Without parents it is
`table`. A `table` of a node with parents is refused, since its order is not the same in all files.
"""
import dataclasses
import itertools
import re
from fractions import Fraction

BLANK = re.compile(r"\s+|//[^\n]*|/\*.*?\*/", re.DOTALL)
WORD = re.compile(r'(?!/\*)(?:"[^"\n]*"|[^\s{}()\[\],;|"]+|[{}()\[\],;|])')
NUMBER = re.compile(r"\d+(?:\.\d*)?(?:[eE][+-]?\d+)?|\.\d+(?:[eE][+-]?\d+)?")


class Wrong(Exception):
    """A text that is no network, and why."""


@dataclasses.dataclass
class Node:
    """A node: the names of its values and of its parents, and for each setting of the parents, by places of values, its probabilities."""

    name: str
    values: list
    parents: list = dataclasses.field(default_factory=list)
    table: dict = None


def words_of(text):
    """The words of a text, each with the number of its line."""
    at, out = 0, []
    while at < len(text):
        blank = BLANK.match(text, at)
        word = None if blank else WORD.match(text, at)
        if not (blank or word):
            raise Wrong(f"line {text.count(chr(10), 0, at) + 1}: a quoted word or a comment has no end")
        if word:
            out.append((word[0], text.count("\n", 0, at) + 1))
        at = (blank or word).end()
    return out


class Reader:
    def __init__(self, text):
        self.words, self.at = words_of(text), 0

    def wrong(self, why):
        line = self.words[min(self.at, len(self.words)) - 1][1] if self.words else 1
        return Wrong(f"line {line}: {why}")

    def next(self):
        return self.words[self.at][0] if self.at < len(self.words) else ""

    def take(self, *wanted):
        word = self.next()
        self.at += 1
        if not word or (wanted and word not in wanted):
            raise self.wrong(f"{' or '.join(wanted) or 'a word'} is missing, before {word or 'the end'!r}")
        return word

    def name(self):
        word = self.take()
        if word in tuple("{}()[],;|"):
            raise self.wrong(f"a name is missing, before {word!r}")
        return word.strip('"')

    def names(self, end):
        """Names with a comma between two, or a blank, and the word that ends them."""
        out = [self.name()]
        while self.next() != end:
            if self.next() == ",":
                self.take()
            out.append(self.name())
        self.take(end)
        return out

    def numbers(self):
        out = []
        for word in self.names(";"):
            if not NUMBER.fullmatch(word):
                raise self.wrong(f"{word!r} is no probability")
            out.append(Fraction(word))
        return out

    def past_property(self):
        while self.take() != ";":
            pass

    def network(self):
        self.take("network")
        while self.take() != "{":
            pass
        while self.take("property", "}") != "}":
            self.past_property()

    def variable(self):
        node = Node(self.name(), [])
        self.take("{")
        while (word := self.take("type", "property", "}")) != "}":
            if word == "property":
                self.past_property()
                continue
            self.take("discrete")
            self.take("[")
            count = self.name()
            self.take("]")
            self.take("{")
            node.values = self.names("}")
            self.take(";")
            if count != str(len(node.values)) or len(set(node.values)) != len(node.values):
                raise self.wrong(f"{node.name} has not {count} values")
        if not node.values:
            raise self.wrong(f"{node.name} has no values")
        return node

    def probability(self, nodes):
        self.take("(")
        node = self.known(nodes, self.name())
        if node.table is not None:
            raise self.wrong(f"{node.name} has two tables")
        if self.take("|", ")") == "|":
            node.parents = self.names(")")
        parents = [self.known(nodes, it) for it in node.parents]
        if len({node.name, *node.parents}) != len(parents) + 1:
            raise self.wrong(f"{node.name} has a parent twice, or is its own")
        self.take("{")
        node.table, other = {}, None
        while (word := self.take("(", "table", "default", "property", "}")) != "}":
            if word == "property":
                self.past_property()
            elif word == "(":
                setting = self.setting(parents)
                if setting in node.table:
                    raise self.wrong(f"a row of {node.name} stands twice")
                node.table[setting] = self.row(node)
            elif word == "table" and parents:
                raise self.wrong(f"{node.name} has parents, and a table without their values")
            elif word == "table":
                node.table[()] = self.row(node)
            else:
                other = self.row(node)
        for setting in itertools.product(*(range(len(it.values)) for it in parents)):
            if node.table.setdefault(setting, other) is None:
                raise self.wrong(f"{node.name} has no row for {', '.join(it.values[k] for it, k in zip(parents, setting))}")

    def known(self, nodes, name):
        if name not in nodes:
            raise self.wrong(f"there is no node {name}")
        return nodes[name]

    def setting(self, parents):
        values = self.names(")")
        if len(values) != len(parents) or any(value not in it.values for value, it in zip(values, parents)):
            raise self.wrong(f"({', '.join(values)}) are no values of the parents")
        return tuple(it.values.index(value) for value, it in zip(values, parents))

    def row(self, node):
        numbers = self.numbers()
        if len(numbers) != len(node.values) or not sum(numbers):
            raise self.wrong(f"a row of {node.name} has not {len(node.values)} probabilities, of which one at least is above 0")
        return numbers


def read(text):
    """The nodes of a network, by their names, in the order of the text. A table may stand before the nodes that it names."""
    reader, nodes, tables = Reader(text), {}, []
    reader.network()
    while reader.next():
        if reader.take("variable", "probability") == "probability":
            tables.append(reader.at)
            while reader.take() != "}":
                pass
            continue
        node = reader.variable()
        if nodes.setdefault(node.name, node) is not node:
            raise reader.wrong(f"{node.name} stands twice")
    for reader.at in tables:
        reader.probability(nodes)
    for node in nodes.values():
        if node.table is None:
            raise Wrong(f"{node.name} has no table")
    return nodes
