"""Parts of many streams that say what they are of: the line that `zar tally --named`, `zar runs --named` and `zar hunt --named` print first."""
import re
import typing

import printed

NUMBERS = "seed", "from", "to", "budget", "turns", "attempts", "rounds"
NUMBER = "(0|[1-9][0-9]*)"
LINE = re.compile(f"(tally|runs|hunt for .+) of ([0-9a-f]{{64}}){''.join(f' {it} {NUMBER}' for it in NUMBERS)}\n")


class Name(typing.NamedTuple):
    """What a part is of: the command with what it hunts for, the SHA-256 of the canonical text, and its numbers."""

    command: str
    program: str
    seed: int
    first: int
    end: int
    budget: int
    turns: int
    attempts: int
    rounds: int

    @property
    def streams(self):
        return self.end - self.first

    def line(self):
        """The line that tells it."""
        return f"{self.command} of {self.program}{''.join(f' {word} {n}' for word, n in zip(NUMBERS, self[2:]))}\n"


class Part(typing.NamedTuple):
    """A part, and where its name stands."""

    name: Name
    place: str


def named(line):
    """What a line says a part is of; none where it says nothing of the kind."""
    found = LINE.fullmatch(line)
    name = Name(found[1], found[2], *map(int, found.groups()[2:])) if found else None
    return name if name and name.first <= name.end else None


def lines(names):
    """Each line of the files, or of the standard input where there is none, with its place, and whether it is the first of a file."""
    for name in names or ["-"]:
        with open(0 if name == "-" else name, encoding="utf-8", errors="backslashreplace", newline="\n") as file:
            yield from ((f"{name}, line {number}", number == 1, line) for number, line in enumerate(file, 1))


def difference(one, other):
    """In what two names differ beside their streams, as words of each; none where they do not."""
    for field in ("command", "program", "seed", "budget", "turns", "attempts", "rounds"):
        mine, yours = getattr(one, field), getattr(other, field)
        if mine != yours:
            said = printed.quoted if field == "command" else str
            return f"{field} {said(mine)}", f"{field} {said(yours)}"
    return None


def options(first, end):
    return f"--from {first} --to {end}"


def agree(parts):
    """A ValueError where parts differ in more than their streams."""
    for part in parts:
        apart = difference(part.name, parts[0].name)
        if apart:
            raise ValueError(f"{part.place}: this part is of {apart[0]}, and that of {parts[0].place} of {apart[1]}")


def whole(parts):
    """What all parts together are of. A ValueError says where they differ, which streams stand twice, or which are missing."""
    agree(parts)
    order = sorted((it for it in parts if it.name.streams), key=lambda it: (it.name.first, it.name.end)) or parts[:1]
    for before, part in zip(order, order[1:]):
        if part.name.first < before.name.end:
            twice = options(part.name.first, min(before.name.end, part.name.end))
            raise ValueError(f"{part.place}: the streams {twice} stand twice, here and in the part of {before.place}")
    gaps = [options(a.name.end, b.name.first) for a, b in zip(order, order[1:]) if a.name.end < b.name.first]
    if gaps:
        raise ValueError(f"missing: {', '.join(gaps)}")
    return order[0].name._replace(end=order[-1].name.end)
