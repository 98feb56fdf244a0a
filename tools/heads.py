"""The heads of the examples: a title, and calls with what they print, worked out by hand.

A call is a line `#   zar WORDS prints: LINE, LINE ..[, with status N]`. Lines behind it that are indented deeper go on with it. A call
whose answer is not told has no `prints:`.
"""
import re
import typing

CALL = re.compile(r"^#   zar (.*\n(?:#     .*\n)*)", re.MULTILINE)


class Call(typing.NamedTuple):
    words: list
    lines: list  # what it prints, or none where that is not told
    status: int


class Head(typing.NamedTuple):
    title: str
    calls: list


def call(text):
    words, _, told = " ".join(text.replace("#", " ").split()).partition(" prints: ")
    lines = told.split(", ") if told else []
    status = int(lines.pop().removeprefix("with status ")) if lines and lines[-1].startswith("with status ") else 0
    return Call(words.split(), lines, status)


def read(path):
    text = path.read_text(encoding="utf-8")
    return Head(text.split("\n", 1)[0].removeprefix("# "), [call(it) for it in CALL.findall(text)])
