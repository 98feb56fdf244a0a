"""Why there is no answer."""
from __future__ import annotations

import typing

from .printed import Outcome, words

# How an error is copied, and handed from one process to another: by what it was made of, since what it says is no such thing.
Reduced = tuple[type, tuple[typing.Any, ...], dict[str, typing.Any]]
# The words of the codes, as `zar` prints them.
REASONS = {
    1: "text too long",
    2: "bad byte",
    3: "number too wide",
    4: "name too long",
    5: "unexpected",
    6: "too deep",
    7: "kind mismatch",
    8: "unknown name",
    9: "too many names",
    10: "zero denominator",
    11: "weight above one",
    12: "weight too fine",
    13: "fraction too wide",
    14: "too many states",
    15: "every round fails",
    17: "too unlikely to enclose",
}


class Refused(ValueError):
    """A text is no program, or a program has no masses that can be given.

    `code` is that of the refusal, as "E5", and `reason` its words. Where it has a place in the text, `offset` is that in bytes from 0
    on, `line` and `column` are those in characters from 1 on, and `excerpt` is the line around it with a mark under the place. Where the
    library finds what is wrong, `hint` says it, and the mark stands under the place that it speaks of. What there is not is None.
    """

    def __init__(self, code: int, text: bytes = b"", offset: int | None = None, found: tuple[str, int] | None = None) -> None:
        self._given = code, text, offset, found
        self.code, self.reason, self.offset = f"E{code}", REASONS[code], offset
        self.hint = found[0] if found else None
        self.line: int | None = None
        self.column: int | None = None
        self.excerpt: str | None = None
        told = [f"{self.code} {self.reason}"]
        if offset is not None:
            self.line, self.column, _ = placed(text, offset)
            self.excerpt = placed(text, found[1] if found else offset)[2]
            told = [f"{told[0]}, line {self.line}, column {self.column}", self.excerpt]
        super().__init__("\n".join([*told, *([f"  {self.hint}"] if self.hint else [])]))

    def __reduce__(self) -> Reduced:
        return type(self), self._given, self.__dict__


class NoValue(ArithmeticError):
    """A draw that ended without a value: `stream` is its stream, and `outcome` how it ended."""

    def __init__(self, stream: int, outcome: Outcome) -> None:
        self.stream, self.outcome = stream, outcome
        super().__init__(f"the run on stream {stream} has no value: {words(outcome)}")

    def __reduce__(self) -> Reduced:
        return type(self), (self.stream, self.outcome), self.__dict__


# How much of a line is shown, and how much of it before its mark, in characters.
WIDTH, BEFORE = 76, 50


def placed(text: bytes, offset: int) -> tuple[int, int, str]:
    """The line and the column of a place in a text, and that line around it, with a mark under the place."""
    start = text.rfind(b"\n", 0, offset) + 1
    before = text[start:offset].decode("utf-8", "replace")
    whole = text[start:].split(b"\n", 1)[0].decode("utf-8", "replace")
    first = max(len(before) - BEFORE, 0)
    under = "".join(it if it == "\t" else " " for it in before[first:])
    return text.count(b"\n", 0, offset) + 1, len(before) + 1, f"  {whole[first:first + WIDTH]}\n  {under}^"
