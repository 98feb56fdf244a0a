"""A run on bits of one's own."""
from __future__ import annotations

import os
import typing

from . import library
from .printed import Outcome, Rest
from .streams import ENDS

# Bytes, or what gives as many as it is asked for.
Bits = typing.Union[bytes, bytearray, memoryview, typing.Callable[[int], bytes]]
# How many bytes are asked for at first; where they do not suffice, as many again as there are.
FIRST = 8


class Sample(typing.NamedTuple):
    """How a run ended, and how many bits it read."""

    outcome: Outcome
    bits: int


def sample(text: bytes, bits: Bits | None, budget: int, **limits: int) -> Sample:
    """The run of a text on bits; where none are given, on those of the system. Of a function no more than the budget are asked for."""
    if isinstance(bits, (bytes, bytearray, memoryview)):
        return run(text, bytes(bits), limits)
    give, most, held = os.urandom if bits is None else bits, library.whole("budget", budget) // 8, b""
    while True:
        held += given(give, min(max(len(held), FIRST), most - len(held)))
        ran = run(text, held, limits)
        if ran.outcome is not Rest.MORE_BITS or len(held) == most:
            return ran


def run(text: bytes, bits: bytes, limits: dict[str, int]) -> Sample:
    """The run on all these bits."""
    ran = library.run(text, bits, **limits)
    return Sample(ENDS[ran.end] if ran.end else ran.value, ran.read)


def given(give: typing.Callable[[int], bytes], count: int) -> bytes:
    """So many bytes of a function."""
    more = bytes(memoryview(give(count)))
    if len(more) != count:
        raise ValueError(f"{count} bytes were asked for, and {len(more)} were given")
    return more
