"""Programs as strategies of Hypothesis: what a run draws are bits of Hypothesis, so a test that fails shrinks to simple draws."""
from __future__ import annotations

import typing

import hypothesis
from hypothesis import strategies

from .programs import Program


def draws(program: Program, **limits: int) -> strategies.SearchStrategy[int]:
    """The values of runs of a program, under the limits of Program.sample. A run without a value is no example."""

    def drawn(draw: strategies.DrawFn) -> int:
        ran = program.sample(lambda count: draw(strategies.binary(min_size=count, max_size=count)), **limits)
        hypothesis.assume(isinstance(ran.outcome, int))
        return typing.cast(int, ran.outcome)

    return strategies.composite(drawn)()
