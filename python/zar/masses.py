"""Exact probabilities, and what is worked out from them."""
from __future__ import annotations

from fractions import Fraction

from . import shown
from .printed import Outcome, words


class Masses(dict[Outcome, Fraction]):
    """The exact probability of each outcome that may come. All add up to 1.

    Its methods answer in fractions, too: `float` rounds one. They take a run that may end without a value for an error, a ValueError,
    since to leave it out is to condition on its not coming; `given_value()` does that where it is meant.
    """

    def numbers(self) -> dict[int, Fraction]:
        """The probabilities of the values alone, as they stand here. They add up to less than 1 where a run may end without one."""
        return {it: mass for it, mass in self.items() if isinstance(it, int)}

    def given_value(self) -> Masses:
        """The probabilities under the condition that a run has a value. A ValueError where none has one."""
        numbers = self.numbers()
        whole = sum(numbers.values())
        if not whole:
            raise ValueError("no run has a value")
        return Masses({it: mass / whole for it, mass in numbers.items()})

    def mean(self) -> Fraction:
        """The mean of the values."""
        return sum((mass * it for it, mass in self._all_numbers().items()), Fraction(0))

    def variance(self) -> Fraction:
        """The variance of the values."""
        mean = self.mean()
        return sum((mass * (it - mean) ** 2 for it, mass in self._all_numbers().items()), Fraction(0))

    def _all_numbers(self) -> dict[int, Fraction]:
        numbers = self.numbers()
        if others := [words(it) for it in self if it not in numbers]:
            raise ValueError(f"a run may end without a value: {', '.join(others)}")
        return numbers

    def _repr_html_(self) -> str:
        return shown.table(self)
