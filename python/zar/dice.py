"""Loaded dice."""
from __future__ import annotations

import array
import operator
import typing
from collections import Counter
from fractions import Fraction

from . import library, shown
from .masses import Masses
from .printed import Outcome
from .streams import BLOCK, Draws, Runs, Streams, drawn, seeded, streams

# The greatest sum of the weights.
GREATEST_SUM = 2**62
# The limits of a roll, where none are given.
BUDGET, FLIPS = 65536, 1000
# A call lays out the weights anew. So it is worth at least so many rolls for each of them.
ROLLS_OF_A_FACE = 16


class Die:
    """A loaded die: face i, counted from 0, comes with weights[i] over the sum of the weights, exactly, by the fewest coin flips.

    The weights are whole numbers from 0 on, 2 to 2^32 of them, with a sum up to 2^62. None is the whole sum: a face that is certain is
    not drawn. Else they are a ValueError. Dice of the same weights are equal.

    A stream has `budget` bits for a roll, from 0 to 10^9, and the roll reads at most `flips` of them, from 0 to 10^9. It ends without a
    face as Rest.MORE_BITS by the one and as Limit.FLIPS by the other. A number out of its range is a ValueError.
    """

    def __init__(self, weights: typing.Iterable[int]) -> None:
        faces = [operator.index(weight) for weight in weights]
        if not faces or min(faces) < 0 or not max(faces) < sum(faces) <= GREATEST_SUM:
            raise ValueError("weights are whole numbers from 0 on, with a sum up to 2^62, which is none of them")
        self._weights = array.array("Q", faces)

    def __repr__(self) -> str:
        return f"Die({shown.short(self._weights[:9].tolist())})"

    def __eq__(self, other: object) -> bool:
        return isinstance(other, Die) and self._weights == other._weights

    def __hash__(self) -> int:
        return hash(self._weights.tobytes())

    def mass(self) -> Masses:
        """The exact probability of each face that may come, where nothing is limited."""
        whole = sum(self._weights)
        return Masses({face: Fraction(weight, whole) for face, weight in enumerate(self._weights) if weight})

    def runs(self, count: int, *, seed: int, first: int = 0, threads: int = 1, budget: int = BUDGET, flips: int = FLIPS) -> Runs:
        """How the rolls on the streams `first` to `first + count - 1` of the seed end, those without a face, too.

        The limits of a roll: `budget` 65536 bits, `flips` 1000. The answer is the same whatever the number of threads.
        """
        return self._streams(count, seed, first, budget, flips).run(threads)

    def draws(
        self, count: int, *, seed: int | None = None, first: int = 0, threads: int = 1, budget: int = BUDGET, flips: int = FLIPS
    ) -> Draws:
        """The faces of these rolls, as an array of 64-bit numbers, which numpy.asarray takes without a copy.

        Where no seed is given it is one of the system, which stands in the `seed` of the answer. The limits of a roll: `budget` 65536 bits, `flips` 1000. The first roll that ends without a face is NoValue. Under these limits
        that is to be expected of none: of all 2^1000 strings of flips fewer give no face than there are faces.
        """
        own = seeded(seed)
        return drawn(self._streams(count, own, first, budget, flips).values(threads), own)

    def tally(
        self, count: int, *, seed: int, first: int = 0, threads: int = 1, budget: int = BUDGET, flips: int = FLIPS
    ) -> Counter[Outcome]:
        """How many of these rolls end in each outcome. Memory does not grow with the count.

        The limits of a roll: `budget` 65536 bits, `flips` 1000.
        """
        return self._streams(count, seed, first, budget, flips).tally(threads)

    def _streams(self, count: int, seed: int, first: int, budget: int, flips: int) -> Streams:
        seed, limits = library.whole("seed", seed), library.roll_limits(budget=budget, flips=flips)
        block = max(BLOCK, ROLLS_OF_A_FACE * len(self._weights))
        return streams(lambda start, places: library.rolls(self._weights, seed, start, limits, places), first, count, block)
