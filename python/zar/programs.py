"""Programs, and what is asked of them."""
from __future__ import annotations

import operator
import os
import pathlib
import re
import typing
from collections import Counter
from fractions import Fraction

from . import library, printed, shown
from .masses import Masses
from .printed import Bounds, Outcome
from .refusals import REASONS, Refused
from .samples import Bits, Sample, sample
from .streams import Draws, Row, Runs, Streams, drawn, ended, row, seeded, streams

Text = typing.Union[str, bytes]
Path = typing.Union[str, os.PathLike[str]]
NAME = re.compile(r"[A-Za-z_][A-Za-z0-9_]*", re.ASCII)
# The limits of a run, where none are given, and the turns of a loop that are weighed.
BUDGET, TURNS, ATTEMPTS, ROUNDS = 65536, 1000, 1000, 1000
# The bits of a stream that runs in a row may read together.
ROW_BUDGET = 10**9
WEIGHED_TURNS = 30
# The most bits of the strings of an audit.
DEEPEST = 20


class Program:
    """A program of cpGCL, of a text or, with `path`, of the file of that name. A text that is none is Refused.

    Numbers given by name are assignments before the text: `Program("x ~ uniform(n); return x;", n=6)`. A weight of a `choice` is no
    expression, so a parameter cannot stand there. Programs of the same text with the same parameters are equal.

    A run reads at most `budget` bits of its stream, from 0 to 10^9, and makes at most so many `turns` of each entry of a loop, from 0
    to 10^9, `attempts` of each draw, from 1 to 10^9, and `rounds`, from 1 to 10^9: where an `observe` fails a new round begins. A run
    that is cut off is Rest.MORE_BITS or a Limit. A number out of its range is a ValueError, and want of memory a MemoryError. The
    limits where none are given are those of the commands: more for runs than for what is weighed.
    """

    def __init__(self, text: Text | None = None, /, *, path: Path | None = None, **parameters: int) -> None:
        if (text is None) == (path is None):
            raise TypeError("either a text or a path is to be given")
        own = pathlib.Path(path).read_bytes() if path is not None else encoded(text)
        before = "".join(assignment(name, value) for name, value in parameters.items()).encode()
        self._text = before + own
        said = library.check(self._text)
        if said.status == library.TEXT_REFUSED:
            raise refusal(said.code, library.place_of(said), before, own)
        library.taken(said)

    @property
    def text(self) -> bytes:
        """The text, with the assignments of parameters before it."""
        return self._text

    def __repr__(self) -> str:
        return f"{type(self).__name__}({shown.short(self._words())})"

    def _repr_html_(self) -> str:
        return shown.text(self._words())

    def _words(self) -> str:
        return self._text.decode("utf-8", "replace")

    def __eq__(self, other: object) -> bool:
        return isinstance(other, Program) and self._text == other._text

    def __hash__(self) -> int:
        return hash(self._text)

    def show(self) -> str:
        """The canonical text."""
        return library.lines("zar_show", self._text)

    def code(self) -> str:
        """The listing of the code that samples it."""
        return library.lines("zar_code", self._text)

    def mass(self, *, turns: int = WEIGHED_TURNS, attempts: int | None = None, rounds: int | None = None) -> Masses:
        """The exact probability of each outcome.

        The limits: `turns` 30 of each entry of a loop, where `runs` has 1000; no limit of `attempts` and `rounds`. Refused with E13 to
        E15 where the masses are too wide, too many or none.
        """
        limits = {"attempts": or_none("attempts", attempts), "rounds": or_none("rounds", rounds)}
        return Masses(printed.rows(library.lines("zar_mass", self._text, turns=turns, **limits), "mass"))

    def exact(self) -> Masses:
        """The exact probability of each value and fault where nothing is limited, and of Rest.ENDLESS, that a run never ends.

        Refused as `mass`.
        """
        return Masses(printed.rows(library.lines("zar_exact", self._text), "mass"))

    def posterior(self, *, turns: int = WEIGHED_TURNS) -> dict[Outcome, Bounds]:
        """Bounds of the probability of each value and fault, and of Rest.OTHER, all others.

        The limit: `turns` 30 of each entry of a loop. The bounds hold for every greater one. Refused as `mass`.
        """
        return printed.bounds(library.lines("zar_posterior", self._text, turns=turns))

    def enclose(
        self, *, turns: int = WEIGHED_TURNS, attempts: int | None = None, rounds: int | None = None, all_turns: bool = False
    ) -> dict[Outcome, Bounds]:
        """Two fractions between which the probability of each outcome lies, however wide that is, and of Rest.OTHER, all others.

        The limits: `turns` 30 of each entry of a loop; no limit of `attempts` and `rounds`. With `all_turns` they hold at every greater limit
        of turns, too. Refused with E14, E15 or E17.
        """
        limits = {"attempts": or_none("attempts", attempts), "rounds": or_none("rounds", rounds)}
        return printed.bounds(library.lines("zar_enclose", self._text, turns=turns, **limits, all_turns=bool(all_turns)))

    def cost(self, *, turns: int | None = None, attempts: int | None = None, rounds: int | None = None) -> Fraction | float:
        """How many bits a run reads on average: a Fraction, or math.inf where there is no bound.

        Nothing is limited where no limit is given. Else `attempts` of each draw and `rounds` are both to be given; `turns` are 30 of each entry
        of a loop where they are not. Refused with E13 or E14 as `exact`, and under limits as `mass`.
        """
        if turns is attempts is rounds is None:
            return printed.bits(library.lines("zar_cost_in_the_limit", self._text))
        if attempts is None or rounds is None:
            raise TypeError("attempts and rounds are both to be given, or no limit at all")
        turns = WEIGHED_TURNS if turns is None else turns
        return printed.bits(library.lines("zar_cost", self._text, turns=turns, attempts=attempts, rounds=rounds))

    def rounds(self) -> Fraction | float:
        """How many rounds a run begins on average where nothing is limited: a Fraction, or math.inf where there is no bound.

        The first, and one more after each that fails. Refused as `cost` without limits.
        """
        return printed.rounds(library.lines("zar_rounds_in_the_limit", self._text))

    def expected_draws(self) -> Fraction | float | None:
        """How many draws a run makes on average where nothing is limited: a Fraction, math.inf where there is no bound, or None where the
        number is not found, which says nothing of the program. It is never refused.

        A draw counts 1 once it is decided, whatever attempts it takes, one of `choice` or of `choose`, too.
        """
        return printed.counts(library.lines("zar_draws_in_the_limit", self._text), "draws")

    def expected_turns(self) -> Fraction | float | None:
        """How many turns of loops it makes on average, likewise. A turn counts 1 when its guard is found true."""
        return printed.counts(library.lines("zar_turns_in_the_limit", self._text), "turns")

    def sample(
        self, bits: Bits | None = None, *, budget: int = BUDGET, turns: int = TURNS, attempts: int = ATTEMPTS, rounds: int = ROUNDS
    ) -> Sample:
        """One run: its outcome, and how many bits it read.

        `bits` are bytes, each with its most significant bit first, or a function that gives as many bytes as it is asked for, as
        `random.Random(3).randbytes` or `numpy.random.default_rng(3).bytes`. Where none are given they are the system's, by os.urandom.
        Where bytes do not suffice the outcome is Rest.MORE_BITS.

        The limits: `budget` 65536 bits, more of which no function is asked for, `turns` 1000 of each entry of a loop, `attempts` 1000 of
        each draw, `rounds` 1000.
        """
        return sample(self._text, bits, budget, turns=turns, attempts=attempts, rounds=rounds)

    def in_a_row(
        self, count: int, *, seed: int | None = None, stream: int = 0,
        budget: int = ROW_BUDGET, turns: int = TURNS, attempts: int = ATTEMPTS, rounds: int = ROUNDS,
    ) -> Row:
        """How runs in a row on a stream of the seed end, each on the bits that those before it left; faster than a stream for each.

        Where no seed is given it is one of the system, which stands in the `seed` of the answer. The limits: `budget` 1000000000 bits of all
        runs together, `turns` 1000 of each entry of a loop, `attempts` 1000 of each draw, `rounds` 1000.
        """
        own, stream = seeded(seed), library.whole("stream", stream)
        limits = library.limits(budget=budget, turns=turns, attempts=attempts, rounds=rounds)
        return row(lambda places: library.draws_in_a_row(self._text, own, stream, limits, places), own, stream, count)

    def runs(
        self, count: int, *, seed: int, first: int = 0, threads: int = 1,
        budget: int = BUDGET, turns: int = TURNS, attempts: int = ATTEMPTS, rounds: int = ROUNDS,
    ) -> Runs:
        """How the runs on the streams `first` to `first + count - 1` of the seed end, those without a value, too.

        The limits of a run: `budget` 65536 bits, `turns` 1000 of each entry of a loop, `attempts` 1000 of each draw, `rounds` 1000. The
        answer is the same whatever the number of threads.
        """
        return self._streams(count, seed, first, budget, turns, attempts, rounds).run(threads)

    def draws(
        self, count: int, *, seed: int | None = None, first: int = 0, threads: int = 1,
        budget: int = BUDGET, turns: int = TURNS, attempts: int = ATTEMPTS, rounds: int = ROUNDS,
    ) -> Draws:
        """The values of these runs, as an array of 64-bit numbers, which numpy.asarray takes without a copy.

        Where no seed is given it is one of the system, which stands in the `seed` of the answer. The limits of a run: `budget` 65536 bits, `turns` 1000 of each entry of a loop, `attempts` 1000 of each draw, `rounds` 1000. The
        first run that ends without a value is NoValue: to leave it out would be to condition on its not coming.
        """
        own = seeded(seed)
        return drawn(self._streams(count, own, first, budget, turns, attempts, rounds).values(threads), own)

    def tally(
        self, count: int, *, seed: int, first: int = 0, threads: int = 1,
        budget: int = BUDGET, turns: int = TURNS, attempts: int = ATTEMPTS, rounds: int = ROUNDS,
    ) -> Counter[Outcome]:
        """How many of these runs end in each outcome. Memory does not grow with the count.

        The limits of a run: `budget` 65536 bits, `turns` 1000 of each entry of a loop, `attempts` 1000 of each draw, `rounds` 1000.
        """
        return self._streams(count, seed, first, budget, turns, attempts, rounds).tally(threads)

    def hunt(
        self, outcome: Outcome, count: int, *, seed: int, first: int = 0, threads: int = 1,
        budget: int = BUDGET, turns: int = TURNS, attempts: int = ATTEMPTS, rounds: int = ROUNDS,
    ) -> int | None:
        """The first of these streams whose run ends in the outcome, or None where none does.

        The limits of a run: `budget` 65536 bits, `turns` 1000 of each entry of a loop, `attempts` 1000 of each draw, `rounds` 1000. The
        last of all streams, 2^64 - 1, is not hunted through. What no run ends in is a ValueError.
        """
        own, (value, end) = library.whole("seed", seed), ended(outcome)
        library.whole("the end of the streams", library.whole("first", first) + library.whole("count", count))
        limits = library.limits(budget=budget, turns=turns, attempts=attempts, rounds=rounds)
        of = self._streams(count, seed, first, budget, turns, attempts, rounds)
        return of.hunt(lambda part: library.hunt(self._text, own, part, limits, value, end), threads)

    def audit(self, depth: int, *, turns: int = TURNS, attempts: int = ATTEMPTS, rounds: int = ROUNDS) -> Masses:
        """For each outcome the share of all strings of `depth` bits, 0 to 20, on which the run ends in it, and of Rest.UNDECIDED, on which it
        needs more. So each outcome has at least this probability, and exactly this where nothing is undecided.

        The limits: `turns` 1000 of each entry of a loop, `attempts` 1000 of each draw, `rounds` 1000. The time may double with each bit.
        """
        if not 0 <= operator.index(depth) <= DEEPEST:
            raise ValueError(f"depth is {depth}, which is not from 0 to {DEEPEST}")
        return Masses(printed.rows(library.lines("zar_audit", self._text, depth=depth, turns=turns, attempts=attempts, rounds=rounds), "mass"))

    def _streams(self, count: int, seed: int, first: int, budget: int, turns: int, attempts: int, rounds: int) -> Streams:
        seed, limits = library.whole("seed", seed), library.limits(budget=budget, turns=turns, attempts=attempts, rounds=rounds)
        return streams(lambda start, places: library.draws(self._text, seed, start, limits, places), first, count)


def encoded(text: Text | None) -> bytes:
    """The bytes of a text."""
    if isinstance(text, str):
        return text.encode()
    if not isinstance(text, bytes):
        raise TypeError(f"a text is str or bytes, and no {type(text).__name__}; a file is given as path=")
    return text


def assignment(name: str, value: int) -> str:
    """The statement that sets a parameter. The least number of 64 bits has no literal of its own."""
    number = operator.index(value)
    if not NAME.fullmatch(name) or not -(2**63) <= number < 2**63:
        raise ValueError(f"{name} = {number} is no parameter: a name of the language, and a number of 64 bits")
    return f"{name} := {number if number > -(2**63) else f'{number + 1} - 1'};\n"


def refusal(code: int, place: int | None, before: bytes, own: bytes) -> ValueError:
    """A refusal with its place in the text without the parameters, or, where that lies in them, of the parameter."""
    if place is None or place >= len(before):
        offset = None if place is None else place - len(before)
        why = Refused(code, own, offset, None if offset is None else library.explained(own, code, offset))
        if own.endswith(b".gcl"):
            why.add_note("this was taken for a text; a file is given as path=")
        return why
    name = before[:place].decode().rpartition("\n")[2] or before[place:].decode().partition(" ")[0]
    return ValueError(f"{name.partition(' ')[0]} is no name of a parameter: {REASONS[code]}")


def or_none(name: str, limit: int | None) -> int:
    """A limit as the library takes it: 0 where there is none."""
    if limit == 0:
        raise ValueError(f"{name} is 0, and a limit of {name} is at least 1")
    return 0 if limit is None else limit
