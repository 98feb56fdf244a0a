"""Runs on the streams of a seed, by several threads where wanted."""
from __future__ import annotations

import array
import collections
import collections.abc
import concurrent.futures
import ctypes
import dataclasses
import itertools
import os
import sys
import typing

from . import library, shown
from .printed import Fault, Limit, Outcome, Rest, words
from .refusals import NoValue

# The ends of runs and of rolls, as the library numbers them: 0 is a value.
ENDS: tuple[Outcome, ...] = (0, *Fault, Limit.TURNS, Limit.ATTEMPTS, Limit.ROUNDS, Rest.MORE_BITS, Limit.FLIPS)
# So many draws, where no more are asked for at a time, are one call of the library: a thread that is done takes the next ones, and an
# interrupt is heard.
BLOCK = 1 << 16
# So many blocks for each thread are handed out and not yet taken back.
AHEAD = 2
Part = typing.TypeVar("Part")
# An array of numbers, which takes a parameter where types are read, and from Python 3.12 on elsewhere.
if typing.TYPE_CHECKING:
    Numbers = array.array[int]
else:
    Numbers = array.array
# The numbers of `values`, in the words of numpy.
NUMBERS = "<i8" if sys.byteorder == "little" else ">i8"


@dataclasses.dataclass(frozen=True, repr=False)
class Ends(collections.abc.Sequence[Outcome]):
    """How runs ended: the sequence of their outcomes.

    `values` is an array of 64-bit numbers, 0 where a run has no value. `ends` has a byte for each run, 0 for a value. numpy.asarray
    takes the values without a copy where each run has one, and else the outcomes, as objects.
    """

    values: array.array[int]
    ends: bytearray

    def __len__(self) -> int:
        return len(self.ends)

    @typing.overload
    def __getitem__(self, place: int) -> Outcome: ...

    @typing.overload
    def __getitem__(self, place: slice) -> Ends: ...

    def __getitem__(self, place: int | slice) -> Outcome | Ends:
        if isinstance(place, slice):
            return self._part(place)
        return ENDS[self.ends[place]] if self.ends[place] else self.values[place]

    def _part(self, place: slice) -> Ends:
        return Ends(self.values[place], self.ends[place])

    def __iter__(self) -> typing.Iterator[Outcome]:
        return (ENDS[end] if end else value for value, end in zip(self.values, self.ends))

    def __repr__(self) -> str:
        return f"<{len(self)} runs: {shown.short([*self[:9]])}>"

    @property
    def __array_interface__(self) -> dict[str, typing.Any]:
        if not self.all_values:
            raise AttributeError("not each run has a value")
        return {"version": 3, "shape": (len(self),), "typestr": NUMBERS, "data": self.values}

    @property
    def all_values(self) -> bool:
        """Whether each run has a value."""
        return self.ends.count(0) == len(self.ends)

    def outcomes(self) -> typing.Iterator[Outcome]:
        """The outcome of each run."""
        return iter(self)

    def tally(self) -> collections.Counter[Outcome]:
        """How many runs ended in each outcome."""
        return collections.Counter(self.values if self.all_values else self)


@dataclasses.dataclass(frozen=True, repr=False)
class Runs(Ends):
    """How runs ended, in the order of their streams, of which `streams` has the numbers; with what Ends have."""

    streams: range

    @typing.overload
    def __getitem__(self, place: int) -> Outcome: ...

    @typing.overload
    def __getitem__(self, place: slice) -> Runs: ...

    def __getitem__(self, place: int | slice) -> Outcome | Ends:
        return super().__getitem__(place)

    def _part(self, place: slice) -> Runs:
        return Runs(self.values[place], self.ends[place], self.streams[place])


@dataclasses.dataclass(frozen=True, repr=False)
class Row(Ends):
    """How runs in a row on a stream of a seed ended, each on the bits that those before it left, and how many `bits` all of them read;
    with what Ends have."""

    seed: int
    stream: int
    bits: int


class Draws(Numbers):
    """The values of runs on the streams of a `seed`, an array of 64-bit numbers, which numpy.asarray takes without a copy."""

    seed: int

    def __repr__(self) -> str:
        return repr(array.array("q", self))


def seeded(seed: int | None) -> int:
    """The seed, or one of the system."""
    return int.from_bytes(os.urandom(8), "big") if seed is None else library.whole("seed", seed)


def drawn(values: array.array[int], seed: int) -> Draws:
    """The values with the seed of their streams."""
    draws = Draws("q", values)
    draws.seed = seed
    return draws


def ended(outcome: Outcome) -> tuple[int, int]:
    """The value, or 0, and the end by which the library tells that a run ends so. A ValueError where none does."""
    if isinstance(outcome, int) and -(2**63) <= outcome < 2**63:
        return outcome, 0
    if isinstance(outcome, int) or outcome not in ENDS or outcome is Limit.FLIPS:
        raise ValueError(f"no run ends in {words(outcome)}")
    return 0, ENDS.index(outcome)


def row(draw: typing.Callable[[library.Places], int], seed: int, stream: int, count: int) -> Row:
    """So many runs in a row, by a call that draws into places and says how many bits it read."""
    values, ends = array.array("q", [0]) * library.whole("count", count), bytearray(count)
    bits = 0
    if count:  # an empty array has no address
        held = (ctypes.c_ubyte * count).from_buffer(ends)
        bits = draw(library.Places(values.buffer_info()[0], ctypes.addressof(held), count))
        del held
    return Row(values, ends, seed, stream, bits)


@dataclasses.dataclass(frozen=True)
class Streams:
    """So many streams from `first` on; `write` fills places with how the runs on the streams from a number on end, a block at a time."""

    write: typing.Callable[[int, library.Places], None]
    first: int
    count: int
    block: int

    def run(self, threads: int) -> Runs:
        """The runs on the streams."""
        runs = Runs(array.array("q", [0]) * self.count, bytearray(self.count), range(self.first, self.first + self.count))
        if self.count:  # an empty array has no address
            self._fill(runs, threads)
        return runs

    def _fill(self, runs: Runs, threads: int) -> None:
        values, _ = runs.values.buffer_info()
        held = (ctypes.c_ubyte * self.count).from_buffer(runs.ends)
        ends = ctypes.addressof(held)

        def draw(part: range) -> None:
            self.write(self.first + part.start, library.Places(values + 8 * part.start, ends + part.start, len(part)))

        for _ in side_by_side(draw, self._parts(), threads):
            pass

    def values(self, threads: int) -> array.array[int]:
        """The values of the runs. The first run without one is NoValue."""
        runs = self.run(threads)
        if not runs.all_values:
            place = next(place for place, end in enumerate(runs.ends) if end)
            raise NoValue(runs.streams[place], ENDS[runs.ends[place]])
        return runs.values

    def tally(self, threads: int) -> collections.Counter[Outcome]:
        """How many of the runs end in each outcome, with the memory of a block for each thread."""

        def counted(part: range) -> collections.Counter[Outcome]:
            return self._of(part).run(1).tally()

        whole: collections.Counter[Outcome] = collections.Counter()
        for part in side_by_side(counted, self._parts(), threads):
            whole.update(part)
        return whole

    def hunt(self, seek: typing.Callable[[range], int | None], threads: int) -> int | None:
        """The first of the streams that a search through some of them finds, if there is one."""
        found = side_by_side(lambda part: seek(range(self.first + part.start, self.first + part.stop)), self._parts(), threads)
        return next((stream for stream in found if stream is not None), None)

    def _of(self, part: range) -> Streams:
        return dataclasses.replace(self, first=self.first + part.start, count=len(part))

    def _parts(self) -> typing.Iterator[range]:
        return (range(start, min(start + self.block, self.count)) for start in range(0, self.count, self.block))


def streams(write: typing.Callable[[int, library.Places], None], first: int, count: int, block: int = BLOCK) -> Streams:
    """The streams of these numbers."""
    first, count = library.whole("first", first), library.whole("count", count)
    library.whole("the last stream", max(first + count - 1, 0))
    return Streams(write, first, count, block)


def side_by_side(work: typing.Callable[[range], Part], blocks: typing.Iterator[range], threads: int) -> typing.Iterator[Part]:
    """The results of the work on the blocks, in their order, by so many threads. Few blocks are taken ahead of what is asked for."""
    if threads < 1:
        raise ValueError("there is no thread")
    if threads == 1:
        yield from map(work, blocks)
        return
    with concurrent.futures.ThreadPoolExecutor(threads) as pool:
        begun = collections.deque(pool.submit(work, block) for block in itertools.islice(blocks, AHEAD * threads))
        while begun:
            done = begun.popleft().result()
            begun.extend(pool.submit(work, block) for block in itertools.islice(blocks, 1))
            yield done
