"""The calls of the library `libzar`, by the types of its header `zar.h`."""
from __future__ import annotations

import array
import ctypes
import dataclasses
import functools
import mmap
import operator
import os
import pathlib

from .refusals import Refused

NAME = "libzar.so.1"
TEXT = (ctypes.c_char_p, ctypes.c_size_t)
ARRAY = (ctypes.c_void_p, ctypes.c_size_t)
NUMBER = ctypes.c_uint64
# How many bytes of lines there is room for at first, so that they are worked out once: more than 65,536 outcomes take. Memory that
# nothing is written to is not taken.
ROOM = 1 << 24
# The statuses but 0, for an answer.
TEXT_REFUSED, NUMBERS_REFUSED, OUT_OF_MEMORY, MASS_REFUSED = 1, 2, 5, 6


class Limits(ctypes.Structure):
    """`zar_limits`."""

    _fields_ = [(name, NUMBER) for name in ("budget", "turns", "attempts", "rounds")]


class Found(ctypes.Structure):
    """`zar_found`."""

    _fields_ = [("stream", NUMBER), ("found", ctypes.c_bool)]


class Ran(ctypes.Structure):
    """`zar_ran`."""

    _fields_ = [("value", ctypes.c_int64), ("read", NUMBER), ("end", ctypes.c_uint8)]


class RollLimits(ctypes.Structure):
    """`zar_roll_limits`."""

    _fields_ = [(name, NUMBER) for name in ("budget", "flips")]


class Said(ctypes.Structure):
    """`zar_said`."""

    _fields_ = [
        ("status", ctypes.c_uint8),
        ("code", ctypes.c_uint8),
        ("has_place", ctypes.c_bool),
        ("place", ctypes.c_uint32),
        ("length", ctypes.c_uint64),
    ]


# The types of what each call takes.
CALLS = {
    "zar_version": ARRAY,
    "zar_check": TEXT,
    "zar_show": (*TEXT, *ARRAY),
    "zar_code": (*TEXT, *ARRAY),
    "zar_mass": (*TEXT, NUMBER, NUMBER, NUMBER, *ARRAY),
    "zar_posterior": (*TEXT, NUMBER, *ARRAY),
    "zar_exact": (*TEXT, *ARRAY),
    "zar_enclose": (*TEXT, NUMBER, NUMBER, NUMBER, ctypes.c_bool, *ARRAY),
    "zar_explain": (*TEXT, ctypes.c_uint8, ctypes.c_uint32, *ARRAY),
    "zar_cost": (*TEXT, NUMBER, NUMBER, NUMBER, *ARRAY),
    "zar_cost_in_the_limit": (*TEXT, *ARRAY),
    "zar_rounds_in_the_limit": (*TEXT, *ARRAY),
    "zar_draws_in_the_limit": (*TEXT, *ARRAY),
    "zar_turns_in_the_limit": (*TEXT, *ARRAY),
    "zar_draws": (*TEXT, NUMBER, NUMBER, ctypes.POINTER(Limits), *ARRAY, *ARRAY),
    "zar_tally": (*TEXT, NUMBER, NUMBER, NUMBER, ctypes.POINTER(Limits), *ARRAY),
    "zar_hunt": (*TEXT, NUMBER, NUMBER, NUMBER, ctypes.POINTER(Limits), ctypes.c_int64, ctypes.c_uint8, ctypes.POINTER(Found)),
    "zar_audit": (*TEXT, ctypes.c_uint32, NUMBER, NUMBER, NUMBER, *ARRAY),
    "zar_run": (*TEXT, *TEXT, NUMBER, NUMBER, NUMBER, ctypes.POINTER(Ran)),
    "zar_draws_in_a_row": (*TEXT, NUMBER, NUMBER, ctypes.POINTER(Limits), *ARRAY, *ARRAY, ctypes.POINTER(NUMBER)),
    "zar_roll": (*ARRAY, NUMBER, NUMBER, ctypes.POINTER(RollLimits), *ARRAY, *ARRAY),
}


@functools.cache
def loaded() -> ctypes.CDLL:
    """The library: the file that ZAR_LIBRARY names, else that beside this module, else that of the system."""
    beside = pathlib.Path(__file__).with_name(NAME)
    library = ctypes.CDLL(os.environ.get("ZAR_LIBRARY") or (str(beside) if beside.exists() else NAME))
    for name, types in CALLS.items():
        call = getattr(library, name)
        call.argtypes, call.restype = types, Said
    return library


def whole(name: str, value: int) -> int:
    """The number, which has to be one of 64 bits without a sign: ctypes would take any other modulo 2^64."""
    number = operator.index(value)
    if not 0 <= number < 2**64:
        raise ValueError(f"{name} is {number}, which is not from 0 to 2^64 - 1")
    return number


def limits(**numbers: int) -> Limits:
    """The limits of runs."""
    return Limits(**{name: whole(name, it) for name, it in numbers.items()})


def roll_limits(**numbers: int) -> RollLimits:
    """The limits of rolls."""
    return RollLimits(**{name: whole(name, it) for name, it in numbers.items()})


def taken(said: Said, **numbers: int) -> Said:
    """What a call said, where its status is 0."""
    if said.status == NUMBERS_REFUSED:
        raise ValueError("a number is out of its range: " + ", ".join(f"{name} {it}" for name, it in numbers.items()))
    if said.status == OUT_OF_MEMORY:
        raise MemoryError("libzar is out of memory")
    if said.status in (TEXT_REFUSED, MASS_REFUSED):
        raise Refused(said.code)
    return said


def place_of(said: Said) -> int | None:
    """The place of a refusal, where it has one."""
    return said.place if said.has_place else None


def check(text: bytes) -> Said:
    """What the library says of a text."""
    said: Said = loaded().zar_check(text, len(text))
    return said


def explained(text: bytes, code: int, place: int) -> tuple[str, int] | None:
    """What is found wrong with a text that is refused, and where, if it is found."""
    room = (ctypes.c_char * 4096)()
    said = taken(loaded().zar_explain(text, len(text), code, place, room, len(room)))
    return (room.raw[: said.length].decode().rstrip("\n"), said.place) if said.has_place and said.length <= len(room) else None


def lines(call: str, *text: bytes, **numbers: int) -> str:
    """The lines that a call writes, of a text where it takes one."""
    given = [it for one in text for it in (one, len(one))] + [whole(name, it) for name, it in numbers.items()]
    room = ROOM
    while True:
        memory = mmap.mmap(-1, room)
        said = taken(getattr(loaded(), call)(*given, (ctypes.c_char * room).from_buffer(memory), room), **numbers)
        if said.length <= room:
            return memory[: said.length].decode()
        room = said.length


@dataclasses.dataclass(frozen=True)
class Places:
    """The addresses of two arrays, of `count` places each, which must not be 0."""

    values: int
    ends: int
    count: int

    def pairs(self) -> tuple[int, int, int, int]:
        """Each address and how many places lie there."""
        return self.values, self.count, self.ends, self.count


def draws(text: bytes, seed: int, first: int, limits: Limits, places: Places) -> None:
    """Draws into places."""
    said = loaded().zar_draws(text, len(text), seed, first, limits, *places.pairs())
    taken(said, **numbers(limits, seed=seed, first=first, count=places.count))


def hunt(text: bytes, seed: int, streams: range, limits: Limits, value: int, end: int) -> int | None:
    """The first of the streams whose run has this value and this end, if there is one."""
    found = Found()
    said = loaded().zar_hunt(text, len(text), seed, streams.start, streams.stop, limits, value, end, found)
    taken(said, **numbers(limits, seed=seed, first=streams.start, count=len(streams)))
    return found.stream if found.found else None


def run(text: bytes, bits: bytes, **limits: int) -> Ran:
    """How a run on the bits of some bytes ends."""
    ran = Ran()
    said = loaded().zar_run(text, len(text), bits, len(bits), *(whole(name, it) for name, it in limits.items()), ran)
    taken(said, **limits)
    return ran


def draws_in_a_row(text: bytes, seed: int, stream: int, limits: Limits, places: Places) -> int:
    """Draws in a row into places, and how many bits they read."""
    read = NUMBER()
    said = loaded().zar_draws_in_a_row(text, len(text), seed, stream, limits, *places.pairs(), read)
    taken(said, **numbers(limits, seed=seed, stream=stream, count=places.count))
    return read.value


def rolls(weights: array.array[int], seed: int, first: int, limits: RollLimits, places: Places) -> None:
    """Rolls by weights, of which there is one, into places. A label is below 2^32, so it is the same number with a sign."""
    said = loaded().zar_roll(*weights.buffer_info(), seed, first, limits, *places.pairs())
    taken(said, **numbers(limits, seed=seed, first=first, count=places.count))


def numbers(limits: Limits | RollLimits, **given: int) -> dict[str, int]:
    """The numbers of a call, each with its name."""
    return {**given, **{name: getattr(limits, name) for name, _ in limits._fields_}}
