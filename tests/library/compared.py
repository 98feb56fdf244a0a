"""Calls of the library beside the commands of the program."""
import contextlib
import ctypes
import importlib.machinery
import importlib.util
import io
import pathlib
import random
import re
import sys

import calling
import source

sys.dont_write_bytecode = True
FUZZ = importlib.machinery.SourceFileLoader("fuzz", str(source.ROOT / "tests" / "fuzz"))
fuzz = importlib.util.module_from_spec(importlib.util.spec_from_loader("fuzz", FUZZ))
FUZZ.exec_module(fuzz)

EXAMPLES = sorted((source.ROOT / "examples").glob("*.gcl"))
# Texts with each refusal, in the order of their codes, and the empty one.
REFUSED = [
    b"#" * 65537, b"x := ?;", b"return 9223372036854775808;", b"return " + b"x" * 65 + b";", b"return 7", b"return " + b"(" * 65 + b"1" + b")" * 65 + b";",
    b"return 1 = 1;", b"return y;", b"".join(b"n%d := 1;" % i for i in range(257)) + b"return n0;", b"choice 1/0 { } or { } return 1;",
    b"choice 2/1 { } or { } return 1;", b"choice 1/4611686018427387905 { } or { } return 1;", b"",
]
# Texts whose masses are refused, each with its code.
UNWEIGHED = [
    (b"y := 0; " + b"x ~ uniform(7); if x = 0 { y := y + 1; } " * 50 + b"return y;", 13),
    (b"x ~ uniform(300); y ~ uniform(300); return x * 300 + y;", 14),
    (b"observe false; return 1;", 15),
]
ENDS = [
    "value", "fault overflow", "fault zero divisor", "fault bad bound", "limit turns", "limit attempts", "limit rounds", "more bits", "limit flips",
]
GUARD = 0xAA


class Draws:
    """Two arrays with a place behind each that no call may write."""

    def __init__(self, count, short=0):
        self.count, self.short = count, short
        self.values, self.ends = (ctypes.c_int64 * (count + 1))(*[GUARD] * (count + 1)), (ctypes.c_uint8 * (count + 1))(*[GUARD] * (count + 1))

    def places(self):
        return ctypes.addressof(self.values), self.count, ctypes.addressof(self.ends), self.count - self.short

    def untouched(self):
        return list(self.values) == [GUARD] * (self.count + 1) and list(self.ends) == [GUARD] * (self.count + 1)

    def outcomes(self):
        """The outcomes in the words of the program, or None where a place is written that must not be."""
        if self.values[self.count] != GUARD or self.ends[self.count] != GUARD or any(v for v, e in self.pairs() if e):
            return None
        return [f"value {value}" if end == 0 else ENDS[end] for value, end in self.pairs()]

    def pairs(self):
        return list(zip(self.values, self.ends))[: self.count]


def told(said):
    """A status, the code of a refusal and its place."""
    return said.status, said.code, said.place if said.has_place else None


def silent(said):
    """Nothing stands where there is nothing to tell."""
    return (said.has_place or said.place == 0) and (said.status in (1, 6) or said.code == 0) and (said.status == 0 or said.length == 0)


def commanded(zar, folder, words):
    """A status, the code of a refusal and its place, and the lines, as the program tells them."""
    said = calling.call(zar, folder, words)
    found = fuzz.REFUSED.fullmatch(said.err)
    code, place = found.groups() if found else (0, None)
    return said.status, int(code), None if place is None else int(place), said.out


def lined(function, *given):
    """The same as a call of the library tells them. It is asked for the length, with one byte too little, with just enough and with
    more; what it must not write it does not."""
    length = function(*given, ctypes.create_string_buffer(1), 0).length
    answers, whole = set(), b""
    for capacity in {max(length - 1, 0), length, length + 8}:
        lines = (ctypes.c_uint8 * (capacity + 1))(*[GUARD] * (capacity + 1))
        said = function(*given, lines, capacity)
        written = length if said.status == 0 and length <= capacity else 0
        if any(byte != GUARD for byte in lines[written:]) or not silent(said):
            return None
        answers.add((*told(said), said.length))
        whole = bytes(lines[:written]) or whole
    return (*answers.pop()[:3], whole) if len(answers) == 1 else None


def line_calls(library, text, rng):
    """Calls about a text that write lines, each with the words of the command that it stands for."""
    turns, attempts, rounds = rng.choice([0, 1, 3, 10, 30]), rng.choice([0, 1, 2, 5]), rng.choice([0, 1, 2, 3])
    limits = [word for name, n in (("attempts", attempts), ("rounds", rounds)) if n for word in (f"--{name}", str(n))]
    all_turns, depth = rng.random() < 0.5, rng.choice([0, 1, 4, 7])
    all_limits = ["--turns", str(turns), "--attempts", str(attempts or 1), "--rounds", str(rounds or 1)]
    given = (text, len(text))
    seed, first, budget = rng.randrange(2**64), rng.choice([0, 17, 2**64 - 71]), rng.choice([0, 5, 65536])
    runs = library.Limits(budget, turns, attempts or 1, rounds or 1)
    return [
        (library.zar_show, given, ["show", "p.gcl"]),
        (library.zar_code, given, ["code", "p.gcl"]),
        (library.zar_exact, given, ["exact", "p.gcl"]),
        (library.zar_mass, (*given, turns, attempts, rounds), ["mass", "p.gcl", "--turns", str(turns), *limits]),
        (library.zar_tally, (*given, seed, first, first + 70, runs), ["tally", "p.gcl", "--seed", str(seed), "--from", str(first), "--to", str(first + 70),
                                                                      "--budget", str(budget), *all_limits]),
        (library.zar_posterior, (*given, turns), ["posterior", "p.gcl", "--turns", str(turns)]),
        (library.zar_enclose, (*given, turns, attempts, rounds, all_turns), ["enclose", "p.gcl", "--turns", str(turns), *limits, *["--all-turns"] * all_turns]),
        (library.zar_cost, (*given, turns, attempts or 1, rounds or 1), ["cost", "p.gcl", *all_limits]),
        (library.zar_cost_in_the_limit, given, ["cost", "p.gcl"]),
        (library.zar_audit, (*given, depth, turns, attempts or 1, rounds or 1), ["audit", "p.gcl", "--depth", str(depth), *all_limits]),
    ]


def outcomes_of(zar, folder, seed, first, count, limits):
    """The outcomes of the streams from a number on, by `runs`, and the last of all streams by `sample`."""
    numbers = [word for name, _ in limits._fields_ for word in (f"--{name}", str(getattr(limits, name)))]
    last = first + count == 2**64
    end = first + count - last
    said = calling.call(zar, folder, ["runs", "p.gcl", "--seed", str(seed), "--from", str(first), "--to", str(end), "--workers", "1", *numbers]).out
    if last:
        said += calling.call(zar, folder, ["sample", "p.gcl", "--seed", str(seed), "--stream", str(2**64 - 1), *numbers]).out
    return re.findall(r"^(.*?)(?: bits)? \d+$", re.sub(r"^more bits (\d+)$", r"more bits bits \1", said.decode(), flags=re.MULTILINE), re.MULTILINE)


def weights_at(weights):
    """Weights as an array, with a place behind them that is none of them, and how many they are."""
    return (ctypes.c_uint64 * (len(weights) + 1))(*weights, GUARD), len(weights)


def rolls_of(zar, weights, seed, streams, budget, flips):
    """The outcomes of rolls by the weights on the streams, by `roll`."""
    listed, numbers = ",".join(map(str, weights)), ["--seed", str(seed), "--budget", str(budget), "--flips", str(flips)]
    said = (calling.call(zar, "/", ["roll", listed, *numbers, "--stream", str(stream)]).out.decode() for stream in streams)
    return [re.match(r"more bits|.*(?= bits)", line)[0] for line in said]


def counts_are_told_alike(zar, library, folder, text):
    """What differs between the rounds, the draws and the turns of a text and the lines of `cost --how-long` behind the first, unless it is refused."""
    status, code, place, out = commanded(zar, folder, ["cost", "p.gcl", "--how-long"])
    lines = out.splitlines(keepends=True)[1:] or [b"", b"", b""]
    calls = (library.zar_rounds_in_the_limit, library.zar_draws_in_the_limit, library.zar_turns_in_the_limit)
    for call, line in zip(calls, lines) if status != 6 else ():
        said = lined(call, text, len(text))
        if said != (status, code, place, line):
            yield f"{call.__name__}: {said}, not {status, code, place, line}"


def hunts_are_told_alike(zar, library, folder, text, rng, checked):
    """What differs between a hunt for a way to end and what `hunt` says of it."""
    seed, first, budget = rng.randrange(2**64), rng.choice([0, 17, 2**64 - 71]), rng.choice([0, 5, 65536])
    turns, attempts, rounds = rng.randrange(9), rng.randrange(1, 5), rng.randrange(1, 5)
    end, value = rng.choice([0, 0, *range(8)]), rng.choice([0, 1, 2, 77])
    limits = ["--budget", str(budget), "--turns", str(turns), "--attempts", str(attempts), "--rounds", str(rounds)]
    wanted = str(value) if end == 0 else re.sub("^(fault|limit) ", "", ENDS[end]).replace(" ", "-")
    found = library.Found(GUARD, True)
    said = library.zar_hunt(text, len(text), seed, first, first + 70, library.Limits(budget, turns, attempts, rounds), value, end, found)
    if told(said) != checked or not silent(said):
        yield f"zar_hunt {told(said)}, check {checked}"
    words = ["hunt", "p.gcl", "--seed", str(seed), "--from", str(first), "--to", str(first + 70), "--want", wanted, *limits]
    line = f"stream {found.stream if found.found else 'none'}\n".encode() if said.status == 0 else b""
    if line != commanded(zar, folder, words)[3] or (found.stream != (GUARD if said.status else 0) and not (found.found and not said.status)):
        yield f"zar_hunt, {words}: {found.stream} {found.found}"


def rolls_are_told_alike(zar, library, rng):
    """What differs between the library and the program about rolls by weights at random."""
    count, great = rng.choice([2, 3, 5, 17, 300]), rng.choice([2, 10, 2**50])
    weights = [rng.randrange(great) for _ in range(count)] + [1, 1]
    seed, first = rng.randrange(2**64), rng.choice([0, 17, 2**64 - 12])
    budget, flips, rolls = rng.choice([0, 1, 3, 64, 65536]), rng.choice([0, 1, 3, 64, 1000]), Draws(12)
    said = library.zar_roll(*weights_at(weights), seed, first, library.RollLimits(budget, flips), *rolls.places())
    wanted = rolls_of(zar, weights, seed, range(first, first + rolls.count), budget, flips)
    if said.status or not silent(said) or rolls.outcomes() != wanted:
        return [f"zar_roll {weights} from {first} of {seed}: {told(said)} {rolls.outcomes()}, not {wanted}"]
    return []


def stream_words():
    """The function of the documents that gives the words of a block of a stream."""
    names = {}
    with contextlib.redirect_stdout(io.StringIO()):
        exec(re.search(r"```python\n(.*?)```", (source.ROOT / "docs" / "formats.md").read_text(encoding="utf-8"), re.DOTALL)[1], names)
    return names["words"]


WORDS = stream_words()


def sampled(zar, folder, path, bits, limits):
    """How a run on bits ends, as `sample` says it of a file of them, and how many it reads. Of a last byte that they do not fill 0 is
    the rest, and what reads on in that needs more bits than there are."""
    padded = bits + "0" * (-len(bits) % 8)
    pathlib.Path(folder, "b.bin").write_bytes(bytes(int(padded[k : k + 8], 2) for k in range(0, len(padded), 8)))
    said = calling.call(zar, folder, ["sample", path, "--bits", "b.bin", *limits]).out.decode()
    outcome, read = re.fullmatch(r"(more bits|.*?)(?: bits)? (\d+)\n", said).groups()
    return ("more bits", len(bits)) if int(read) > len(bits) or outcome == "more bits" else (outcome, int(read))


def row_of(zar, path, seed, stream, budget, count, limits=()):
    """How runs in a row on the first bits of a stream end, each on what `sample` of those before it left; and how many bits all read."""
    left, outcomes = "".join(f"{word:032b}" for block in range(budget // 512 + 1) for word in WORDS(seed, stream, block))[:budget], []
    with calling.folder_of({}) as folder:
        for _ in range(count):
            # Few of many bits suffice, and are tried first.
            outcome, used = sampled(zar, folder, path, left[:800], limits)
            if outcome == "more bits":
                outcome, used = sampled(zar, folder, path, left, limits)
            outcomes.append(outcome)
            left = left[used:]
    return outcomes, budget - len(left)


def ran(library, said, ran):
    """What a run of the library was told to end with, in the words of the program."""
    return (f"value {ran.value}" if ran.end == 0 else ENDS[ran.end], ran.read) if said.status == 0 and (ran.end == 0 or ran.value == 0) else None


def bits_are_told_alike(zar, library, folder, text, rng, checked):
    """What differs between runs on bits at random, and in a row on a stream, and what the program says of these bits."""
    turns, attempts, rounds = rng.randrange(9), rng.randrange(1, 5), rng.randrange(1, 5)
    limits = ["--turns", str(turns), "--attempts", str(attempts), "--rounds", str(rounds)]
    bits = rng.randbytes(rng.choice([0, 1, 2, 9, 17, 200]))
    one = library.Ran(GUARD, GUARD, GUARD)
    said = library.zar_run(text, len(text), bits, len(bits), turns, attempts, rounds, one)
    if told(said) != checked or not silent(said):
        yield f"zar_run {told(said)}, check {checked}"
    seed, stream, row, read = rng.randrange(2**64), rng.choice([0, 17, 2**64 - 1]), Draws(9), ctypes.c_uint64(GUARD)
    budget = rng.choice([0, 5, 33, 700])
    row_said = library.zar_draws_in_a_row(text, len(text), seed, stream, library.Limits(budget, turns, attempts, rounds), *row.places(), ctypes.addressof(read))
    if told(row_said) != checked or not silent(row_said):
        yield f"zar_draws_in_a_row {told(row_said)}, check {checked}"
    if said.status:
        if (one.value, one.read, one.end, read.value) != (GUARD,) * 4 or not row.untouched():
            yield "zar_run or zar_draws_in_a_row wrote beside a refusal"
        return
    wanted = sampled(zar, folder, "p.gcl", "".join(f"{byte:08b}" for byte in bits), limits)
    if ran(library, said, one) != wanted:
        yield f"zar_run on {bits.hex()} {limits}: {one.value} {one.end} {one.read}, not {wanted}"
    wanted = row_of(zar, str(pathlib.Path(folder, "p.gcl")), seed, stream, budget, row.count, limits)
    if (row.outcomes(), read.value) != wanted:
        yield f"zar_draws_in_a_row of {seed}, {stream}, {budget}, {limits}: {row.outcomes()} by {read.value} bits, not {wanted}"


def text_is_told_alike(zar, library, text, rng):
    """What differs between the library and the program about one text."""
    wrong = []
    with calling.folder_of({"p.gcl": text}) as folder:
        checked = commanded(zar, folder, ["check", "p.gcl"])[:3]
        said = library.zar_check(text, len(text))
        if told(said) != checked or not silent(said):
            wrong.append(f"zar_check {told(said)}, check {checked}")
        for function, given, words in line_calls(library, text, rng):
            of_library, of_program = lined(function, *given), commanded(zar, folder, words)
            if of_library != of_program:
                wrong.append(f"{function.__name__} {given[2:]} {of_library}, {words} {of_program}")
        limits = library.Limits(rng.choice([0, 3, 20, 65536]), rng.randrange(9), rng.randrange(1, 5), rng.randrange(1, 5))
        count = 100
        seed, first, draws = rng.randrange(2**64), rng.choice([0, 17, 2**64 - count]), Draws(count)
        said = library.zar_draws(text, len(text), seed, first, limits, *draws.places())
        if told(said) != checked or not silent(said):
            wrong.append(f"zar_draws {told(said)}, check {checked}")
        if said.status and not draws.untouched():
            wrong.append("zar_draws wrote beside a refusal")
        if not said.status and draws.outcomes() != outcomes_of(zar, folder, seed, first, count, limits):
            wrong.append(f"zar_draws from {first} of {seed}: {draws.outcomes()}")
        wrong += bits_are_told_alike(zar, library, folder, text, rng, checked)
        wrong += counts_are_told_alike(zar, library, folder, text)
        wrong += hunts_are_told_alike(zar, library, folder, text, rng, checked)
    return [f"{it}, of {text[:400]!r}" for it in wrong]


def texts(seed, accepted, refused):
    """The examples, the texts that are known to be refused, and so many at random."""
    rng = random.Random(seed)
    made = [fuzz.program(rng) for _ in range(accepted)] + [fuzz.mutated(rng, fuzz.program(rng)) for _ in range(refused)]
    return [path.read_bytes() for path in EXAMPLES] + REFUSED + [text for text, _ in UNWEIGHED] + made
