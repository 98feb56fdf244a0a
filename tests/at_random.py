"""What the checks at random share: the words of their calls, how their cases are dealt out, and how answers are read and judged."""
import argparse
import concurrent.futures
import fractions
import os
import pathlib
import re


def words(page, cases):
    """The words of the call of a script with this page: the program, how many cases, so many where none are given, and their seed."""
    reader = argparse.ArgumentParser(description=page.split("\n", maxsplit=1)[0])
    reader.add_argument("zar", type=lambda path: str(pathlib.Path(path).resolve(strict=True)))
    reader.add_argument("--cases", type=int, default=cases)
    reader.add_argument("--seed", type=int, default=0)
    return reader.parse_args()


def dealt(judge, cases):
    """What is said of the cases, in several parts for each processor."""
    processors = len(os.sched_getaffinity(0))
    parts = [cases[start :: 8 * processors] for start in range(8 * processors)]
    with concurrent.futures.ProcessPoolExecutor(processors) as pool:
        return list(pool.map(judge, parts))


def shares(said):
    """The outcomes of an answer in lines, each with its mass or its count."""
    return {outcome: fractions.Fraction(share) for outcome, share in re.findall(r"(.*) (?:mass|count) (\S+)\n", said.out.decode())}


def bounds(said):
    """The bounds of each outcome by an answer in lines: of one that has no line those of all others, and from 0 to 0 where there are none."""
    found = {outcome: bounds for outcome, *bounds in re.findall(r"(.*) from (\S+) to (\S+)\n", said.out.decode())}
    return lambda outcome: map(fractions.Fraction, found.get(outcome) or found.get("other") or (0, 0))


def require(holds, what, *told):
    if not holds:
        raise AssertionError("; ".join(map(str, (what, *told))))
