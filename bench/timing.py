"""The least time that a call takes of several, in processor seconds and by the clock."""
import os
import resource
import subprocess
import time
import typing


class Took(typing.NamedTuple):
    out: str
    processor: float  # seconds
    clock: float  # seconds


class Failed(Exception):
    """A call ended with a status other than 0."""


def once(words):
    before = resource.getrusage(resource.RUSAGE_CHILDREN)
    start = time.monotonic()
    done = subprocess.run(words, capture_output=True, text=True, check=False)
    clock = time.monotonic() - start
    after = resource.getrusage(resource.RUSAGE_CHILDREN)
    if done.returncode != 0:
        raise Failed(f"{' '.join(map(str, words))}: status {done.returncode}, {done.stderr.strip()}")
    return Took(done.stdout, after.ru_utime + after.ru_stime - before.ru_utime - before.ru_stime, clock)


def least(calls, rounds):
    """Each of several calls as often as there are rounds, in turn: what each printed, with the least of its times."""
    rows = list(zip(*([once(words) for words in calls] for _ in range(rounds))))
    return [Took(row[0].out, min(it.processor for it in row), min(it.clock for it in row)) for row in rows]


def machine():
    """The name of the processor, and how many may be used."""
    name = "a processor without a name"
    try:
        with open("/proc/cpuinfo", encoding="utf-8") as lines:
            name = next((line.split(":", 1)[1].strip() for line in lines if line.startswith("model name")), name)
    except OSError:
        pass
    return f"{name}, {len(os.sched_getaffinity(0))} processors"
