"""Calls of the built program, each over files in a folder of its own."""
import concurrent.futures
import functools
import os
import pathlib
import shutil
import subprocess
import tempfile
import typing

# A call that takes longer does not end: on a busy machine a long one takes minutes, under valgrind too.
SECONDS = 300

# Root may read every file. In a call behind these words it may not, where the system has the command.
AS_A_USER = ["setpriv", "--bounding-set", "-dac_override,-dac_read_search"] if os.geteuid() == 0 and shutil.which("setpriv") else []


class Said(typing.NamedTuple):
    out: bytes
    err: bytes
    status: int

    def __str__(self):
        return f"status {self.status}, out {self.out[:200]!r}, err {self.err[:200]!r}"


def call(zar, folder, words, env=None):
    """What the program says of the words in a folder; the status is below 0 where a signal ended it, or nothing did."""
    try:
        done = subprocess.run([zar, *words], cwd=folder, env=env, stdin=subprocess.DEVNULL, capture_output=True, timeout=SECONDS, check=False)
    except subprocess.TimeoutExpired:
        return Said(b"", b"no end after %d seconds" % SECONDS, -1)
    return Said(done.stdout, done.stderr, done.returncode)


def folder_of(files):
    """A folder with these files, which is gone at the end of the block."""
    folder = tempfile.TemporaryDirectory()
    for name, content in files.items():
        pathlib.Path(folder.name, name).write_bytes(content)
    return folder


@functools.cache
def reads_all():
    """Whether a call behind these words may read a file that nobody may read."""
    with folder_of({"closed": b""}) as folder:
        pathlib.Path(folder, "closed").chmod(0)
        cat, *words = [*AS_A_USER, "cat", "closed"]
        return call(cat, folder, words).status == 0


def side_by_side(work, items):
    """The results of the work on each item, by as many threads as there are processors."""
    with concurrent.futures.ThreadPoolExecutor(len(os.sched_getaffinity(0))) as pool:
        return list(pool.map(work, items))
