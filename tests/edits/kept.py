"""The edits that earlier runs on this machine found refused. Each has an empty file, named by the sum of all that its check reads."""
import contextlib
import functools
import hashlib
import os
import pathlib
import subprocess

from edits import CRATES, source

PLACE = pathlib.Path(os.environ.get("XDG_CACHE_HOME") or pathlib.Path.home() / ".cache") / "zar-edits"
RULES = [pathlib.Path(__file__).with_name(it) for it in ("edits.py", "grouping.py", "trying.py")]


@functools.cache
def kit():
    return subprocess.run(["rt", "version"], capture_output=True, check=True).stdout


@functools.cache
def sum_of(crate):
    """A sum of the kit, and of the texts of a crate and of those that it stands on."""
    found = hashlib.sha256(kit())
    for file in sorted(it for part in ("src", "specs", "proofs") for it in (CRATES / crate / part).rglob("*") if it.is_file()):
        found.update(f"{file.relative_to(CRATES)} {file.stat().st_size} ".encode() + file.read_bytes())
    for below in next(below for _, it, _, below in source.layers() if it == crate):
        found.update((sum_of(below) if (CRATES / below).is_dir() else below).encode())
    return found.hexdigest()


def file_of(edit, crate):
    """The file of an edit, which is there once the edit was refused."""
    found = hashlib.sha256(sum_of(crate).encode())
    for file in (edit, *RULES):
        found.update(file.read_bytes())
    return PLACE / found.hexdigest()


def keep(file):
    with contextlib.suppress(OSError):
        file.parent.mkdir(parents=True, exist_ok=True)
        file.touch()
