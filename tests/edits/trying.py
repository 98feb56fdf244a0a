"""What the prover says of a crate with an edit."""
import pathlib
import re
import shutil
import subprocess
import tempfile

import kept
from edits import CRATES, changes, refusing
from grouping import groups

# What is said of a proof or a definition that names what an edit took away.
LOST_NAME = re.compile(r"(note: )?(\./)?(proofs|specs)/.*(has no field|is not in scope|has no `|was not admitted)")
TOLD = re.compile(r"(note: )?\S+:\d+:\d+:")
# That a function has no proof only since one that it calls has none, is not its own refusal.
REFUSED = "(not proved|no proof(?!: it calls))"


def prover(crate, kind, below):
    """The call that checks a crate over the libraries that stand beside the crates."""
    kit = pathlib.Path(subprocess.run(["rt", "doc"], capture_output=True, text=True, check=True).stdout.strip()).parent
    library = lambda name: CRATES / name / f"out/rlib/{name}.rlib" if (CRATES / name).is_dir() else kit / f"rlibs/{name}.rlib"
    root = next(it for it in ("src/lib.rt", "src/main.rt") if (CRATES / crate / it).is_file())
    words = ["--crate-name", crate, *(["--crate-type", "staticlib"] if "staticlib" in kind else []), root]
    words += [it for name in ["std", *below] for it in ("--extern", f"{name}={library(name)}")]
    words += [it for folder in [kit / "rlibs", *CRATES.glob("*/out/rlib")] for it in ("-L", f"dependency={folder}")]
    return [kit / "bin/rattle", "check", *words, "--antt-project", kit / "rattle/logic/antt-project.json", "--logic-built", kit / "logic_built"]


def checked(edits, crate, words):
    """The status of a check of a crate with these edits, and the lines that it says."""
    with tempfile.TemporaryDirectory() as room:
        room = pathlib.Path(room, crate)
        shutil.copytree(CRATES / crate, room, ignore=shutil.ignore_patterns("out"))
        for path, old, new in (it for edit in edits for it in changes(edit)):
            text = (room / path).read_text(encoding="utf-8")
            (room / path).write_text(text.replace(old, new), encoding="utf-8")
        asked = [it for edit in edits for it in ("--only", refusing(edit))]
        ran = subprocess.run([*words, *asked], cwd=room, capture_output=True, text=True)
    return ran.returncode, (ran.stdout + ran.stderr).splitlines()


def fault(edit, status, said):
    """What is wrong with what a check of an edit came to, if anything is."""
    function = refusing(edit)
    if status == 0:
        return f"NOT REFUSED: {function} is still proved with it"
    if status != 1 or not said or not said[-1].startswith("only="):
        return "\n".join([f"NOT TRIED: the check ended with status {status}", *said[-6:]])
    if not any(re.match(rf"fn (\S+::)?{re.escape(function)}: {REFUSED}", it) for it in said):
        return f"NOT REFUSED: {function} is not what was refused"
    told = [it for it in said if TOLD.match(it)]
    return "refused only because of a lost name" if told and all(map(LOST_NAME.match, told)) else ""


def is_refused_among_others(edit, status, said):
    """Whether a check of several edits shows that this one is refused, and that no name was lost."""
    return not fault(edit, status, said) and not any(map(LOST_NAME.match, said))


def faults(crate, kind, below, edits):
    """Each of these edits of a crate, with what is wrong with what its check came to, if anything is. What a check of several does not show of one
    is shown by a check of it alone."""
    words = prover(crate, kind, below)
    known = [edit for edit in edits if kept.file_of(edit, crate).exists()]
    yield from ((edit, "") for edit in known)
    with tempfile.TemporaryDirectory() as proved:
        words += ["--incremental", proved]
        for group in groups([edit for edit in edits if edit not in known]):
            came = checked(group, crate, words)
            for edit in group:
                is_shown = len(group) == 1 or is_refused_among_others(edit, *came)
                why = fault(edit, *(came if is_shown else checked([edit], crate, words)))
                if not why:
                    kept.keep(kept.file_of(edit, crate))
                yield edit, why
