"""The edits of code that the prover must refuse: where they stand, and what they say."""
import pathlib
import sys

KEPT = pathlib.Path(__file__).resolve().parent
sys.path.insert(0, str(KEPT.parent))
import source

CRATES = source.ROOT / "crates"


def edits(crate="*", name="*"):
    """The edits of a crate, those of a name, or all."""
    return sorted(KEPT.glob(f"{crate}/{name}.edit"))


def name_of(edit):
    return f"{edit.parent.name}/{edit.stem}"


def lines(edit):
    """The word of each line of an edit, and what it says."""
    for line in edit.read_text(encoding="utf-8").splitlines():
        word, _, text = line.partition(":")
        yield word, text.removeprefix(" ")


def changes(edit):
    """The changes of an edit, each a file's path, the text that goes and the one that comes."""
    path, old = "", ""
    for word, text in lines(edit):
        if word == "file":
            path = text
        elif word == "old":
            old = text
        elif word == "new":
            yield path, old, text


def refusing(edit):
    """The function that must refuse an edit."""
    return dict(lines(edit)).get("only", "")


def is_of_gate(edit):
    return dict(lines(edit)).get("gate") == "yes"
