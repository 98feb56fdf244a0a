"""How a prompt and a notebook show what the package has."""
from __future__ import annotations

import html
import itertools
import reprlib
import typing
from fractions import Fraction

from .printed import Outcome, words

# So many rows of a table are shown.
ROWS = 50
SHORT = reprlib.Repr()
SHORT.maxstring, SHORT.maxlist = 80, 8


def short(it: object) -> str:
    """The representation of a text or a list, cut where it is long."""
    return SHORT.repr(it)


def text(it: str) -> str:
    """A text in HTML."""
    return f"<pre>{html.escape(it)}</pre>"


def table(masses: typing.Mapping[Outcome, Fraction]) -> str:
    """The first outcomes in HTML, each with its probability: exactly, rounded, and as a bar."""
    first = itertools.islice(masses.items(), ROWS)
    rows = "".join(
        f"<tr><td>{words(it)}</td><td>{mass}</td><td>{float(mass):.6g}</td><td><meter value='{float(mass)}'></meter></td></tr>" for it, mass in first
    )
    rest = f"<p>and {len(masses) - ROWS} more</p>" if len(masses) > ROWS else ""
    return f"<table><tr><th>outcome</th><th>mass</th><th></th><th></th></tr>{rows}</table>{rest}"
