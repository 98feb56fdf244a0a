"""Exact sampling of cpGCL programs, proved correct, over the library `libzar`.

    >>> import zar
    >>> die = zar.Program("face ~ uniform(6); observe face % 2 = 1; return face + 1;")
    >>> die.mass()
    {2: Fraction(1, 3), 4: Fraction(1, 3), 6: Fraction(1, 3)}
    >>> die.mass().mean()
    Fraction(4, 1)
    >>> die.tally(1000, seed=1)[4]
    326
    >>> die.draws(5, seed=1)
    array('q', [4, 2, 4, 2, 6])

An outcome is a number, or for a run without a value a Fault, a Limit or Rest.MORE_BITS. Probabilities are fractions.Fraction, and
exact. A refused text is Refused, with its line and its column.
"""
from .dice import Die
from .library import lines as _lines
from .masses import Masses
from .printed import Bounds, Fault, Limit, Outcome, Rest
from .programs import Program
from .refusals import NoValue, Refused
from .samples import Sample
from .streams import Draws, Ends, Row, Runs

__all__ = ["Bounds", "Die", "Draws", "Ends", "Fault", "Limit", "Masses", "NoValue", "Outcome", "Program", "Refused", "Rest", "Row", "Runs", "Sample", "version"]


def version() -> str:
    """The version of the library."""
    return _lines("zar_version").split()[1]
