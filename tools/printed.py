"""The reader of what `zar` prints, which is that of the Python package."""
import pathlib
import sys

# The package stands beside the tools in a checkout, and where it is installed below the folder of share/doc/zar/tools.
TOP = pathlib.Path(__file__).resolve().parent.parent
sys.path[:0] = [str(it) for it in (TOP / "python", *(it / "lib/python3/dist-packages" for it in TOP.parents[2:3])) if (it / "zar").is_dir()]
from zar.printed import Bounds, Limit, Rest, bits, bounds, order, quoted, row, rows, words
