"""Calls of `zar` over one text, and what they answer."""
import re
import subprocess
import tempfile
import typing

import printed

PLACE = re.compile(r"  /dev/stdin(, line \d+, column \d+)")
# Where more is said of a refusal.
MORE = "  'zar help "
# What is refused so may be told by another command: by `exact`, whose fractions may be narrower, or by `enclose`, which rounds.
OTHERWISE = re.compile("error E1[347] ")


class Silent(Exception):
    """A call without an answer, with its reason."""


class Refused(Silent):
    """Calls of which each is refused for its numbers or states, with their reasons."""


class Told(typing.NamedTuple):
    """What the first of some calls that is not refused prints, and what is said of those that are refused before it."""

    call: tuple
    text: str
    refused: str

    def bounds(self):
        """Between which two fractions each mass lies."""
        if self.call[0] in ("mass", "exact"):
            return {it: printed.Bounds(mass, mass) for it, mass in printed.rows(self.text, "mass").items()}
        return printed.bounds(self.text)


class Caller:
    """The program `zar` over one text, which it reads from its standard input. That is a file, so that it can be read once more for a hint."""

    def __init__(self, zar, name, text):
        self.zar, self.name, self.text, self.kept = zar, name, text, {}

    def begin(self):
        """Another part of a page begins."""

    def run(self, words, text):
        """The run of these words on the text, which has ended."""
        return subprocess.run(words, stdin=text, capture_output=True, check=False)

    def said(self, *call):
        """What a command with its options prints. One that fails is Silent."""
        if call not in self.kept:
            with tempfile.TemporaryFile() as text:
                text.write(self.text)
                text.flush()
                run = self.run([self.zar, call[0], "/dev/stdin", *call[1:], "--explain"], text)
            if run.returncode:
                raise Silent(self.refusal(run.stderr.decode()) or f"it ended with status {run.returncode}")
            self.kept[call] = run.stdout.decode()
        return self.kept[call]

    def told(self, *calls):
        """What the first of these calls that is not refused for its numbers or states tells; Refused where all are."""
        refused = []
        for call in calls:
            try:
                return Told(call, self.said(*call), " ".join(refused))
            except Silent as why:
                if not OTHERWISE.match(str(why)):
                    raise
                refused.append(f"{self.typed(*call)} is refused: {str(why).splitlines()[0]}.")
        raise Refused(" ".join(refused))

    def refusal(self, told):
        """What is said of a refusal of this text."""
        lines = [it for it in told.splitlines() if not it.startswith(MORE)]
        return "\n".join(PLACE.sub(lambda place: f"  {self.name}{place[1]}", it) for it in lines)

    def typed(self, command, *options):
        """The call as one types it."""
        return " ".join(["zar", command, self.name, *options])
