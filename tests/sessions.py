"""Sessions of a shell in a document: calls behind `$ `, and under each what it prints. The program of a session stands before it, in a block
of its own, under a line that ends with the name of its file."""
import os
import re
import subprocess

import calling
import source

PART = re.compile(r"`(?P<file>\w+\.gcl)`:\n\n```gcl\n(?P<program>.*?)^```$|^```\n(?P<session>\$ .*?)^```$", re.DOTALL | re.MULTILINE)


def parts(document):
    """The programs and the sessions of a document in their order: the name of the file and its text, or None and the lines."""
    text = (source.ROOT / document).read_text(encoding="utf-8")
    return [(it["file"], it["program"] or it["session"]) for it in PART.finditer(text)]


def calls(session):
    return "".join(f"{line.removeprefix('$ ')}\n" for line in session.splitlines() if line.startswith("$ "))


def filled(text):
    """Its lines but those that are empty: in a document these keep calls apart."""
    return "".join(f"{line}\n" for line in text.splitlines() if line)


def printed(session):
    """What stands under the calls."""
    return "".join(f"{line}\n" for line in filled(session).splitlines() if not line.startswith("$ "))


def said(script, folder, env):
    """What the calls print in a folder, on either output, without empty lines."""
    words = ["bash", "-c", script]
    streams = {"stdin": subprocess.DEVNULL, "stdout": subprocess.PIPE, "stderr": subprocess.STDOUT}
    return filled(subprocess.run(words, cwd=folder, env={**os.environ, **env}, text=True, timeout=calling.SECONDS, check=False, **streams).stdout)
