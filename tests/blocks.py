"""The blocks of code in a document of docs/, and what they print. A block is a file where the line before it ends with its name."""
import os
import re
import subprocess

import source

TOOLS = source.ROOT / "tools"
BLOCK = re.compile(r"(?:`(?P<file>\w+\.\w+)`:\n\n)?^```(?P<language>\w*)\n(?P<text>.*?)^```$", re.DOTALL | re.MULTILINE)


def section(document, heading=""):
    """A document, or what stands in it below a heading."""
    text = (source.ROOT / "docs" / document).read_text(encoding="utf-8")
    return re.search(rf"^#+ {re.escape(heading)}\n(.*?)(?=^#+ |\Z)", text, re.DOTALL | re.MULTILINE)[1] if heading else text


def calls(text, language="sh"):
    """The blocks in a language that are no file."""
    return [it["text"] for it in BLOCK.finditer(text) if it["language"] == language and not it["file"]]


def files(text):
    """The blocks that are files, by their names."""
    return {it["file"]: it["text"] for it in BLOCK.finditer(text) if it["file"]}


def ran(block, folder, **variables):
    """What a block prints and its status, with the tools and what is in the folder on the path."""
    path = os.pathsep.join([str(folder), str(TOOLS), variables.pop("PATH", os.environ["PATH"])])
    run = subprocess.run(["bash", "-c", block], cwd=folder, env={**os.environ, **variables, "PATH": path}, capture_output=True, timeout=300)
    return run.stdout.decode(), run.returncode


def printed(block, folder, **variables):
    return ran(block, folder, **variables)[0]
