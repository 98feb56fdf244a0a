"""Calls of the built program on a pseudo-terminal."""
import contextlib
import os
import pty
import subprocess
import threading

import calling

# What is put behind all that a call writes to a terminal, which has no such byte.
END = b"\0"


def received(terminal, breaks):
    """What comes from a terminal until its end; of one that breaks, what comes first."""
    data = b""
    while not (data if breaks else data.endswith(END)):
        data += os.read(terminal, 4096)
    os.close(terminal)
    return data.removesuffix(END).decode()


def end(run, side):
    """Puts the end behind what a call has written when it is over: a terminal whose other side nobody holds may lose what was written last."""
    run.wait()
    with contextlib.suppress(OSError):  # it broke
        os.write(side, END)
    os.close(side)


def on_terminal(zar, words, out=None, breaks=False, folder=None, given=None, kind="xterm"):
    """What the terminal got that is the standard error, and the standard output too where no file is given; and the status. Of the file
    this run's bytes are left alone. Each write to a terminal that breaks fails after its first line."""
    terminal, side = pty.openpty()
    if out:
        out.seek(0)
        out.truncate()
    env = {**os.environ, "TERM": kind}
    with subprocess.Popen([zar, *words], cwd=folder, env=env, stdin=given or subprocess.DEVNULL, stdout=out or side, stderr=side) as run:
        threading.Thread(target=end, args=(run, side)).start()
        return received(terminal, breaks), run.wait(timeout=calling.SECONDS)
