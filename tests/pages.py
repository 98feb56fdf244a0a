"""What is tried of tools/report and tools/serve: that a page is well formed and shows what the commands print, also in a browser; and that
no other site is answered, no call takes longer or more memory than it may, and none goes on that nobody waits for."""
import contextlib
import html.parser
import http.client
import os
import pathlib
import re
import resource
import shutil
import socket
import subprocess
import tempfile
import time
import urllib.parse
from fractions import Fraction

import browser
import calling
import png
import source

TOOLS = source.ROOT / "tools"
EXAMPLES = source.ROOT / "examples"
# Without an end of their own.
VOID = {"meta", "br", "path"}
LIGHT, DARK = (0xA9, 0xC6, 0xE8), (0x2F, 0x55, 0x83)
# What a browser tells of another site, and numbers that no page is made for.
FOREIGN = [("Host", "example.org"), ("Host", "example.org:80"), ("Origin", "http://example.org"), ("Origin", "null"),
           ("Sec-Fetch-Site", "cross-site"), ("Sec-Fetch-Site", "same-site")]
WRONG = [("runs", "0"), ("runs", "100001"), ("turns", "x"), ("turns", "1001"), ("seed", "-1"), ("seed", "1" * 21), ("depth", "21")]
# Some 10^5 steps a run: its masses are there at once, and 100,000 runs are not.
LONG = "c ~ uniform(2); x := 0; while x < 99 { y := 0; while y < 999 { y := y + 1; } x := x + 1; } return c;"
# Each mass has a denominator of 3^100, above 2^128.
WIDE = "choice 1537228672809129301/4611686018427387847 { x := x + 1; } or { skip; }\n" * 70 + "return x;"
MANY_STATES = "a ~ uniform(300); b ~ uniform(300); return (a + b) / 300;"


class Tags(html.parser.HTMLParser):
    """Which elements of a page are open, and what it has."""

    def __init__(self, text):
        super().__init__()
        self.open, self.names, self.styles, self.wrong, self.said = [], set(), [], False, ""
        self.feed(text)
        self.close()

    def handle_starttag(self, tag, attributes):
        self.names.add(tag)
        self.styles += [(dict(attributes).get("class"), it) for name, it in attributes if name == "style"]
        if tag not in VOID:
            self.open.append(tag)

    def handle_endtag(self, tag):
        self.wrong |= tag not in VOID and (not self.open or self.open.pop() != tag)

    def handle_startendtag(self, tag, attributes):
        self.names.add(tag)

    def handle_data(self, data):
        self.said += data

    def widths(self, kind):
        """The widths of the marks of a kind, in percent."""
        return [float(re.search(r"width:([\d.e-]+)%", style)[1]) for its, style in self.styles if its == kind]


def report(zar, *words):
    run = subprocess.run([TOOLS / "report", *words, "--zar", zar], capture_output=True, text=True, timeout=calling.SECONDS)
    return run.stdout if run.returncode == 0 else run.stderr


def said(zar, *words):
    return subprocess.run([zar, *words], capture_output=True, text=True, timeout=calling.SECONDS).stdout


def masses(zar, path, turns):
    return [Fraction(it) for it in re.findall(r" mass (\S+)", said(zar, "mass", path, "--turns", turns))]


def in_proportion(widths, shares):
    """Whether widths are as the shares, but for a hundredth of the whole, or a pixel and a half."""
    if len(widths) != len(shares):
        return False
    whole = max(widths) / max(shares)
    return all(abs(width - whole * share) <= max(1.5, whole / 100) for width, share in zip(widths, shares))


def part_of(page, title):
    """The part of a page with a title."""
    return next((part for part in page.split("<h2>") if part.startswith(f"{title}</h2>")), "")


# ---- pages


def of_page(zar, path, turns):
    """Each check of the page of a program."""
    page = report(zar, path, "--turns", turns)
    tags = Tags(page)
    yield "is well formed", not tags.wrong and tags.open == []
    yield "is one file without a script", not re.search(r"<script|<link|<img|\bsrc=|\bhref=|url\(", page)
    yield "is small", len(page) < 40_000
    yield "has a bar for each mass", in_proportion(tags.widths("mass"), masses(zar, path, turns))
    bounds = re.findall(r"from (\S+) to (\S+)", said(zar, "posterior", path, "--turns", turns))
    marks = [kind for kind, _ in Tags(part_of(page, "Bounds")).styles if kind in ("bounds", "bounds one")]
    yield "has an interval for two bounds", marks == ["bounds" if Fraction(low) < Fraction(high) else "bounds one" for low, high in bounds]
    name = path.name
    streams = f"--seed 1 --from 0 --to 1000 --turns {turns} --rounds 1000000 --budget 1000000"
    for call in (f"show {name}", f"mass {name} --turns {turns}", f"tally {name} {streams}", f"posterior {name} --turns {turns}",
                 f"audit {name} --depth 0 .. 12 --turns {turns}", f"cost {name}", f"code {name}"):
        yield f"names {call}", f"zar {call}" in tags.said
    for command in ("show", "code"):
        yield f"has what {command} prints", said(zar, command, path) in tags.said
    jumps = re.findall(r"^\d+ (?:.*goto|flip|again|loop \d+) \d+|^\d+ fail$", said(zar, "code", path), re.MULTILINE)
    yield "has an arrow for each jump", page.count("<path ") == len(jumps)


def of_refused(zar, folder):
    """Each check of pages of programs whose masses within a limit are refused, or leave much to it."""
    craps = report(zar, EXAMPLES / "craps.gcl")
    masses_of_it = Tags(part_of(craps, "Masses and counts"))
    exact = [Fraction(it) for it in re.findall(r" mass (\S+)", said(zar, "exact", EXAMPLES / "craps.gcl"))]
    yield "exact masses where mass is refused", in_proportion(masses_of_it.widths("mass"), exact)
    for what in ("zar mass craps.gcl --turns 30 is refused: error E13 fraction too wide.", "zar exact craps.gcl", "--turns 1000 ", "251/495  50.71 %  counted 5"):
        yield f"they say {what}", what in masses_of_it.said
    yield "and stand there once", part_of(craps, "Masses without a limit") == ""
    its_bounds = Tags(part_of(craps, "Bounds")).said
    yield "bounds that are enclosed", "zar posterior craps.gcl --turns 30 is refused: error E13 fraction too wide." in its_bounds and "zar enclose craps.gcl --turns 30 --all-turns" in its_bounds
    yield "bits with no limit", "With no limit a run reads 1114/45 bits on average" in Tags(part_of(craps, "Bits")).said
    geometric = Tags(part_of(report(zar, EXAMPLES / "geometric.gcl"), "Bits")).said
    for what in ("zar cost geometric.gcl is refused: error E14 too many states.", "With one attempt at each draw and one round a run reads"):
        yield f"bits under limits: {what}", what in geometric
    for name, text in (("wide.gcl", WIDE), ("states.gcl", MANY_STATES)):
        (folder / name).write_text(text, encoding="utf-8")
    wide = Tags(part_of(report(zar, folder / "wide.gcl"), "Masses and counts"))
    lower = [Fraction(it) for it in re.findall(r" from (\S+) to", said(zar, "enclose", folder / "wide.gcl", "--turns", "30"))]
    yield "masses that are enclosed", in_proportion(wide.widths("mass"), [it for it in lower if it]) and "zar enclose wide.gcl --turns 30" in wide.said
    yield "why they are", all(f"zar {call} is refused: error E13 fraction too wide." in wide.said for call in ("mass wide.gcl --turns 30", "exact wide.gcl"))
    states = part_of(report(zar, folder / "states.gcl"), "Masses and counts")
    yield "counts alone", states.count('class="share"') == 2 and 'class="mass"' not in states
    yield "why they are alone", all(f"zar {call} is refused: error E14 too many states." in states for call in ("exact states.gcl", "enclose states.gcl --turns 30"))
    few = Tags(part_of(report(zar, EXAMPLES / "geometric.gcl", "--turns", "4"), "Masses without a limit"))
    yield "bounds where a limit has much", "zar enclose geometric.gcl --turns 1000 --all-turns" in few.said and "value 4" in few.said
    yield "none where it has little", part_of(report(zar, EXAMPLES / "geometric.gcl"), "Masses without a limit") == ""


def of_report(zar, folder):
    for name, turns in (("even_die.gcl", "30"), ("geometric.gcl", "4"), ("alarm.gcl", "30")):
        for what, holds in of_page(zar, EXAMPLES / name, turns):
            yield f"the page of {name} {what}", holds
    depths = report(zar, EXAMPLES / "coin.gcl", "--depth", "2")
    yield "a coin is decided by its first bit", re.findall(r'<b style="height:(\d+)%">', depths) == ["0", "100", "100"]
    gambler, game = EXAMPLES / "gambler.gcl", Tags(report(zar, EXAMPLES / "gambler.gcl"))
    exact = [Fraction(it) for it in re.findall(r" mass (\S+)", said(zar, "exact", gambler))]
    yield "masses without a limit", in_proportion(game.widths("mass settled"), exact) and "zar exact gambler.gcl" in game.said
    yield "none where a limit cuts nothing off", "mass settled" not in depths
    yield from of_refused(zar, folder)
    (folder / "wrong.gcl").write_text("x := 1;\nreturn y;", encoding="utf-8")
    excerpt = "report: error E8 unknown name at 8\n  wrong.gcl, line 2, column 8\n    return y;\n           ^\n  'y' is never set\n"
    yield "a text that is refused", report(zar, folder / "wrong.gcl") == excerpt
    (folder / "long.gcl").write_text("x := 0" + " + 1" * 10_000 + " + & + 1;", encoding="utf-8")
    around = "error E2 bad byte at 40009\n  long.gcl, line 1, column 40010\n    " + "+ 1 " * 12 + "+ & + 1;\n    " + " " * 50 + "^\n"
    yield "a long line is cut", report(zar, folder / "long.gcl") == f"report: {around}  'and' joins two truths\n"
    (folder / "never.gcl").write_text("observe false; return 1;", encoding="utf-8")
    yield "masses that are refused", "<pre>error E15 every round fails\n  no run passes the observations, and nothing limits the rounds</pre>" in report(zar, folder / "never.gcl")
    yield "no file", report(zar, folder / "none") == f"report: there is no {folder / 'none'}\n"
    yield "a number out of range", report(zar, EXAMPLES / "coin.gcl", "--runs", "0").startswith("report: each number lies between")


# ---- the server


@contextlib.contextmanager
def serving(zar, said=None):
    """The address of a server, and its process. What it says on its error output goes to a file, where one is given."""
    server = subprocess.Popen([TOOLS / "serve", "--port", "0", "--zar", zar], stdout=subprocess.PIPE, stderr=said, text=True)
    try:
        address = server.stdout.readline().strip().removeprefix("http://").removesuffix("/")
        yield address, server
    finally:
        server.terminate()
        server.wait()


def asked(address, path, form=None, method=None, **heads):
    """What the server answers: its status and its page."""
    connection = http.client.HTTPConnection(address, timeout=calling.SECONDS)
    body = None if form is None else urllib.parse.urlencode(form)
    heads = {"Content-Type": "application/x-www-form-urlencoded", **{name.replace("_", "-"): it for name, it in heads.items()}}
    connection.request(method or ("GET" if form is None else "POST"), path, body, heads)
    answer = connection.getresponse()
    return answer.status, answer.read().decode()


def of_server(zar):
    with serving(zar) as (address, server):
        form = {"text": (EXAMPLES / "even_die.gcl").read_text(encoding="utf-8"), "turns": "30", "runs": "1000", "seed": "1"}
        page = report(zar, EXAMPLES / "even_die.gcl").replace("even_die.gcl", "program.gcl")
        yield "a page is that of the report", asked(address, "/page", form) == (200, page)
        typed = {**form, "text": form["text"].replace("\n", "\r\n")}
        yield "so it is with line ends of a browser", asked(address, "/page", typed) == (200, page)
        yield "the form", asked(address, "/")[0] == 200 and "<textarea" in asked(address, "/")[1]
        yield "its head alone", asked(address, "/", method="HEAD") == (200, "")
        yield "no other page", asked(address, "/page")[0] == asked(address, "/", form)[0] == asked(address, "/pages", form)[0] == 404
        for name, it in FOREIGN:
            answers = asked(address, "/page", form, **{name: it}), asked(address, "/", **{name: it})
            yield f"nothing for {name} {it}", [status for status, _ in answers] == [403, 403]
        refused = asked(address, "/page", {**form, "text": "return y;"})[1]
        yield "a text that is refused", "error E8 unknown name at 0\n  program.gcl, line 1, column 8\n    return y;\n           ^\n  &#x27;y&#x27; is never set<" in refused
        for name, it in WRONG:
            yield f"{name} {it} is refused", asked(address, "/page", {**form, name: it})[0] == 400
        yield "a form that is too long", asked(address, "/page", {}, Content_Length="300000")[0] == 413
        yield "no length", asked(address, "/page", {}, Content_Length="x")[0] == 413
        begun = time.monotonic()
        status, page = asked(address, "/page", LONG_FORM)
        yield "three seconds are all", status == 200 and time.monotonic() - begun < 15
        late = [title for title in ("Masses and counts", "Bounds", "Code") if "no answer within 3 seconds" in part_of(page, title)]
        yield "but for what is late a page is whole", late == ["Masses and counts"] and "a run reads 1 bits on average" in part_of(page, "Bits")
        yield "as is a GiB", resource.prlimit(server.pid, resource.RLIMIT_AS) == (2**30, 2**30)
        port = address.partition(":")[2]
        for taken, why in ((port, "Address already in use"), ("99999", "port must be 0-65535.")):
            run = subprocess.run([TOOLS / "serve", "--port", taken, "--zar", zar], capture_output=True, text=True, timeout=calling.SECONDS)
            yield f"no server at {why}", run.returncode == 1 and run.stderr.startswith(f"serve: port {taken}: ") and run.stderr.endswith(f"{why}\n")


LONG_FORM = {"text": LONG, "turns": "1000", "runs": "100000", "seed": "1"}


def tallies(server):
    """The processes that work on a tally for a server."""
    found = []
    for process in pathlib.Path("/proc").glob("[0-9]*"):
        with contextlib.suppress(OSError):
            parent = int(process.joinpath("stat").read_text().rpartition(")")[2].split()[1])
            if parent == server.pid and process.joinpath("cmdline").read_bytes().split(b"\0")[1:2] == [b"tally"]:
                found.append(int(process.name))
    return found


def until(holds, seconds=10):
    """Whether something comes true within so many seconds."""
    end = time.monotonic() + seconds
    while not (it := holds()) and time.monotonic() < end:
        time.sleep(0.02)
    return it


def is_over(process):
    """Whether a process has ended, or waits to be buried."""
    try:
        return pathlib.Path(f"/proc/{process}/stat").read_text().rpartition(")")[2].split()[0] == "Z"
    except OSError:
        return True


def begun(address, form):
    """A connection over which a page is asked for, whose answer nobody has read."""
    body = urllib.parse.urlencode(form).encode()
    host, port = address.split(":")
    connection = socket.create_connection((host, int(port)))
    connection.sendall(f"POST /page HTTP/1.0\r\nHost: {address}\r\nContent-Length: {len(body)}\r\n\r\n".encode() + body)
    return connection


def of_calls(zar):
    """Each check of how the calls of a server end."""
    with serving(zar) as (address, server):
        connection = begun(address, LONG_FORM)
        (call,) = until(lambda: tallies(server)) or [0]
        seconds, _ = resource.prlimit(call, resource.RLIMIT_CPU)
        yield "a call has its time from the system, too", seconds == 4 * os.cpu_count()
        connection.close()
        yield "a call ends with its client", until(lambda: is_over(call), 1)
        connections = [begun(address, LONG_FORM) for _ in range(8)]
        until(lambda: tallies(server))
        for connection in connections:
            connection.close()
        yield "pages that nobody waits for make nobody wait", asked(address, "/page", {**LONG_FORM, "text": "return 7;"})[0] == 200
    for name, end in (("ended", subprocess.Popen.terminate), ("killed", subprocess.Popen.kill)):
        with serving(zar) as (address, server):
            connection = begun(address, LONG_FORM)
            (call,) = until(lambda: tallies(server)) or [0]
            end(server)
            yield f"a call ends with a server that is {name}", call != 0 and until(lambda: is_over(call), 1)
            connection.close()


def of_clients(zar):
    """Each check of clients that are slow or go away."""
    with tempfile.TemporaryFile() as said, serving(zar, said) as (address, _):
        host, port = address.split(":")
        slow = []
        for _ in range(400):
            with contextlib.suppress(OSError):
                slow.append(socket.create_connection((host, int(port)), timeout=1))
        for connection in slow:
            with contextlib.suppress(OSError):
                connection.sendall(b"G")
                connection.close()
        yield "the form, after clients that went away", until(lambda: asked(address, "/")[0] == 200)
        said.seek(0)
        lines = said.read().decode().splitlines()
        yield "a sentence for each call that is given up", all(it.startswith("serve: a call was given up: ") for it in lines)


# ---- in a browser


def bars(window):
    """The widths of the bars of the masses, as they are to be seen."""
    return png.bars(png.read(window.picture()), DARK if window.value("matchMedia('(prefers-color-scheme: dark)').matches") else LIGHT)


def of_page_in(window, folder, zar):
    path = EXAMPLES / "walk.gcl"
    shares = masses(zar, path, "30")
    (folder / "walk.html").write_text(report(zar, path), encoding="utf-8")
    for width, colours in ((1000, "light"), (390, "light"), (1000, "dark"), (390, "dark")):
        opened = window.show((folder / "walk.html").as_uri(), width, 900, colours)
        yield f"the page, {width} wide, {colours}", opened and in_proportion(bars(window)[:len(shares)], shares)
        yield f"the page, {width} wide, has nothing beside it", window.value("document.documentElement.scrollWidth") == width


def of_form_in(window, address):
    shown = "document.querySelector('iframe').srcdoc.includes"
    for width, height in ((1100, 900), (390, 1200)):
        yield f"the form, {width} wide", window.show(f"http://{address}/", width, height) and window.until(f"{shown}('1/3  33.33')")
        drawn = window.until("frame.contentDocument.querySelector('.mass')")
        yield f"its page, {width} wide", drawn and in_proportion(bars(window)[:3], [Fraction(1, 3)] * 3)
        window.value("document.querySelector('textarea').select()")
        window.type("c ~ uniform(4); return c / 3;")
        yield "the page of what is typed", window.until(f"{shown}('3/4  75.00')") and window.value(f"!{shown}('1/3')")
        window.type(" x")
        yield "a refusal of what is typed", window.until(f"{shown}('error E5 unexpected at 30')")


def of_link_in(window, address):
    """Each check of examples, of links to a program, and of the colours of the form."""
    shown = "document.querySelector('iframe').srcdoc.includes"
    window.show(f"http://{address}/", 1100, 900)
    window.value("examples.selectedIndex = [...examples.options].findIndex(it => it.label.startsWith('walk.gcl: '))")
    window.value("examples.dispatchEvent(new Event('input', { bubbles: true }))")
    yield "an example", window.until(f"{shown}('zar show program.gcl') && {shown}('value 4')")
    yield "its text in the form", window.value("form.elements.text.value") == (EXAMPLES / "walk.gcl").read_text(encoding="utf-8")
    window.value("form.elements.turns.value = '7'; form.elements.text.value = '# 1 + 1\\nc ~ uniform(7); return c;'; show()")
    window.until(f"{shown}('1/7  14.29')")
    link = window.value("link.href")
    yield "the address is the link", link == window.value("location.href") and link.startswith(f"http://{address}/#text=")
    window.show("about:blank", 1100, 900)
    window.show(link, 1100, 900)
    yield "a link to a program", window.until(f"{shown}('1/7  14.29')") and window.value("form.elements.text.value") == "# 1 + 1\nc ~ uniform(7); return c;"
    yield "with its numbers", window.value("form.elements.turns.value") == "7"
    for colours, paper in (("light", "rgb(255, 255, 255)"), ("dark", "rgb(13, 17, 23)")):
        window.show("about:blank", 1100, 900)
        window.show(f"http://{address}/", 1100, 900, colours)
        window.until("frame.contentDocument.querySelector('.mass')")
        papers = [window.value(f"getComputedStyle({it}).backgroundColor") for it in ("document.body", "frame.contentDocument.body", "form.elements.text")]
        yield f"the form as {colours} as the page", papers == [paper] * 3


def of_browser(zar, folder):
    if not shutil.which("chromium"):
        print("chromium is missing: no page was looked at in a browser")
        return
    with browser.Browser() as window, serving(zar) as (address, _):
        yield from of_page_in(window, folder, zar)
        yield from of_form_in(window, address)
        yield from of_link_in(window, address)


def checks(zar, folder):
    """Each check of the pages: its name, and whether it holds."""
    folder = pathlib.Path(folder)
    yield from of_report(zar, folder)
    yield from of_server(zar)
    yield from of_calls(zar)
    yield from of_clients(zar)
    yield from of_browser(zar, folder)
