"""What the crates of the repository offer to each other, read from their sources as `rt fmt` lays them out."""
import pathlib
import re

ROOT = pathlib.Path(__file__).resolve().parent.parent

USE = re.compile(r"^pub use ([\w:]+)::(?:\{([^}]*)\}|(\w+));", re.MULTILINE)
PUBLIC_MODULE = re.compile(r"^pub mod (\w+);", re.MULTILINE)
# A function with what stands before its body.
FUNCTION = re.compile(r"^ *(?P<pub>pub )?(?:pub\(crate\) )?(?:const |extern \"C\" )?fn (?P<name>\w+)\b(?P<head>(?:(?!\bfn \w).)*?)(?:^ *\{|\{\}?$|;$)", re.DOTALL | re.MULTILINE)
CLAUSE = re.compile(r"^\s*ensures(?: (\w+))? \{", re.MULTILINE)
# A brace, or a text in quotes, which may hold some.
BRACE = re.compile(r'"(?:\\.|[^"\\])*"|[{}]')
BLOCK = re.compile(r"^(?P<head>(?:pub )?(?:impl|trait)\b[^{]*)\{\n(?P<body>.*?)^\}", re.DOTALL | re.MULTILINE)
IMPL = re.compile(r"^impl(?:<.*?>)? (?:(?P<trait>\w+)(?:<(?:(?P<of>\w+)|.*)>)? for )?(?P<type>\w+)", re.DOTALL)
TRAIT = re.compile(r"^(?:pub )?trait (?P<trait>\w+)")


def layers():
    """Each crate, lowest first: its floor, its name, its kind if it has one, and what it stands on."""
    floor = None
    for line in (ROOT / "crates.txt").read_text(encoding="utf-8").splitlines():
        if line.startswith("# "):
            floor = line[2:]
        elif line:
            name, _, below = line.partition(":")
            crate, *kind = name.split()
            yield floor, crate, kind, below.split()


def crates():
    return [crate for _, crate, _, _ in layers()]


def files(crate):
    return sorted((ROOT / "crates" / crate / "src").rglob("*.rt"))


def module(crate, path):
    """The text of a module, by its path from the root."""
    base = ROOT / "crates" / crate / "src" / pathlib.Path(*path)
    found = [it for it in (base.with_suffix(".rt"), base / "mod.rt") if it.is_file()]
    return found[0].read_text(encoding="utf-8") if found else ""


def items(crate, path, text):
    """The names that a public module gives: its own public items, and those that it uses from others."""
    names = set(re.findall(r"^pub (?:const )?(?:fn|struct|enum|trait|type|const) (\w+)", text, re.MULTILINE))
    for _, several, one in USE.findall(text):
        names |= {one} if one else set(re.findall(r"\w+", several))
    for inner in PUBLIC_MODULE.findall(text):
        names |= items(crate, [*path, inner], module(crate, [*path, inner]))
    return names


def exported(crate):
    root = ROOT / "crates" / crate / "src" / "lib.rt"
    return items(crate, [], root.read_text(encoding="utf-8")) if root.is_file() else set()


def clauses(head):
    """The clauses of a function, each with its text."""
    return [(it[1] or "ensures", braced(head[it.end() :])) for it in CLAUSE.finditer(head)]


def braced(text):
    """What stands before the brace that closes one before the text."""
    depth = 1
    for it in BRACE.finditer(text):
        depth += {"{": 1, "}": -1}.get(it[0], 0)
        if not depth:
            return text[: it.start()].strip()
    raise ValueError(f"a clause has no end: {text}")


def functions(text):
    """The functions of a file, each with the type and the trait of its block, empty where there is none; behind the trait a plain type that it takes."""
    for block in BLOCK.finditer(text):
        of = (TRAIT.match(block["head"]) or IMPL.match(block["head"])).groupdict("")
        for it in FUNCTION.finditer(block["body"]):
            yield of.get("type", ""), of["trait"] + of.get("of", ""), it
    for it in FUNCTION.finditer(BLOCK.sub("", text)):
        yield "", "", it


def contracts(crate):
    """The clauses of what a crate exports: a function, free or of a type or trait, and a clause of it, each with its text, in the order of the files."""
    names = exported(crate)
    return {
        ("::".join(filter(None, (of_type or of_trait, it["name"]))), clause): text
        for file in files(crate)
        for of_type, of_trait, it in functions(file.read_text(encoding="utf-8"))
        if (it["pub"] or of_trait) and (of_type or of_trait or it["name"]) in names
        for clause, text in clauses(it["head"])
    }


def rows(document, columns):
    """The rows of the tables with so many columns in a document, each with the heading that it stands under; heads are left out."""
    heading = ""
    lines = (ROOT / document).read_text(encoding="utf-8").splitlines()
    for line, behind in zip(lines, [*lines[1:], ""]):
        if line.startswith("#"):
            heading = line.lstrip("# ")
        cells = [cell.strip().replace("\\|", "|") for cell in re.split(r"(?<!\\)\|", line)[1:-1]]
        if len(cells) == columns and not line.startswith("|---") and not behind.startswith("|---"):
            yield heading, cells
