"""The definitions in the files of specs/, read from their text as it is laid out: on which lines each stands, and what it cites."""
import dataclasses
import functools
import re

import source

NO_DEFINITION = re.compile(r"\s*($|--|(pub )?use |pub mod )")
USE = re.compile(r"^\s*(?:ghost )?(?:pub )?use (?P<module>Rattle(?:\.\w+)+)(?:\.\{(?P<names>[^}]*)\})?(?: as (?P<alias>\w+))?;?$", re.MULTILINE)
# What several definitions stand in: its line belongs to each.
BLOCK = re.compile(r" *(?:(?:abbrev|unfoldable) )?(?:mutual|module _ .* where)$")
FIXITY = re.compile(r" *infix[lr]? \d+ ")
HEAD = re.compile(r" *(?:(?:abbrev|unfoldable) )?(?:pub )?(?P<kind>record |data )?(?P<name>[^\s(){}:]+)(?: [({].*)? : ")
FIELD = re.compile(r"^( +(?:pub )?)(\S+) : ", re.MULTILINE)
COMMENT = re.compile(r"--.*")
# A name, with what stands before its dot, where it has one: an alias of a module, or what a field is of.
NAME = re.compile(r"(?:(?P<before>[^\s(){}\[\],;.]*)\.)?(?P<name>[^\s(){}\[\],;.]+)")


@dataclasses.dataclass(frozen=True)
class Definition:
    """Where it stands, its name, and the numbers of its lines, with those of the blocks that it stands in."""

    module: str
    name: str
    kind: str
    lines: tuple

    def text(self):
        return "\n".join(COMMENT.sub("", lines(self.module)[number]) for number in self.lines)


@functools.cache
def modules():
    """The files of specs/ by the names that imports have for them."""
    found = {}
    for file in (source.ROOT / "crates").glob("*/specs/**/*.antt"):
        found[".".join(["Rattle", *file.relative_to(source.ROOT / "crates").with_suffix("").parts])] = file
    return found


@functools.cache
def lines(module):
    return modules()[module].read_text(encoding="utf-8").splitlines()


@functools.cache
def definitions(module):
    """The definitions of a file by their names, in their order."""
    found, blocks, ahead, last = {}, [], [], None
    for number, line in enumerate(lines(module)):
        if NO_DEFINITION.match(line):
            continue
        indent = len(line) - len(line.lstrip())
        blocks = [it for it in blocks if it[0] < indent]
        head = HEAD.match(line) if indent == (blocks[-1][0] + 2 if blocks else 0) else None
        if BLOCK.match(line):
            blocks.append((indent, number))
        elif FIXITY.match(line):
            ahead.append(number)
        elif head and line.split()[0] != last:
            last = head["name"]
            found[last] = ((head["kind"] or "").strip(), [*(it for _, it in blocks), *ahead, number])
            ahead = []
        else:
            found[last][1].append(number)
    return {name: Definition(module, name, kind, tuple(numbers)) for name, (kind, numbers) in found.items()}


@functools.cache
def owners(module):
    """Each name that a file defines, constructors too, with the definition that it belongs to."""
    found = {}
    for definition in definitions(module).values():
        found[definition.name] = definition
        if definition.kind == "data":
            found |= {name: definition for _, name in FIELD.findall(definition.text())}
    return found


def words(name):
    """How a name is written where it is used: one with places for operands by what stands between these."""
    return [it for it in name.split("◌") if it]


def imports(text):
    """The names that a text imports, each word of one with its module and itself; and its aliases of modules."""
    names, aliases = {}, {}
    for it in USE.finditer(text):
        if it["names"] is None:
            aliases[it["alias"] or it["module"].split(".")[-1]] = it["module"]
        for told in (it["names"] or "").split(","):
            if told.strip():
                name, *new = told.strip().split(" as ")
                for word in words(new[0] if new else name):
                    names.setdefault(word, set()).add((it["module"], name))
    return names, aliases


@functools.cache
def scope(module):
    """What the words of a file stand for: what it imports, and what it defines."""
    names, aliases = imports("\n".join(lines(module)))
    for name in owners(module):
        for word in words(name):
            names.setdefault(word, set()).add((module, name))
    return names, aliases


def used(text, names, aliases):
    """What a text uses of these, each as a module and a name."""
    found = set()
    for it in NAME.finditer(text):
        if it["before"] in aliases:
            found.add((aliases[it["before"]], it["name"]))
        else:
            found |= names.get(it["name"] if it["before"] is None else it["before"], set())
    return found


@functools.cache
def cited(definition):
    """What a definition cites, each as a module and a name."""
    text = FIELD.sub(r"\1", definition.text()) if definition.kind else definition.text()
    return used(text, *scope(definition.module))


def imported_by_code(file):
    """What the ghost lines of a file of the code import, each as a module and a name."""
    text = file.read_text(encoding="utf-8")
    names, aliases = imports(text)
    return set().union(*names.values()) | used(text, {}, aliases)


def reached(roots, but=None):
    """The definitions among what is named, those that these cite, and so on, but for those of one file."""
    found, waiting = set(), set(roots)
    while waiting:
        module, name = waiting.pop()
        definition = owners(module).get(name) if module in modules() and module != but else None
        if definition and definition not in found:
            found.add(definition)
            waiting |= cited(definition)
    return found


def count(these):
    """How many lines some definitions have."""
    return len({(it.module, number) for it in these for number in it.lines})
