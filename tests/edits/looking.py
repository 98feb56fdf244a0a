"""What can be seen of an edit without the prover."""
import functools

from edits import CRATES, changes, lines, refusing, source

WORDS = {"file", "old", "new", "only", "gate"}


@functools.cache
def functions(crate):
    """The functions of a crate, each by its module, its type with its trait, and its name, as the prover writes them where the trait takes no
    types, or a plain one."""
    found = []
    for file in source.files(crate):
        module = [] if file.stem in ("lib", "main") else file.relative_to(CRATES / crate / "src").with_suffix("").parts
        for of_type, of_trait, it in source.functions(file.read_text(encoding="utf-8")):
            found.append("::".join(filter(None, [*module, of_type + of_trait, it["name"]])))
    return found


def fault(edit):
    """What is wrong with an edit, if anything is."""
    crate, found, function = edit.parent.name, list(changes(edit)), refusing(edit)
    if not found:
        return "it changes nothing"
    for word, text in lines(edit):
        if word not in WORDS or word == "gate" and text != "yes":
            return f"no line begins with `{word}: {text}`"
    for path, old, new in found:
        file = CRATES / crate / path
        if not file.is_file():
            return f"there is no file {path}"
        times = file.read_text(encoding="utf-8").count(old)
        if times != 1:
            return f"`{old.strip()}` stands in {path} {times} times"
        if old == new:
            return "its two texts are the same"
    meant = [it for it in functions(crate) if f"::{it}".endswith(f"::{function}")]
    return "" if len(meant) == 1 else f"`{function}` names {len(meant)} functions of {crate}: {', '.join(meant)}" if function else "it names no function"
