"""Which edits of a crate can be checked at once: those that change nothing but the function that must refuse them, each another proof."""
import re

from edits import CRATES, changes, refusing

ITEM = re.compile(r"^ *(?:pub(?:\(crate\))? )?(?:const |extern \"C\" )*(?P<kind>fn|const|static|struct|enum|impl|trait|type)\b *(?P<name>\w*)", re.MULTILINE)
CYCLE = re.compile(r"#\[cycle\((\w+)\)\]\n(?: *(?:#\[|//).*\n)*\Z")


def proof_of(edit):
    """What proves the function that must refuse an edit: its cycle of calls, or itself. Nothing where the edit changes more than that function."""
    function = refusing(edit).rpartition("::")[2]
    found = set()
    for path, old, _ in changes(edit):
        text = (CRATES / edit.parent.name / path).read_text(encoding="utf-8")
        *_, item = [None, *ITEM.finditer(text, 0, text.index(old))]
        if item is None or (item["kind"], item["name"]) != ("fn", function):
            return None
        cycle = CYCLE.search(text, 0, item.start())
        found.add((path, cycle[1] if cycle else refusing(edit)))
    return found.pop() if len(found) == 1 else None


def groups(edits):
    """The edits in groups, each of which is checked at once."""
    alone, several = [], []
    for edit in edits:
        proof = proof_of(edit)
        if proof is None:
            alone.append([edit])
            continue
        room = next((it for it in several if proof not in it), None)
        if room is None:
            several.append(room := {})
        room[proof] = edit
    return [*(list(it.values()) for it in several), *alone]
