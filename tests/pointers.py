"""What a document points to: files, and headings in them."""
import re

LINK = re.compile(r"\]\(([^)#:]*)(?:#([\w-]*))?\)")
HEADING = re.compile(r"^#+ (.*)", re.MULTILINE)


def names(document):
    """The headings of a document, as links name them."""
    return [re.sub(r"[^\w-]", "", it.lower().replace(" ", "-")) for it in HEADING.findall(document.read_text(encoding="utf-8"))]


def links(document):
    """Each link of a document that names no site, and whether it leads somewhere."""
    for link, heading in LINK.findall(document.read_text(encoding="utf-8")):
        file = document.parent / link if link else document
        yield f"{link}#{heading}" if heading else link, file.exists() and (not heading or heading in names(file))
