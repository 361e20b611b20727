"""Reads the items of a file of Rattle: their doc texts, and their texts without bodies.

It is a reader of what `rt fmt` laid out, by indentation, and not a compiler: it raises what it does
not know.
"""

import re
from dataclasses import dataclass, field

HEAD = re.compile(r"(?P<visible>pub(\([a-z: ]+\))? )?(const |unsafe |extern \"C\" )*(?P<kind>fn|"
                  r"struct|enum|trait|impl|mod|use|type|const|static|ghost)\b(?: (?P<name>\w+))?")
CLAUSE = re.compile(r"(requires|ensures)\*?( [\w ]+?)? \{")
MACRO = re.compile(r"[\w:]+!\s*\w*\s*[({\[]")
# A text is one line, whatever its lines.
TEXT = re.compile(r"//[^\n]*|'(?:\\.[^']*|[^'\\])'|\"(?:[^\"\\]|\\.)*\"", re.S)
# A field that is not public, with what stands above it.
PRIVATE = re.compile(r"(?:^    (?:///|#).*\n)*^    (?!pub |///|#)\S.*\n(?:^     .*\n)*", re.M)


@dataclass
class Item:
    """One item, with the items inside it where it is a block of such."""

    kind: str
    name: str
    public: bool
    doc: str
    text: str
    attributes: list
    members: list = field(default_factory=list)

    @property
    def is_for_tests(self):
        return any(a.startswith("#[cfg(test") for a in self.attributes)

    @property
    def ghosts(self):
        """What a block says of its type."""
        return [member for member in self.members if member.kind == "ghost"]


def text_of(lines):
    """Lines as they stand in the file, without comments."""
    lines = "\n".join(lines).replace("\0", "\n").split("\n")
    return "\n".join(line for line in lines if not re.match(" *//(?!/)", line))


def item_end(lines, at):
    """The index behind the item that begins at a line: it ends with a line of its own indentation,
    or, before a block is opened, with a semicolon."""
    inside = ""
    for end, line in enumerate(lines[at:], at + 1):
        outer = line[:1].strip() != ""
        if line.endswith(inside + ";") or outer and line.endswith((";", "}", ",")):
            return end
        if outer and line.endswith("{"):
            inside = "\n"
        elif not inside and CLAUSE.match(line, 4):
            inside = "}"
    return len(lines)


def read_items(path, lines):
    """The doc text of a module, and the items of lines without indentation."""
    inner, doc, attributes, items, at = [], [], [], [], 0
    while at < len(lines):
        line, end = lines[at], at + 1
        if line.startswith(("//!", "///")):
            (inner if line[2] == "!" else doc).append(line[3:].removeprefix(" "))
        elif line.startswith("#"):
            while not lines[end - 1].endswith("]"):
                end += 1
            attributes.append("\n".join(lines[at:end]))
        elif line.strip() and not line.startswith("//"):
            end = item_end(lines, at)
            items += read_item(path, lines[at:end], "\n".join(doc), attributes)
            doc, attributes = [], []
        at = end
    return "\n".join(inner), items


def read_item(path, lines, doc, attributes):
    """The item of these lines, or none where they are the call of a macro."""
    head = HEAD.match(lines[0])
    if not head:
        if not MACRO.match(lines[0]):
            raise SystemExit(f"{path}: no item is known here: {lines[0]}")
        return []
    kind, name, text, members = head["kind"], head["name"] or "", text_of(lines), []
    if kind in ("fn", "trait", "impl", "mod"):
        body = next((n for n, line in enumerate(lines) if line[:1].strip() and
                     line.endswith(("{", "}", ";"))), len(lines))
        text = re.sub(r"\s*\{[^{]*\}$|\s*[{;]$", "", text_of(lines[:body + 1]))
        if kind != "fn":
            _, members = read_items(path, [line[4:] for line in lines[body + 1:-1]])
    elif kind == "struct":
        text = PRIVATE.sub("", text)
    elif text.startswith("ghost use "):
        kind, name = "ghost use", text.removeprefix("ghost use ").rstrip(";")
    return [Item(kind, name, head["visible"] == "pub ", doc, text, attributes, members)]


def read_source(path, text):
    """The doc text and the items of a file."""
    lines = TEXT.sub(lambda found: found[0].replace("\n", "\0"), text).split("\n")
    return read_items(path, lines)
