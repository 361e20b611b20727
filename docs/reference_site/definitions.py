"""Reads the definitions of a file of `specs/`, and the names that files take from others."""

import re
from dataclasses import dataclass
from typing import NamedTuple

DEFINED = re.compile(r"(?:abbrev |unfoldable )?pub (?:record |data )?([^\s:({]+)")
TAKEN = re.compile(r"Rattle\.(?P<crate>\w+)\.specs\.(?P<path>[\w.]+?)(?:\.\{(?P<names>[^}]*)\})?"
                   r"(?: as (?P<alias>\w+))?$")
CONSTRUCTOR = re.compile(r"  (\w+) :")


@dataclass(eq=False)
class Definition:
    """One definition, with the comment above it."""

    crate: str
    module: str
    name: str
    comment: str
    text: str
    scope: dict

    @property
    def href(self):
        return f"{self.crate}-definitions.html#{self.module}.{self.name}"


class Taken(NamedTuple):
    """What a name stands for: the definition or the type at a path in the `specs` of a crate."""

    crate: str
    path: str
    name: str


def taken_names(path):
    """The names that the path of one `use` brings into scope."""
    use = TAKEN.match(path.strip().removesuffix(";"))
    if not use:
        return {}
    crate, where = use["crate"], use["path"]
    words = [word.strip() for word in (use["names"] or "").split(",") if word.strip()]
    # A name may be taken under another one.
    words = {word.split(" as ")[-1]: word.split(" as ")[0] for word in words}
    if not where.startswith("declared."):
        return {name: Taken(crate, where, word) for name, word in words.items()}
    # The type is the last part of the path, but for the list of its variants.
    where = where.removesuffix(".TheVariants")
    target = Taken(crate, where, where.rpartition(".")[2])
    return dict.fromkeys([use["alias"]] if use["alias"] else words, target)


def read_definitions(crate, module, text):
    """What the file is about, its definitions, and those that other names of it stand for."""
    scope, about, found, handed_on, comment = {}, [], [], {}, []
    for line in text.split("\n"):
        if line.startswith(("use ", "pub use ")):
            taken = taken_names(line.partition("use ")[2])
            scope |= taken
            if line.startswith("pub "):
                handed_on |= {(crate, module, name): of for name, of in taken.items()}
            else:
                about, comment = about + comment, []
        elif line.startswith("--"):
            comment.append(line[2:].strip())
        elif start := DEFINED.match(line):
            # A comment above several definitions speaks of them all, that of the file of the first.
            said = " ".join(comment) or (found[-1].comment if found else " ".join(about))
            found.append(Definition(crate, module, start[1], said, line, scope))
            scope[start[1]], comment = Taken(crate, module, start[1]), []
        elif not line:
            about, comment = about + (comment if not found else []), []
        elif found:
            found[-1].text += "\n" + line
            if found[-1].text.startswith("pub data ") and (constructor := CONSTRUCTOR.match(line)):
                handed_on[crate, module, constructor[1]] = Taken(crate, module, found[-1].name)
    return " ".join(about), found, handed_on
