"""The crates of the repository: their files, what is public in them, and what names stand for."""

import re
from collections import defaultdict
from dataclasses import dataclass

from crates import NAMED, TOP
from reference_site.definitions import read_definitions, taken_names
from reference_site.rattle import read_source

TYPES = ("trait", "struct", "enum", "type")
SHOWN = (*TYPES, "const", "fn")


@dataclass
class Module:
    """A file of a crate."""

    crate: str
    path: tuple
    file: str
    doc: str
    items: list

    @property
    def name(self):
        return ".".join(self.path) or "crate"

    def scope(self, block=None):
        """What the names in contracts stand for, in the file or in a block of it."""
        return {name: taken for item in [*self.items, *(block.members if block else ())]
                if item.kind == "ghost use" for name, taken in taken_names(item.name).items()}

    def used(self):
        """The path of each name that a `use` brings here."""
        uses = [re.sub(r"^(pub(\([a-z: ]+\))? )?use |;$", "", item.text)
                for item in self.items if item.kind == "use"]
        return {name: path for use in uses for name, path in expand_use(use).items()}


@dataclass(eq=False)
class Shown:
    """What is shown of a file: an item, or a member of a block, which has an owner."""

    item: object
    module: Module
    owner: str = ""
    block: object = None

    @property
    def title(self):
        return f"{self.owner}::{self.item.name}" if self.owner else self.item.name

    @property
    def anchor(self):
        return f"{self.module.name}.{self.title.replace('::', '.')}"

    @property
    def href(self):
        return f"{self.module.crate}.html#{self.anchor}"


def expand_use(path):
    """Each name that `a::{b, c as d}` brings into scope, with its path as a tuple."""
    head, brace, rest = " ".join(path.split()).partition("{")
    if not brace:
        path, _, alias = head.partition(" as ")
        parts = tuple(part for part in path.split("::") if part != "self")
        return {alias or parts[-1]: parts}
    entries = re.findall(r"((?:[^,{}]|\{(?:[^{}]|\{[^{}]*\})*\})+),?", rest[:rest.rindex("}")])
    return {name: path for entry in entries if entry.strip()
            for name, path in expand_use(head + entry.strip()).items()}


def head_of(block):
    """The trait of an `impl` block, if it has one, and the name of its type."""
    head = re.sub(r"^impl\s*(<.*?>(?= ))?\s*", "", " ".join(block.text.split()))
    trait, _, target = head.rpartition(" for ")
    name = re.match(r"&?(?:\w+::)*(\w+)", target)
    return trait, name[1] if name else ""


class Crate:
    """A crate as its line of `crates.txt` and its folder describe it."""

    def __init__(self, name, uses):
        self.name, self.uses, self.folder = name, uses, TOP / "crates" / name
        self.definitions, self.handed_on, self.abouts = [], {}, {}
        for file in sorted((self.folder / "specs").glob("*.antt")):
            if file.stem != "Lib":
                self.abouts[file.stem], found, handed = read_definitions(
                    name, file.stem, file.read_text())
                self.definitions += found
                self.handed_on |= handed
        src, self.modules = self.folder / "src", []
        for file in sorted(src.rglob("*.rt")):
            path, where = file.relative_to(src).with_suffix("").parts, str(file.relative_to(TOP))
            path = () if path in (("lib",), ("main",)) else path
            self.modules.append(Module(name, path, where, *read_source(where, file.read_text())))
        self.modules.sort(key=lambda module: (module.path[:1] == ("laws",), module.path))
        self.root = self.modules[0]
        uses = [i.text for m in self.modules for i in m.items if i.kind == "use" and i.public]
        self.handed_out = set(re.findall(r"\w+", " ".join(uses)))
        self.shown = {module.name: list(self.shown_of(module)) for module in self.modules}

    def all_shown(self):
        return [shown for each in self.shown.values() for shown in each]

    def is_public(self, module):
        """Whether the module of a file, and each above it, is public."""
        public = {(*m.path, i.name) for m in self.modules for i in m.items
                  if i.kind == "mod" and i.public and not i.is_for_tests}
        return all(module.path[:n] in public for n in range(1, len(module.path) + 1))

    def shown_of(self, module):
        """The public items of a file, and the methods and blocks of its public types."""
        public = self.is_public(module)
        for item in module.items:
            if item.is_for_tests:
                continue
            if item.kind in SHOWN and item.public and (public or item.name in self.handed_out):
                yield Shown(item, module)
                members = item.members if item.kind == "trait" else ()
                yield from (Shown(m, module, item.name, item) for m in members if m.kind == "fn")
            elif item.kind == "impl":
                trait, owner = head_of(item)
                if trait:
                    yield Shown(item, module)
                yield from (Shown(m, module, owner, item) for m in item.members if m.public)

    def unproved(self):
        """The paragraph of its page that says what is not proved, with a list below it."""
        readme = self.folder / "README.md"
        found = re.search(r"(?:^|\n\n)((?:Not proved|Only tested).*?(?::\n\n.*?)?)(?:\n\n|$)",
                          readme.read_text() if readme.exists() else "", re.S)
        return found[1] if found else ""


class Project:
    """All crates, and the look-ups over them."""

    def __init__(self):
        crates = [Crate(*each) for each in NAMED.items() if not each[0].endswith("_tests")]
        self.crates = {crate.name: crate for crate in crates}
        self.definitions = {(d.crate, d.module, d.name): d for c in crates for d in c.definitions}
        self.handed_on = {name: of for c in crates for name, of in c.handed_on.items()}
        self.types, self.members = defaultdict(list), {}
        for shown in [shown for crate in crates for shown in crate.all_shown()]:
            if shown.owner:
                self.members.setdefault((shown.module.crate, shown.title), shown)
            elif shown.item.kind in TYPES:
                self.types[shown.item.name].append(shown)
        # A block stands only beside a public type.
        for crate in crates:
            crate.shown = {name: [*filter(self.is_of_public_type, each)]
                           for name, each in crate.shown.items()}

    def is_of_public_type(self, shown):
        owner = head_of(shown.item)[1] if shown.item.kind == "impl" else shown.owner
        found = self.type_named(shown.module, owner)
        return not owner or found and found.module.crate == shown.module.crate

    def type_named(self, module, name):
        """The public type that a name stands for in a module, where that is certain."""
        found = self.types.get(name, [])
        own = [shown for shown in found if shown.module is module]
        path = module.used().get(name)
        if own or path is None:
            return own[0] if own else None
        crate = path[0] if path[0] in self.crates else module.crate
        found = [s for s in found if s.module.crate == crate and s.item.name == path[-1]]
        named = [s for s in found if s.module.path[-1:] == path[-2:-1]]
        return min(named or found, key=lambda s: len(s.module.path), default=None)

    def type_declared(self, taken):
        """The public type at a path of `declared`, as `declared.container.role.Role`."""
        at = taken.crate, tuple(taken.path.split(".")[1:-1])
        return next((shown for shown in self.types.get(taken.name, ())
                     if (shown.module.crate, shown.module.path) == at), None)

    def origin(self, taken):
        """What a name stands for where the files that only hand it on are passed over."""
        return self.origin(self.handed_on[taken]) if taken in self.handed_on else taken

    def definition(self, taken):
        """The definition that a name stands for; that of a constructor is the one of its type."""
        taken = self.origin(taken)
        module, _, name = taken.path.partition(".")
        return self.definitions.get(taken) or self.definitions.get((taken.crate, module, name))
