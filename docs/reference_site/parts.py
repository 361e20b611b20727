"""Writes the parts of a page: code and doc text with links."""

import re
import string
from html import escape
from pathlib import Path

WORD = re.compile(r"[^\W\d][\w']*(?:\.[^\W\d][\w']*)*")
STRING = re.compile(r'("(?:[^"\\]|\\.)*")')
LINK = re.compile(r"\[`(?P<link>[^`]+)`\](?:\((?P<path>[^)]+)\))?|`(?P<code>[^`]+)`")


def filled(template, **parts):
    """A template of this folder, filled with these parts."""
    text = Path(__file__).with_name(f"{template}.html").read_text()
    return string.Template(text).substitute(parts)


def breakable(name):
    """A name that may go on in the next line behind `_` and `::`."""
    return re.sub("(_|::|/)", r"\1<wbr>", escape(name))


def code(name, href):
    return f'<a href="{escape(href)}"><code>{breakable(name)}</code></a>'


def plural(count, what):
    return f"{count} {what}{'' if count == 1 else 's'}"


def first_sentence(doc):
    return re.split(r"(?<=[.!?])\s", doc.strip().split("\n\n")[0].replace("\n", " "))[0]


def cited(text, scope):
    """What the names in a clause or a definition stand for, where they do."""
    heads = (match[0].partition(".")[0] for match in WORD.finditer(STRING.sub("", text)))
    return [scope[head] for head in heads if head in scope]


class Parts:
    """The parts of the pages of one project."""

    def __init__(self, project):
        self.project, self.problems = project, set()

    def target(self, taken):
        """The link and the meaning of a name in a contract, or none for a name of the library."""
        taken = self.project.origin(taken)
        if found := self.project.definition(taken):
            return found.href, found.comment
        if taken.crate in self.project.crates and taken.path[0].isupper():
            self.problems.add(f"no definition {taken.crate}.specs.{taken.path}.{taken.name}")
        shown = self.project.type_declared(taken)
        return shown and (shown.href, first_sentence(shown.item.doc))

    def linked(self, text, scope, module=None, own=""):
        """Code in which each name but `own` that a contract cites, and each public type, is a
        link."""
        def link(match):
            head, target = match[0].partition(".")[0], None
            if head in scope:
                target = head != own and self.target(scope[head])
            elif shown := module and self.project.type_named(module, head):
                target = shown.href, ""
            if not target:
                return match[0]
            linked = f'<a href="{target[0]}" title="{escape(target[1])}">{head}</a>'
            return linked + match[0].removeprefix(head)
        return "".join(escape(part) if part.startswith('"') else WORD.sub(link, escape(part))
                       for part in STRING.split(text))

    def item(self, item, module, block=None):
        """An item without its body, with what it says of itself, and its doc text."""
        kept = [a for a in item.attributes if a.startswith(("#[derive", "#[repr"))]
        text = "\n".join([*kept, item.text, *(ghost.text for ghost in item.ghosts)])
        docs = "".join(self.prose(each.doc, module) for each in (item, *item.ghosts))
        return f"<pre>{self.linked(text, module.scope(block or item), module)}</pre>{docs}"

    def definition(self, found):
        """The comment and the text of a definition."""
        text = self.linked(found.text, found.scope, own=found.name)
        return f"<p>{self.inline(found.comment)}</p><pre>{text}</pre>"

    def prose(self, doc, module):
        """Doc text: paragraphs, lists, code, and links to items."""
        parts = []
        for block in filter(str.strip, re.split(r"\n\s*\n", doc.strip())):
            lines = block.split("\n")
            if all(line.startswith(("- ", "  ")) for line in lines):
                entries = re.split(r"(?:^|\n)- ", block)[1:]
                rows = "".join(f"<li>{self.inline(entry, module)}" for entry in entries)
                parts.append(f"<ul>{rows}</ul>")
            elif all(line.startswith("    ") for line in lines) or block.startswith("```"):
                text = "\n".join(line for line in lines if not line.startswith("```"))
                parts.append(f"<pre>{escape(text)}</pre>")
            else:
                parts.append(f"<p>{self.inline(block, module)}</p>")
        return "\n".join(parts)

    def inline(self, text, module=None):
        def replace(match):
            if match["link"]:
                return code(match["link"], self.item_link(match["path"] or match["link"], module))
            return f"<code>{match['code']}</code>"
        return LINK.sub(replace, escape(text, quote=False))

    def item_link(self, path, module):
        """Where `[`Type::method`]` of a doc text leads; what leads nowhere is noted."""
        *owners, name = [p for p in path.split("::") if p not in ("super", "crate", "self")]
        owner = self.project.type_named(module, owners[-1]) if owners else None
        of_crate = self.project.crates[module.crate].all_shown()
        shown = owner and self.project.members.get((owner.module.crate, f"{owner.title}::{name}"))
        if owner and not shown and re.search(rf"^    (pub )?{name}\b", owner.item.text, re.M):
            shown = owner  # A variant stands with its type.
        shown = shown or self.project.type_named(module, name) or next(
            (each for each in of_crate if each.item.name == name), None)
        if not shown:
            self.problems.add(f"{module.file}: no page has what [`{path}`] leads to")
        return shown.href if shown else "#"
