"""Writes the pages: one for each crate and one for its definitions, the headline and an index."""

import shutil
from html import escape
from itertools import groupby
from pathlib import Path

from reference_site.headline import Headline
from reference_site.parts import Parts, breakable, code, filled, first_sentence, plural


class Pages(Parts):
    """The pages of one project, by their file names."""

    def __init__(self, project, words, promises):
        super().__init__(project)
        self.names, self.files = 0, {}
        for crate in project.crates.values():
            self.files[f"{crate.name}.html"] = self.crate_page(crate)
            if crate.definitions:
                self.files[f"{crate.name}-definitions.html"] = self.definitions_page(crate)
        headline = Headline(project, self, promises)
        self.files["headline.html"] = self.page("The headline, to be read in one sitting",
                                                headline.body())
        self.files["index.html"] = self.index_page(headline, words)

    def page(self, title, body, now=""):
        """A whole page with the head and the list of crates."""
        crates = "".join(
            f'<li><a href="{name}.html"{" aria-current=page" if name == now else ""}>{name}</a>'
            for name in self.project.crates)
        return filled("page", title=escape(title), crates=crates, body=body)

    def section(self, anchor, title, body):
        """A part of a page about one name."""
        self.names += 1
        anchor = escape(anchor)
        return (f'<section class="item" id="{anchor}"><h4><a href="#{anchor}">{breakable(title)}'
                f"</a></h4>{body}</section>\n")

    def crate_page(self, crate):
        lead = [self.prose(crate.root.doc, crate.root)]
        uses = [f'<a href="{u}.html">{u}</a>' if u in self.project.crates else escape(u)
                for u in crate.uses]
        if uses:
            lead.append(f'<p class="uses">Stands on {", ".join(uses)}.</p>')
        if crate.definitions:
            count = plural(len(crate.definitions), "definition")
            lead.append(f'<p><a href="{crate.name}-definitions.html">{count}</a> '
                        "that its contracts cite.</p>")
        lead.append(self.prose(crate.unproved(), crate.root))
        contents, modules = ("".join(part(m, crate.shown[m.name]) for m in crate.modules)
                             for part in (self.contents, self.module))
        body = "\n".join(lead) + f'<div class="contents">{contents}</div>{modules}'
        return self.page(crate.name, body, crate.name)

    def contents(self, module, shown):
        rows = ", ".join(f'<a href="#{s.anchor}">{escape(s.title)}</a>' for s in shown
                         if s.item.kind != "impl")
        return f"<p><b><code>{module.name}</code></b>: {rows}</p>" if rows else ""

    def module(self, module, shown):
        """The file of a module: what it passes on from others, and what is public in it."""
        uses = [self.item(item, module) for item in module.items
                if item.kind == "use" and item.public]
        if not uses and not shown:
            return ""
        doc = self.prose(module.doc, module) if module.path else ""
        return (f'<h2 id="{module.name}"><code>{"::".join(module.path) or module.crate}</code></h2>'
                f"{doc}{''.join(uses)}{''.join(map(self.shown, shown))}")

    def shown(self, shown):
        text = self.item(shown.item, shown.module, shown.block)
        return text if shown.item.kind == "impl" else self.section(shown.anchor, shown.title, text)

    def definitions_page(self, crate):
        body = [f'<p>What contracts of <a href="{crate.name}.html">{crate.name}</a> and of '
                "the crates above it cite. Each name is a link.</p>"]
        for module, of_module in groupby(crate.definitions, lambda found: found.module):
            about = self.inline(crate.abouts[module])
            body.append(f'<h2 id="{module}">{module}</h2><p>{about}</p>')
            body += (self.section(f"{module}.{found.name}", found.name, self.definition(found))
                     for found in of_module)
        return self.page(f"Definitions of {crate.name}", "\n".join(body), crate.name)

    def index_page(self, headline, words):
        crates = "".join(f"<p>{code(c.name, f'{c.name}.html')}: "
                         f"{self.inline(first_sentence(c.root.doc), c.root)}</p>"
                         for c in self.project.crates.values())
        meanings = "".join(f"<p><b>{self.inline(word)}</b>: {self.inline(meaning)}</p>"
                           for word, meaning in words)
        return self.page("service_descriptions", filled(
            "index", sentences=headline.summary(), counts=headline.counts(", and then "),
            crates=crates, words=meanings))

    def write(self, folder):
        """Writes the pages and what they load."""
        folder.mkdir(parents=True, exist_ok=True)
        for name, text in self.files.items():
            (folder / name).write_text(text)
        shutil.copy(Path(__file__).with_name("style.css"), folder)
