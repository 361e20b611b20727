"""The page of the headline: its sentences, the clauses that carry them, and all definitions behind.

The sentences are the lists below `## The headline` of docs/PROMISES.md. Each names its functions,
as "`Type::method`, `function` of `crate`". The definitions behind the first list come first, then
those that the next one needs beside them.
"""

import re
from graphlib import TopologicalSorter
from itertools import chain, groupby, starmap

from reference_site.parts import WORD, cited, code, filled, plural
from reference_site.project import head_of

CITED = re.compile(r"((?:`[\w:]+`(?:, | and )?)+)\s+of\s+`(\w+)`")


def sentences(promises):
    """Of each list its sentences, with the paths of the functions that they name."""
    below = promises.partition("\n## The headline\n")[2].partition("\n## ")[0]
    for block in below.strip().split("\n\n"):
        texts = [" ".join(entry.split()) for entry in re.split(r"^- ", block, flags=re.M)[1:]]
        if texts:
            yield [(text, [(crate, path) for names, crate in CITED.findall(text)
                           for path in re.findall(r"`([\w:]+)`", names)]) for text in texts]


class Headline:
    """The sentences, and the definitions that stand behind them."""

    def __init__(self, project, parts, promises):
        self.project, self.parts = project, parts
        self.sentences, self.lists, self.trusted = [], [], set()
        for each in sentences(promises):
            found = [(text, [*filter(None, starmap(self.function, paths))]) for text, paths in each]
            behind = self.closure([f for _, functions in found for f in functions])
            before = {*chain(*self.lists)}
            self.lists.append([d for d in self.in_reading_order() if d in behind - before])
            self.sentences += found
        if len(self.lists) < 2 or not all(functions for _, functions in self.sentences):
            parts.problems.add("docs/PROMISES.md: a sentence of the headline names no function")

    def function(self, crate, path):
        """The function at a path of a crate: of a module, of a type or of a trait."""
        owner, _, name = path.rpartition("::")
        for shown in self.project.crates[crate].all_shown():
            if shown.item.kind == "fn" and (shown.title == path or not shown.owner and (
                    shown.item.name == name and shown.module.path[-1:] == (owner,))):
                return shown
        self.parts.problems.add(f"docs/PROMISES.md: {crate} has no `{path}`")
        return None

    def models(self, function):
        """The models of the types that a function takes or returns: what contracts see of them."""
        signature = re.split(r"\n *(?:requires|ensures)\b", function.item.text)[0]
        names = [function.owner, *(match[0] for match in WORD.finditer(signature))]
        types = [self.project.type_named(function.module, name) for name in names]
        return [shown for owner in dict.fromkeys(filter(None, types))
                for shown in self.project.crates[owner.module.crate].shown[owner.module.name]
                if head_of(shown.item) == ("Model", owner.item.name)]

    def closure(self, functions):
        """All definitions behind the clauses and the models. What they take from libraries is
        noted."""
        texts = [(f.item.text, f.module.scope(f.block)) for f in functions]
        texts += [(ghost.text, model.module.scope(model.item)) for f in functions
                  for model in self.models(f) for ghost in model.item.ghosts]
        left, found = [taken for text, scope in texts for taken in cited(text, scope)], set()
        while left:
            taken = self.project.origin(left.pop())
            definition = self.project.definition(taken)
            if taken.crate not in self.project.crates:
                self.trusted.add(taken)
            elif definition and definition not in found:
                found.add(definition)
                left += cited(definition.text, definition.scope)
        return found

    def in_reading_order(self):
        """All definitions: crates bottom-up, and each file of one after those that it uses."""
        for crate in self.project.crates.values():
            uses = {definition.module: set() for definition in crate.definitions}
            for definition in crate.definitions:
                homes = map(self.project.definition, definition.scope.values())
                uses[definition.module] |= {home.module for home in homes
                                            if home and home.crate == crate.name}
            order = TopologicalSorter({m: sorted(uses[m] - {m}) for m in uses})
            yield from sorted(crate.definitions, key=lambda d, done=[*order.static_order()]:
                              done.index(d.module))

    def counts(self, between):
        """How many definitions each list needs, and their lines with the comments above them."""
        lines = [sum(d.text.strip().count("\n") + 2 for d in each) for each in self.lists]
        return between.join(f"{plural(len(each), 'definition')} in {n} lines"
                            for each, n in zip(self.lists, lines))

    def summary(self):
        """The sentences, each with links to its functions."""
        return "".join(f"<li>{self.parts.inline(text.partition(' (')[0])}: "
                       + ", ".join(code(f.title, f.href) for f in functions)
                       for text, functions in self.sentences)

    def body(self):
        """The page below its title."""
        rows, models, texts = [], {}, []
        for text, functions in self.sentences:
            rows.append(f"<h3>{self.parts.inline(text.partition(' (')[0])}.</h3>")
            for function in functions:
                rows.append(f"<p>{code(function.title, function.href)} of <code>"
                            f"{function.module.crate}</code>:</p>"
                            + self.parts.item(function.item, function.module, function.block))
                models |= {model: self.parts.item(model.item, model.module)
                           for model in self.models(function)}
        for (crate, module), each in groupby(chain(*self.lists), lambda d: (d.crate, d.module)):
            about = self.parts.inline(self.project.crates[crate].abouts[module])
            texts += [f"<h3>{crate}: {module}</h3><p>{about}</p>"]
            texts += map(self.parts.definition, each)
        names = ", ".join(f"<code>{taken.name}</code>" for taken in sorted(self.trusted))
        return filled(
            "headline", counts=self.counts(", and for the last sentences "),
            trusted=len(self.trusted), sentences="".join(rows), models="".join(models.values()),
            definitions="".join(texts), names=names)
