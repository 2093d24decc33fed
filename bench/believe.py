#!/usr/bin/env python3
"""Counts what a reader must believe: the code lines of the definitions that a definition rests on.

    believe.py [CRATE/PAGE.NAME..] [--pages] [--inside]

A name is followed through the `use` lines of its page, into the pages of `crates/*/specs` and the types of `crates/*/src`.
Lines of comments, of imports and blank ones do not count, and neither do the kit's definitions. Without a name it counts
those that docs/DEFINITIONS.md speaks of. `--pages` says how many lines come from which page; `--inside` names the pages of
`specs/inside` that are among them.
"""
import collections
import os
import re
import sys

CRATES = os.path.join(os.path.dirname(os.path.abspath(__file__)), "..", "crates")
KNOWN = [
    ("status 0 of audit", ["sg_fronts/ByRecords.IsYes"]),
    ("the same by the walk over the lines", ["sg_check/Verdict.IsGood"]),
    ("headline with what each status of audit says", ["sg_app/Headline.Headline", "sg_reports/audit/Audit.AuditSays"]),
    ("all that run says", ["sg_app/Headline.Headline", "sg_app/Headline.HistoriesGetYes", "sg_app/Says.Ended"]),
]
BEGINS = re.compile(r"^(?:abbrev |unfoldable )?(?:pub )?(?:record |data )?([^\s:({]+)")
WORD = re.compile(r"[A-Za-z_][A-Za-z0-9_']*(?:\.[A-Za-z_][A-Za-z0-9_']*)*")


def code(line):
    """The line without its comment."""
    return re.sub(r"\s*--.*$", "", line)


class Page:
    """A page of definitions: its blocks by name, and what its names mean elsewhere."""

    def __init__(self, path):
        self.path, self.blocks, self.uses, self.modules, self.opened = path, collections.OrderedDict(), {}, {}, []
        name = None
        with open(path, encoding="utf-8") as it:
            for line in map(code, it.read().split("\n")):
                if not line.strip():
                    continue
                if line.startswith(("use ", "pub use ", "mod ", "pub mod ")):
                    self.read_use(line)
                    continue
                if not line.startswith(" "):
                    name = BEGINS.match(line).group(1)
                self.blocks.setdefault(name, []).append(line)
        self.owners = {}
        for top, lines in self.blocks.items():
            if re.match(r"(?:pub )?data ", lines[0]):
                for line in lines[1:]:
                    self.owners[line.split()[0]] = top

    def read_use(self, line):
        found = re.match(r"(?:pub )?use (Rattle\.[A-Za-z0-9_.]+?)(?:\.\{(.*)\}| as ([A-Za-z_]+))?$", line)
        if not found:
            return
        module, names, alias = found.groups()
        if alias:
            self.modules[alias] = module
        for name in (names or "").split(","):
            words = name.split(" as ")
            if words[0].strip():
                self.uses[words[-1].strip()] = (module, words[0].strip())


def page_of(module, pages={}):
    """The page of a module of this project's definitions, or none."""
    words = module.split(".")
    path = os.path.join(CRATES, *words[1:]) + ".antt"
    if path not in pages:
        pages[path] = Page(path) if os.path.isfile(path) else None
    return pages[path]


def type_of(module):
    """The file and the name of a type that code declares, where the module is one of its mirror."""
    words = [it for it in module.split(".") if it != "TheVariants"]
    if "declared" not in words:
        return None
    at = words.index("declared")
    path = os.path.join(CRATES, words[1], "src", *words[at + 1 : -1]) + ".rt"
    return (path, words[-1]) if os.path.isfile(path) else None


def lines_of_type(path, name):
    with open(path, encoding="utf-8") as it:
        text = it.read()
    found = re.search(r"(?m)^pub(?:\([a-z]+\))? (?:struct|enum) %s\b[^;{]*(?:;|\{.*?^\})" % re.escape(name), text, re.S)
    found = found or re.search(r"(?m)^(?:struct|enum) %s\b[^;{]*(?:;|\{.*?^\})" % re.escape(name), text, re.S)
    lines = found.group(0).split("\n") if found else []
    return [it for it in lines if it.strip() and not it.strip().startswith(("//", "#", "ghost"))]


def follow(starts):
    """The blocks that these names rest on: pairs of a page or a file and a name, with their lines."""
    seen, todo = {}, list(starts)
    while todo:
        page, name = todo.pop()
        name = page.owners.get(name, name)
        if (page.path, name) in seen or name not in page.blocks:
            continue
        lines = seen[page.path, name] = page.blocks[name]
        for word in {it for line in lines for it in WORD.findall(line)}:
            first, *rest = word.split(".")
            module, other = page.uses.get(first, (page.modules.get(first), rest[0] if rest else None))
            if module is None:
                todo.append((page, first))
                continue
            target = page_of(module)
            if target is not None and other:
                todo.append((target, other))
            kind = type_of(module if module.split(".")[-1] != other or "declared" in module else module)
            if kind and kind not in seen:
                seen[kind] = lines_of_type(*kind)
    return seen


def main():
    words = [it for it in sys.argv[1:] if not it.startswith("--")]
    for title, names in [(it, [it]) for it in words] or KNOWN:
        starts = []
        for it in names:
            at, name = it.rsplit(".", 1)
            crate, page = at.split("/", 1)
            found = page_of("Rattle.%s.specs.%s" % (crate, page.replace("/", ".")))
            if found is None or name not in found.blocks:
                sys.exit("%s: there is no such definition" % it)
            starts.append((found, name))
        seen = follow(starts)
        print("%6d lines in %d pages: %s" % (sum(map(len, seen.values())), len({path for path, _ in seen}), title))
        sums = collections.Counter()
        for (path, _), lines in seen.items():
            sums[os.path.relpath(path, CRATES)] += len(lines)
        for path, count in sums.most_common():
            if "--pages" in sys.argv or ("--inside" in sys.argv and "/inside/" in path):
                print("       %6d %s" % (count, path))


main()
