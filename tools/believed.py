#!/usr/bin/env python3
"""What a reader has to believe: the definitions on which the headline rests, by module, in their reading order.

  tools/believed.py          says whether the index in docs/DEFINITIONS.md is that of the sources, and exits with 1 if not
  tools/believed.py write    writes it

A definition belongs to it where the text of another one that does names it; the headline's own are HEADLINE.
"""
import os
import re
import sys

sys.path.insert(0, os.path.dirname(os.path.abspath(__file__)))
import layers

TOP = layers.TOP
HEADLINE = (("mk_top", "form_of"), ("mk_top", "IsRunOf"), ("mk_top", "text_of"), ("mk_top", "status_of"), ("mk_history", "LegalRunsAreSafe"))
START, END = "<!-- index: made by tools/write_docs -->", "<!-- end of index -->"
WORD = re.compile(r"[A-Za-z_][\w\-'₁₂₃]*|◌[^\s]+◌")
BEGIN = re.compile(r"^(?:abbrev |unfoldable )*(?:pub )?(?:abbrev )?(?:(?:record|data) ([^\s:(]+)|([^\s:(){}.,=|]+) : )")


class Module:
    """A file of definitions: its crate, what its first line says, what it imports, and each definition's lines."""

    def __init__(self, crate, path):
        self.crate, self.path, self.imports, self.items = crate, path, {}, {}
        self.name = f"{crate}.specs.{os.path.basename(path)[:-5]}"
        with open(path, encoding="utf-8") as file:
            lines = file.read().split("\n")
        self.said = lines[0].lstrip("- ").rstrip(".") if lines[0].startswith("--") else ""
        current = None
        for line in lines:
            used = re.match(r"(?:pub )?use Rattle\.([\w.]+)\.\{(.*)\}\s*$", line)
            begun = BEGIN.match(line) if not line.startswith((" ", "--")) else None
            if used:
                for part in used.group(2).split(","):
                    name, _, word = part.strip().partition(" as ")
                    self.imports[word or name] = used.group(1), name
            elif begun:
                current = begun.group(1) or begun.group(2)
                self.items[current] = [line]
            elif current and line.strip() and not line.lstrip().startswith("--"):
                self.items[current].append(line)


def modules():
    found = []
    for _, members in layers.layers():
        for crate, _, _ in members:
            folder = os.path.join(TOP, "crates", crate, "specs")
            if not os.path.isdir(folder):
                continue
            with open(os.path.join(folder, "Lib.antt"), encoding="utf-8") as file:
                for name in re.findall(r"^(?:pub )?mod (\w+)", file.read(), re.M):
                    path = os.path.join(folder, f"{name}.antt")
                    if os.path.isfile(path):
                        found.append(Module(crate, path))
    return found


def believed(every):
    by_name = {module.name: module for module in every}
    left = [(module, name) for module in every for crate, name in HEADLINE if module.crate == crate and name in module.items]
    found = set()
    while left:
        module, name = left.pop()
        if (module.name, name) in found:
            continue
        found.add((module.name, name))
        for line in module.items[name]:
            for word in WORD.findall(re.sub(r"--.*", "", line)):
                if word in module.items:
                    left.append((module, word))
                elif word in module.imports:
                    path, own = module.imports[word]
                    if path in by_name and own in by_name[path].items:
                        left.append((by_name[path], own))
                    else:
                        # a constructor of a type that a module defines
                        above, _, kind = path.rpartition(".")
                        if above in by_name and kind in by_name[above].items:
                            left.append((by_name[above], kind))
    return found


def index():
    every = modules()
    found = believed(every)
    lines_of = lambda module: sum(len(module.items[name]) for name in module.items if (module.name, name) in found)
    rows, crate = [], None
    for module in every:
        names = [name for name in module.items if (module.name, name) in found]
        if not names:
            continue
        if module.crate != crate:
            crate = module.crate
            rows += ["", f"**{crate}**", "", "| module | what | definitions |", "|---|---|---|"]
        link = f"[{os.path.basename(module.path)[:-5]}](../{os.path.relpath(module.path, TOP)})"
        rows.append(f"| {link} | {module.said} | {', '.join(f'`{name}`' for name in names)} |")
    count = sum(1 for _ in found)
    total = sum(map(lines_of, every))
    head = f"{count} definitions in {sum(1 for m in every if lines_of(m))} modules, {total} lines without comments and imports."
    return "\n".join([head, *rows])


def main(words):
    path = os.path.join(TOP, "docs", "DEFINITIONS.md")
    with open(path, encoding="utf-8") as file:
        page = file.read()
    before, rest = page.split(START, 1)
    after = rest.split(END, 1)[1]
    made = f"{before}{START}\n\n{index()}\n\n{END}{after}"
    if words == ["write"]:
        with open(path, "w", encoding="utf-8") as file:
            file.write(made)
        return 0
    if made != page:
        print("docs/DEFINITIONS.md: its index is not that of the sources: tools/write_docs")
        return 1
    return 0


if __name__ == "__main__":
    sys.exit(main(sys.argv[1:]))
