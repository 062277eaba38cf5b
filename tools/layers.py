#!/usr/bin/env python3
"""The rule of layers, held against the text of the repository, and the drawing of the layers.

  tools/layers.py          says where the rule is broken, and exits with 1 if it is
  tools/layers.py write    writes the drawing of docs/ARCHITECTURE.md

The rule: definitions, and proofs of crates of definitions and of laws, may be cited from above; of a crate of code its
`specs/` and contracts alone. A crate stands on crates above its line in crates.txt alone, and laws stand on definitions and laws.
"""
import os
import re
import sys

TOP = os.path.dirname(os.path.dirname(os.path.abspath(__file__)))
DEFINITIONS = {"mk_lists", "mk_spelling", "mk_txn", "mk_quorum", "mk_words", "mk_model", "mk_history", "mk_verdict", "mk_feed_words", "mk_trace_text"}
# These laws speak of scripts and drivers, whose definitions stand with their code, and of types of code.
OF_CODE = {"mk_driver_laws", "mk_lock_laws", "mk_quiet_laws", "mk_thread_laws"}
START, END = "<!-- layers: made by tools/write_docs -->", "<!-- end of layers -->"


def is_law(crate):
    return crate.endswith("_laws") or crate in ("mk_safety", "mk_cases")


def read(path):
    with open(os.path.join(TOP, path), encoding="utf-8") as file:
        return file.read()


def layers():
    """The groups of crates.txt, lowest first: (heading, [(crate, what it is, [what it stands on])])."""
    groups, said = [], ""
    for line in read("crates.txt").splitlines():
        if line.startswith("# == "):
            groups.append((line[5:], []))
        elif line.startswith("#"):
            said = line[1:].strip()
        elif ":" in line:
            name, deps = line.split(":", 1)
            groups[-1][1].append((name.split()[0], said, deps.split()))
            said = ""
    return groups


def files(crate):
    for folder, _, names in os.walk(os.path.join(TOP, "crates", crate)):
        if re.search(r"/out(/|$)", folder):
            continue
        for name in names:
            if name.endswith((".antt", ".rt")):
                yield os.path.join(folder, name)


def breaches(groups):
    crates = [crate for _, members in groups for crate in members]
    place = {name: at for at, (name, _, _) in enumerate(crates)}
    for name, _, deps in crates:
        own = [dep for dep in deps if dep in place]
        for dep in own:
            if place[dep] > place[name]:
                yield f"crates.txt: {name} stands on {dep}, whose line comes later"
            if is_law(name) and name not in OF_CODE and dep not in DEFINITIONS and not is_law(dep) and dep != "mk_trim":
                yield f"crates.txt: the laws of {name} stand on the code of {dep}"
        for path in sorted(files(name)):
            with open(path, encoding="utf-8") as file:
                found = file.read()
            for cited in sorted(set(re.findall(r"Rattle\.(\w+)\.proofs\b", found))):
                if cited != name and cited in place and cited not in DEFINITIONS and not is_law(cited):
                    yield f"{os.path.relpath(path, TOP)}: cites the proofs of {cited}, a crate of code"


def drawing(groups):
    below = {name: set(deps) for _, members in groups for name, _, deps in members}
    width = max(map(len, below))

    def reached(name):
        found = set()
        for dep in below.get(name, ()):
            found |= {dep} | reached(dep)
        return found

    lines = []
    for heading, members in reversed(groups):
        lines += ["", heading]
        for name, said, deps in reversed(members):
            own = [dep for dep in deps if dep in below]
            direct = [dep for dep in own if not any(dep in reached(other) for other in own if other != dep)]
            on = f"    on {', '.join(direct)}" if direct else ""
            lines += [f"  {name:{width}}  {said}", *([f"  {'':{width}}{on}"] if on else [])]
    return "\n".join(["```", *lines[1:], "```"])


def main(words):
    groups = layers()
    page = read("docs/ARCHITECTURE.md")
    before, rest = page.split(START, 1)
    made = f"{before}{START}\n\n{drawing(groups)}\n\n{END}{rest.split(END, 1)[1]}"
    if words == ["write"]:
        with open(os.path.join(TOP, "docs/ARCHITECTURE.md"), "w", encoding="utf-8") as file:
            file.write(made)
        return 0
    found = list(breaches(groups))
    if made != page:
        found.append("docs/ARCHITECTURE.md: its drawing is not that of crates.txt: tools/write_docs")
    for each in found:
        print(each)
    print(f"layers: {len(found)} breaches")
    return 1 if found else 0


if __name__ == "__main__":
    sys.exit(main(sys.argv[1:]))
