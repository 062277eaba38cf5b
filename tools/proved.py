#!/usr/bin/env python3
"""Writes docs/PROVED.md's list of what is proved from the sources, or says that it is out of date.

  tools/proved.py          says whether the list in docs/PROVED.md is that of the sources, and exits with 1 if not
  tools/proved.py write    writes it

A section for each crate of crates.txt; in it a line for each public call, with the first sentence of its comment and each
clause of its contract. Where a clause is a law's name alone, the name links to the file that states the law.
"""
import os
import re
import sys

sys.path.insert(0, os.path.dirname(os.path.abspath(__file__)))
import layers

TOP = layers.TOP
START, END = "<!-- calls: made by tools/write_docs -->", "<!-- end of calls -->"


def sources(crate):
    """The crate's source files, the root first, without tests."""
    folder = os.path.join(TOP, "crates", crate, "src")
    found = []
    for at, _, names in os.walk(folder):
        for name in names:
            path = os.path.join(at, name)
            if name.endswith(".rt") and not re.search(r"/tests?(/|\.rt$)", path[len(folder):]):
                found.append(path)
    return sorted(found, key=lambda path: (not path.endswith(("/lib.rt", "/main.rt")), path))


def read(path):
    with open(path, encoding="utf-8") as file:
        return file.read()


def sentence(comments):
    """The first sentence of a comment."""
    said = " ".join(line.strip()[3:].strip() for line in comments).strip()
    found = re.match(r"(.+?[.:])(\s|$)", said)
    return (found.group(1) if found else said).rstrip(".:")


def shown(root):
    """The names that the root of a crate passes on."""
    names = set()
    for used in re.findall(r"pub use ([^;]+);", root):
        names |= set(re.findall(r"\w+", used.split("::", 1)[1] if "::" in used else used))
    names |= set(re.findall(r"^pub (?:struct|enum|trait|fn|type) (\w+)", root, re.M))
    names |= {name for name in re.findall(r"^pub mod (\w+);", root, re.M)}
    return names


def clauses(head):
    """The clauses of a contract: (name, text)."""
    found = []
    for match in re.finditer(r"\b(requires|ensures)\b\s*([\w]*)\s*\{", head):
        depth, at = 1, match.end()
        while depth and at < len(head):
            depth += {"{": 1, "}": -1}.get(head[at], 0)
            at += 1
        text = re.sub(r"\s+", " ", head[match.end():at - 1]).strip()
        found.append((match.group(1), match.group(2), text))
    return found


def head_of(lines, at):
    """The text of a function from its `fn` line up to its body."""
    text = ""
    for line in lines[at:at + 80]:
        text += line + "\n"
        if line.strip() in ("{", "{}") or line.rstrip().endswith(";"):
            break
        if line.rstrip().endswith("{") and not re.search(r"(ensures|requires)\b[^{]*\{$", line):
            break
    return text


def calls(crate):
    """The public calls of a crate: (name, first sentence, [(kind, name, text)])."""
    paths = sources(crate)
    if not paths:
        return []
    names = shown(read(paths[0]))
    found = []
    for path in paths:
        is_root = path == paths[0]
        holder, in_trait = "", False
        comments = []
        lines = read(path).split("\n")
        for at, line in enumerate(lines):
            opened = re.match(r"(?:pub )?(impl|trait)\b(?:<[^>]*(?:<[^>]*>)?[^>]*>)?\s*(.*?)\s*\{?$", line)
            if opened and not line.startswith(" "):
                kind, rest = opened.groups()
                rest = rest.split(" where ")[0]
                of = re.split(r"\bfor\b", rest)
                holder = re.match(r"\s*([\w:]+)", of[-1]).group(1) if re.match(r"\s*([\w:]+)", of[-1]) else ""
                in_trait = kind == "trait"
                if len(of) > 1:
                    holder = ""
                comments = []
                continue
            if line.startswith("}"):
                holder, in_trait = "", False
            if line.strip().startswith("///"):
                comments.append(line)
                continue
            called = re.match(r"(\s*)(pub )?(?:const )?fn (\w+)", line)
            if called:
                indent, is_pub, name = called.groups()
                method = len(indent) > 0
                public = (is_pub or in_trait) and (holder in names if method else is_root or name in names)
                if public and not (method and not holder):
                    label = f"{holder}::{name}" if method else name
                    found.append((label, sentence(comments), clauses(head_of(lines, at))))
            if not line.strip().startswith("#["):
                comments = []
    return found


def stated(crate, name):
    """The file in which a law is stated, if the crate or one below it states it."""
    folder = os.path.join(TOP, "crates", crate, "specs")
    for file in sorted(os.listdir(folder)) if os.path.isdir(folder) else []:
        if re.search(rf"^(?:abbrev )?(?:unfoldable )?(?:pub )?(?:abbrev )?(?:record |data )?{re.escape(name)} :", read(os.path.join(folder, file)), re.M):
            return f"../crates/{crate}/specs/{file}"
    return None


def listing():
    out = []
    for heading, members in layers.layers():
        out += ["", f"## {heading[0].upper()}{heading[1:]}"]
        for crate, said, _ in members:
            found = calls(crate)
            out += ["", f"### {crate}", "", f"{said[0].upper()}{said[1:]}."]
            if not found:
                continue
            out.append("")
            for label, what, contract in found:
                parts = []
                for kind, name, text in contract:
                    law = stated(crate, text) if re.fullmatch(r"[\w\-]+", text) else None
                    shown_text = f"[{text}]({law})" if law else f"`{text}`"
                    before = "if " if kind == "requires" else ""
                    parts.append(f"{before}{name + ' ' if name and not law else ''}{shown_text}")
                line = f"- `{label}`"
                if what:
                    line += f": {what}"
                if parts:
                    line += f" · {'; '.join(parts)}"
                out.append(line)
    return "\n".join(out).strip()


def main(words):
    path = os.path.join(TOP, "docs", "PROVED.md")
    page = read(path)
    before, rest = page.split(START, 1)
    after = rest.split(END, 1)[1]
    made = f"{before}{START}\n\n{listing()}\n\n{END}{after}"
    if words == ["write"]:
        with open(path, "w", encoding="utf-8") as file:
            file.write(made)
        return 0
    if made != page:
        print("docs/PROVED.md: its list is not that of the sources: tools/write_docs")
        return 1
    return 0


if __name__ == "__main__":
    sys.exit(main(sys.argv[1:]))
