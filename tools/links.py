#!/usr/bin/env python3
"""Says which links between the repository's pages, and from them into its files, lead nowhere, and exits with 1 if any."""
import os
import re
import sys

TOP = os.path.dirname(os.path.dirname(os.path.abspath(__file__)))


def anchors(path):
    with open(path, encoding="utf-8") as file:
        heads = re.findall(r"^#+ (.+)$", file.read(), re.M)
    return {re.sub(r"[^\w\- ]", "", head.lower()).replace(" ", "-") for head in heads}


def main():
    pages = ["README.md", *(f"docs/{name}" for name in sorted(os.listdir(f"{TOP}/docs")) if name.endswith(".md"))]
    dead = 0
    for page in pages:
        with open(f"{TOP}/{page}", encoding="utf-8") as file:
            text = re.sub(r"```.*?```", "", file.read(), flags=re.S)
        for to in re.findall(r"\]\(([^)\s]+)\)", text):
            if re.match(r"\w+:", to):
                continue
            path, _, anchor = to.partition("#")
            whole = os.path.normpath(os.path.join(TOP, os.path.dirname(page), path)) if path else f"{TOP}/{page}"
            if not os.path.exists(whole) or anchor and whole.endswith(".md") and anchor not in anchors(whole):
                print(f"{page}: no {to}")
                dead += 1
    return 1 if dead else 0


if __name__ == "__main__":
    sys.exit(main())
