#!/usr/bin/env python3
"""Runs the built program over examples/ and compares what it writes with what stands there.

An example is a text with what the program makes of it:

  NAME.meerkat   a script; its first line is a comment that tells what it shows
  NAME.report    what `run` writes for it; NAME.trace is for `run --trace`, NAME.json for `run --json`, NAME.follow for
                 `run --follow`
  NAME.verdict   what `check` writes for NAME.trace
  NAME.words     other words, which read nothing; NAME.summary is what they write
  NAME.status    the status of `run`, 0 where there is no such file
  NAME.error     the line on standard error, none where there is no such file

A table NAME.table has an input and its answer on each line. Its head says what they share:

  words WORDS    the words of the program
  begin LINES    the input begins with these lines
  base FILE      the input is this file with the row's changes
  text LINES     the same of these lines
  trace FILE     the same of the trace that `run --trace` writes for this script

Each of these holds for the rows below it, so that a table may ask several words of one input. A row is `INPUT => STATUS ANSWER`, and
`=> STATUS ANSWER` where nothing is changed. In both ` / ` stands for a line feed, and each text ends with one. `N * LINE` stands for
N lines, with `{}` for the numbers from 1. The answer of statuses 0, 6 and 7 is what is written, of every other the line on standard error.
The changes of a row are joined by ` ; `: `N = LINES` line N is this, `N < LINES` these stand before it, `N > LINES` behind it, `N -`
it is left out. `A to B bytes` stands for the first A bytes, and for each further number up to B.

In README.md and docs/USE.md a block's line `$ COMMAND` that names the program is run by the shell, and what follows it up to the
next such line is what it writes; a line `...` stands for any lines.

Usage: tools/examples.py [NAME ..]
"""

import pathlib
import re
import subprocess
import sys

TOP = pathlib.Path(__file__).resolve().parent.parent
EXAMPLES = TOP / "examples"
PROGRAM = TOP / "crates/meerkat/out/meerkat"
WRITES = {".report": ["run"], ".trace": ["run", "--trace"], ".json": ["run", "--json"], ".follow": ["run", "--follow"]}
CHANGE = re.compile(r"(\d+) ([=<>-]) ?(.*)")
PREFIX = re.compile(r"(\d+) to (\d+) bytes")
REPEAT = re.compile(r"(\d+) \* (.*)")
PAGES = ["README.md", "docs/USE.md"]
BLOCK = re.compile(r"^```\n(.*?)^```$", re.S | re.M)


def repeated(line):
    """The lines that this one stands for."""
    many = REPEAT.fullmatch(line)
    if not many:
        return [line]
    return [many[2].replace("{}", str(number + 1)) for number in range(int(many[1]))]


def text_of(lines):
    """The text of these lines, each with its line feed."""
    if not lines:
        return ""
    return "".join(one + "\n" for line in lines.split(" / ") for one in repeated(line))


def ran(words, given):
    """Status, output and errors of the program with these words and this input."""
    done = subprocess.run([PROGRAM, *words], input=given, capture_output=True, check=False)
    return done.returncode, done.stdout.decode(), done.stderr.decode()


def changed(base, changes):
    """The text of the base with these changes, each of which counts the lines of the base."""
    lines = [[line] for line in base.splitlines()]
    for change in changes.split(" ; "):
        number, kind, new = CHANGE.fullmatch(change).groups()
        place = int(number) - 1
        more = [one for line in new.split(" / ") for one in repeated(line)]
        if kind == "=":
            lines[place] = more
        elif kind == "<":
            lines[place] = more + lines[place]
        elif kind == ">":
            lines[place] = lines[place] + more
        else:
            lines[place] = []
    return "".join(line + "\n" for group in lines for line in group)


def inputs(given, begin, base):
    """The inputs that a row stands for."""
    if base is None:
        return [begin + text_of(given)]
    if not given:
        return [base]
    prefix = PREFIX.fullmatch(given)
    if prefix:
        return [base[:count] for count in range(int(prefix[1]), int(prefix[2]) + 1)]
    return [changed(base, given)]


class Examples:
    """What passed, and what did not."""

    def __init__(self):
        self.passed = 0
        self.failed = 0

    def compare(self, what, got, wanted):
        """Counts this one, and tells the difference."""
        if got == wanted:
            self.passed += 1
            return
        self.failed += 1
        print(f"{what}: status, output and errors are\n  {got}\nwanted\n  {wanted}")

    def run_script(self, script):
        """The outputs of one script."""
        given = script.read_bytes()
        status = read(script.with_suffix(".status"), "0").strip()
        error = read(script.with_suffix(".error"), "")
        for suffix, words in WRITES.items():
            output = script.with_suffix(suffix)
            if output.exists():
                self.compare(f"{script.name} {suffix}", ran(words, given), (int(status), output.read_text(), error))

    def run_words(self, words):
        """What words write that read nothing."""
        wanted = (0, words.with_suffix(".summary").read_text(), "")
        self.compare(words.name, ran(words.read_text().split(), b""), wanted)

    def run_verdict(self, verdict):
        """What `check` writes for a trace."""
        wanted = verdict.read_text()
        status = 0 if wanted.startswith("legal") else 7
        self.compare(verdict.name, ran(["check"], verdict.with_suffix(".trace").read_bytes()), (status, wanted, ""))

    def run_table(self, table):
        """All rows of a table."""
        words, begin, base = [], "", None
        for line in table.read_text().splitlines():
            if not line or line.startswith("#"):
                continue
            if line.split()[0] == "words":
                words = line.split()[1:]
            elif line.startswith("begin "):
                begin = text_of(line[len("begin ") :])
            elif line.startswith("base "):
                base = (EXAMPLES / line[len("base ") :]).read_text()
            elif line.startswith("text "):
                base = text_of(line[len("text ") :])
            elif line.startswith("trace "):
                base = ran(["run", "--trace"], (EXAMPLES / line[len("trace ") :]).read_bytes())[1]
            else:
                self.run_row(table, words, begin, base, line)

    def run_page(self, page):
        """The commands that a page shows."""
        for block in BLOCK.findall((TOP / page).read_text()):
            for shown in re.split(r"^\$ ", block, flags=re.M)[1:]:
                command, wanted = shown.split("\n", 1)
                if "./meerkat" in command:
                    self.run_command(page, command, wanted)

    def run_command(self, page, command, wanted):
        """One command of a page, whose output may be cut."""
        done = subprocess.run(
            ["bash", "-c", command], cwd=TOP, stdout=subprocess.PIPE, stderr=subprocess.STDOUT, check=False
        )
        pattern = ".*\n".join(re.escape(part) for part in re.split(r"^\.\.\.\n", wanted, flags=re.M))
        matched = re.fullmatch(pattern, done.stdout.decode(), re.S)
        self.compare(f"{page} $ {command}", wanted if matched else done.stdout.decode(), wanted)

    def run_row(self, table, words, begin, base, line):
        """One row of a table."""
        given, answer = re.fullmatch(r"(?:(.*) )?=> (.*)", line).groups(default="")
        status, _, told = answer.partition(" ")
        is_written = status in ("0", "6", "7")
        wanted = (int(status), text_of(told) if is_written else "", "" if is_written else text_of(told))
        for text in inputs(given, begin, base):
            self.compare(f"{table.name} {line}", ran(words, text.encode()), wanted)


def read(path, otherwise):
    """The text of the file, where there is one."""
    return path.read_text() if path.exists() else otherwise


def main(names):
    """All examples and pages, or the examples of these names."""
    # It builds the program, where it is missing or old.
    subprocess.run([TOP / "meerkat"], stdin=subprocess.DEVNULL, capture_output=True, check=False)
    examples = Examples()
    kinds = {
        ".meerkat": examples.run_script,
        ".words": examples.run_words,
        ".verdict": examples.run_verdict,
        ".table": examples.run_table,
    }
    for path in sorted(EXAMPLES.iterdir()):
        if path.suffix in kinds and (not names or path.stem in names):
            kinds[path.suffix](path)
    if not names:
        for page in PAGES:
            examples.run_page(page)
    print(f"examples: {examples.passed} passed, {examples.failed} failed")
    return 1 if examples.failed else 0


if __name__ == "__main__":
    sys.exit(main(sys.argv[1:]))
