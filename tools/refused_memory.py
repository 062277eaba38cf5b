#!/usr/bin/env python3
"""Refuses the built program each request for memory in turn, one in a run, over some examples.

Each run has to end with status 9, with nothing written and the line `no memory` on standard error, or as it does with ample
memory. Prints for each example how many requests were refused, and how many of the runs ended in which of the two ways; exits
with 1 where one ended otherwise. It wants a C compiler, and stands outside of the gate.

Usage: tools/refused_memory.py
"""

import os
import pathlib
import subprocess
import sys
import tempfile

TOP = pathlib.Path(__file__).resolve().parent.parent
EXAMPLES = TOP / "examples"
PROGRAM = TOP / "crates/meerkat/out/meerkat"
# The words, and the example that is the input.
CALLS = [
    ("run", "first.meerkat"),
    ("run", "epoch_change.meerkat"),
    ("run", "two_workers.meerkat"),
    ("run --trace", "commit.meerkat"),
    ("run --json", "commit.meerkat"),
    ("check", "commit.trace"),
    ("gen 1 2 8 4", "first.meerkat"),
]
NO_MEMORY = (9, b"", b"no memory\n")
# Threads may ask for more in one run than in another, so the sweep ends behind so many runs that asked for less.
BEHIND = 10


def ending(library, reached, words, example, refused):
    """Status, standard output and standard error of a run, and whether it came to the request that is refused."""
    reached.unlink(missing_ok=True)
    ran = subprocess.run(
        [PROGRAM, *words.split()],
        input=(EXAMPLES / example).read_bytes(),
        capture_output=True,
        timeout=60,
        env={**os.environ, "LD_PRELOAD": str(library), "REFUSED": str(refused), "REACHED": str(reached)},
    )
    return (ran.returncode, ran.stdout, ran.stderr), reached.exists()


def sweep(library, reached, words, example):
    """Refuses each request in turn. Gives whether each run ended as it may, and some request was refused."""
    ample, _ = ending(library, reached, words, example, 0)
    without, alike, others = 0, 0, 0
    number, behind = 0, 0
    while behind < BEHIND:
        number += 1
        end, was_refused = ending(library, reached, words, example, number)
        if not was_refused:
            behind += 1
        if end == ample:
            alike += was_refused
        elif end == NO_MEMORY and was_refused:
            without += 1
        else:
            others += 1
            print(f"{words} < {example}: request {number}: status {end[0]}, {len(end[1])} bytes written, {end[2]!r}")
    print(
        f"{words} < {example}: {without + alike + others} requests refused:"
        f" {without} without memory, {alike} as with ample memory, {others} otherwise"
    )
    return without > 0 and others == 0


def main():
    if not PROGRAM.is_file():
        sys.exit("there is no built program: ./meerkat builds it")
    with tempfile.TemporaryDirectory() as folder:
        library = pathlib.Path(folder) / "refused.so"
        source = TOP / "tools/refused_memory.c"
        subprocess.run(["cc", "-O1", "-shared", "-fPIC", "-o", library, source], check=True)
        reached = pathlib.Path(folder) / "reached"
        passed = [sweep(library, reached, words, example) for words, example in CALLS]
    sys.exit(0 if all(passed) else 1)


if __name__ == "__main__":
    main()
