"""Forged traces: a trace with one token, line, number or order changed."""

import re

CALLS = ("get", "checkread", "checkwrite", "commitread", "commitwrite", "releaseread", "releasewrite")


def is_journal(line):
    words = line.split()
    return len(words) > 2 and words[0].isdigit() and words[1] in CALLS


def is_key_step(line):
    words = line.split()
    return len(words) > 4 and words[0] == "key" and words[3] in CALLS


def places(lines, test):
    return [place for place, line in enumerate(lines) if test(line)]


def other_number(rng, line):
    """The line with one of its numbers another one."""
    numbers = list(re.finditer(r"\d+", line))
    if not numbers:
        return None
    found = rng.choice(numbers)
    old = int(found[0])
    new = rng.choice([value for value in (old + 1, max(0, old - 1), 0, 1, 2, 63, 2**62, 2**64) if value != old])
    return line[: found.start()] + str(new) + line[found.end() :]


def other_answer(line):
    """A check's line with the other of a good and a refusing answer; None where it is no check."""
    words = line.split()
    at = 1 if words[0].isdigit() else 3
    if words[at] == "checkread":
        stop = at + 3
        return " ".join(words[:stop] + (["read-stale", "1.1"] if words[stop:] == ["ok"] else ["ok"]))
    if words[at] == "checkwrite":
        stop = at + 2
        return " ".join(words[:stop] + (["write-late", "1.1"] if words[stop:] == ["ok"] else ["ok"]))
    return None


def forged(rng, text):
    """A forged trace, and whether it must be refused: a change of what a cell was asked or answered leaves logs and journals
    that do not match, whatever else they say. None where this kind of change has no place in the trace."""
    lines = text.splitlines()
    calls = places(lines, lambda line: is_journal(line) or is_key_step(line))
    kind = rng.choice(["number of a call", "answer of a call", "call gone", "call twice", "number", "line gone", "line twice", "order", "byte", "cut"])
    certain = kind.endswith("call") or kind.startswith("call")
    if certain and not calls:
        return None
    place = rng.choice(calls) if certain else rng.randrange(len(lines))
    if kind in ("number of a call", "number"):
        new = other_number(rng, lines[place])
        if new is None:
            return None
        lines[place] = new
    elif kind == "answer of a call":
        new = other_answer(lines[place])
        if new is None:
            return None
        lines[place] = new
    elif kind in ("call gone", "line gone"):
        del lines[place]
    elif kind in ("call twice", "line twice"):
        lines.insert(place, lines[place])
    elif kind == "order":
        if place + 1 == len(lines) or lines[place] == lines[place + 1]:
            return None
        lines[place], lines[place + 1] = lines[place + 1], lines[place]
    whole = "".join(line + "\n" for line in lines)
    if kind == "byte":
        at = rng.randrange(len(whole))
        whole = whole[:at] + rng.choice([" ", "\n", "0", "x", "\t", ".", "-"]) + whole[at + 1 :]
        certain = False
    elif kind == "cut":
        whole = whole[: rng.randrange(len(whole))]
        certain = True
    if whole == text:
        return None
    return whole, certain
