"""What the texts of one run have to say of each other. Each text is read by itself; no rule of the store is used but those that
docs/FORMATS.md states of the texts."""

import json
import re
from dataclasses import dataclass, field

GLOBALS = {"wipe", "ask", "promise", "merge", "adopt", "enter"}
READ = re.compile(r"r:(\w+)@(\d+\.\d+)=(\w+)")
WRITE = re.compile(r"w:(\w+)=(\w+)")


class Differs(Exception):
    """Two texts of one run do not agree."""


def expect(wanted, seen, what):
    if wanted != seen:
        raise Differs(f"{what}: wanted {wanted!r}, saw {seen!r}")


def stamp_key(stamp):
    """Stamps in their order: by time, then by client."""
    time, client = stamp.split(".")
    return int(time), int(client)


@dataclass
class Attempt:
    """An attempt's line of a report."""

    id: str
    stamp: str | None = None
    outcome: str = "open"
    path: str = ""
    cause: str | None = None
    reads: list = field(default_factory=list)
    writes: list = field(default_factory=list)


@dataclass
class Report:
    attempts: list = field(default_factory=list)
    globals: list = field(default_factory=list)
    store: list = field(default_factory=list)
    counts: tuple = (0, 0, 0)

    def commits(self, stamp=None):
        """The commits in order of stamp, those at or below this one."""
        found = [one for one in self.attempts if one.outcome == "commit"]
        if stamp is not None:
            found = [one for one in found if stamp_key(one.stamp) <= stamp_key(stamp)]
        return sorted(found, key=lambda one: stamp_key(one.stamp))

    def copy(self, stamp=None):
        """What one copy holds that takes these commits in order: for each written key its version and value."""
        held = {}
        for one in self.commits(stamp):
            for key, value in one.writes:
                held[key] = (one.stamp, value)
        return held


def store_lines(word, held):
    """A line for each key of the copy whose value is a number, in order of names."""
    return [f"{word} {key} {version} {value}" for key, (version, value) in sorted(held.items()) if value != "none"]


def read_attempt(line):
    words = line.split()
    if words[1] == "open":
        return Attempt(words[0], path=" ".join(words[2:]))
    first = next((place for place, word in enumerate(words) if word.startswith(("r:", "w:"))), len(words))
    said, items = words[3:first], words[first:]
    cause = None
    if "because" in said:
        place = said.index("because")
        said, cause = said[:place], " ".join(said[place + 1 :])
    reads = [match.groups() for match in map(READ.fullmatch, items) if match]
    writes = [match.groups() for match in map(WRITE.fullmatch, items) if match]
    expect(len(items), len(reads) + len(writes), f"items of {line!r}")
    return Attempt(words[0], words[1].removeprefix("@"), words[2], " ".join(said), cause, reads, writes)


def read_report(text):
    report = Report()
    for line in text.splitlines():
        words = line.split()
        if words[0] in GLOBALS:
            report.globals.append(line)
        elif words[0] == "store":
            report.store.append(line)
        elif words[0] == "end":
            report.counts = tuple(map(int, words[1:]))
        elif words[0] not in ("shown", "follow"):
            report.attempts.append(read_attempt(line))
    return report


def check_report(report):
    """The report agrees with itself: its counts, its store, and what its commits read."""
    counts = tuple(sum(one.outcome == kind for one in report.attempts) for kind in ("commit", "abort", "open"))
    expect(counts, report.counts, "counts of the end line")
    expect(store_lines("store", report.copy()), report.store, "store lines")
    held = {}
    for one in report.commits():
        for key, version, value in one.reads:
            expect(held.get(key, ("0.0", "0")), (version, value), f"read of {key} by {one.id}")
        for key, value in one.writes:
            held[key] = (one.stamp, value)
    stamps = [one.stamp for one in report.attempts if one.stamp]
    expect(len(stamps), len(set(stamps)), "stamps, each once")


def number(value):
    return None if value == "none" else int(value)


def json_of(report):
    """The JSON that says the same as the report."""
    attempts = [
        {
            "cause": one.cause,
            "id": one.id,
            "outcome": one.outcome,
            "path": one.path,
            "reads": [{"key": key, "value": number(value), "version": version} for key, version, value in one.reads],
            "stamp": one.stamp,
            "writes": [{"key": key, "value": number(value)} for key, value in one.writes],
        }
        for one in report.attempts
    ]
    store = [{"key": key, "value": int(value), "version": version} for _, key, version, value in map(str.split, report.store)]
    commits, aborts, opens = report.counts
    whole = {"aborts": aborts, "attempts": attempts, "commits": commits, "globals": report.globals, "opens": opens, "store": store}
    return json.dumps(whole, sort_keys=True, separators=(",", ":")) + "\n"


def spelled(value):
    return "none" if value is None else str(value)


def report_of_json(text):
    """The report that says the same as this JSON."""
    whole = json.loads(text)
    attempts = [
        Attempt(
            one["id"],
            one["stamp"],
            one["outcome"],
            one["path"],
            one["cause"],
            [(item["key"], item["version"], spelled(item["value"])) for item in one["reads"]],
            [(item["key"], spelled(item["value"])) for item in one["writes"]],
        )
        for one in whole["attempts"]
    ]
    store = [f"store {item['key']} {item['version']} {item['value']}" for item in whole["store"]]
    return Report(attempts, whole["globals"], store, (whole["commits"], whole["aborts"], whole["opens"]))


def at_text(report, stamp):
    """What `at` says of this stamp."""
    lines = store_lines("store", report.copy(stamp)) + [f"at {stamp} {len(report.commits(stamp))}"]
    return "".join(line + "\n" for line in lines)


def refused_check(trace, key, reason, stamp, owner):
    """The place of the first check of `stamp` at the key that was refused with this reason and owner, in order of round, replica, entry."""
    number_of_round, cell, entry = 0, None, 0
    for line in trace.splitlines():
        words = line.split()
        if words[0] == "round":
            number_of_round, cell = int(words[1]), None
        elif words[0] in ("column", "global", "end"):
            cell = None
        elif words[0] == "cell":
            cell, entry = words[1:], 0
        elif cell:
            entry += 1
            refused = words[1] in ("checkread", "checkwrite") and words[2] == stamp and words[-2:] == [reason, owner]
            if refused and cell[1] == key:
                return f"round {number_of_round} cell {cell[0]} {key} {entry}"
    raise Differs(f"no check of {stamp} at {key} was refused with {reason} {owner}")


def why_text(report, trace, one):
    """What `why` says of this attempt."""
    if one.outcome == "open":
        return f"why {one.id} open {one.path}\n"
    if one.outcome == "commit":
        return f"why {one.id} commit {one.path}\n"
    cause = one.cause.split()
    if cause[0] != "conflict":
        return f"why {one.id} {one.cause}\n"
    _, key, reason, stamp = cause
    owners = [other for other in report.attempts if other.stamp == stamp]
    expect(1, len(owners), f"attempts with the stamp {stamp}, the cause of {one.id}")
    place = refused_check(trace, key, reason, one.stamp, stamp)
    return f"why {one.id} {one.cause} {place} owner {owners[0].id} {owners[0].outcome}\n"


def check_follow(report, text, rounds):
    """The follower's lines behind the report agree with it."""
    lines = text.splitlines()
    shown = [line.split() for line in lines if line.startswith("shown ")]
    if shown:
        expect([str(place + 1) for place in range(rounds)], [words[1] for words in shown], "rounds shown")
    marks = [stamp_key(words[2]) for words in shown]
    expect(sorted(marks), marks, "watermarks, which never fall")
    for _, place, stamp, count in shown:
        expect(len(report.copy(stamp)), int(count), f"keys shown after round {place}")
    followed = [line for line in lines if line.startswith("follow ")]
    expect(store_lines("follow", report.copy()), followed, "follow lines")
