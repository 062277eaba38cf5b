#!/usr/bin/env python3
"""Measures the programs `bench` and `meerkat`: one table for each benchmark, the ratio that is asked for beside the measured one.

  tools/bench.py [--tries N] [--only WORD]   WORD is one of run, work, trace, report, past, top

A time is processor time, unless it is said to be from start to end, and the best of N tries (5). What a word of `bench` takes once is
the difference between doing it many times and doing it once, so that start and reading are not in it: 11 times, and as often as fills
half a second where it is short. Memory is the peak of resident memory, and never less than this tool's own, some 15 MB; that of a word
is what it adds to doing nothing to the same input. It is measured with one size for all from which the C library gives blocks back to
the system: by itself it raises that size to the largest block that was freed, and then keeps such a block.
"""
import argparse
import os
import subprocess
import sys
import tempfile
import time
from types import SimpleNamespace

TOP = os.path.dirname(os.path.dirname(os.path.abspath(__file__)))
CLIENTS, COLUMNS, TXNS, KEYS = 64, 8, 4096, 256
QUESTIONS = 100_000
MANY = 11
SHORT, FILLED = 0.005, 0.5
ROUND_WORDS = ("work", "drive")
GIVEN_BACK = {**os.environ, "GLIBC_TUNABLES": "glibc.malloc.mmap_threshold=131072"}


def program(name):
    """The built program; its script builds it where that is needed."""
    subprocess.run([f"{TOP}/{name}"], stdin=subprocess.DEVNULL, stdout=subprocess.DEVNULL, check=False)
    path = f"{TOP}/crates/{name}/out/{name}"
    if not os.access(path, os.X_OK):
        sys.exit(f"bench.py: {path} is missing")
    return path


class Measured:
    """What a command took; what it printed is in its file."""

    def __init__(self, words, text, out, env=None):
        with open(text, "rb") as read, open(out, "wb") as write:
            began = time.monotonic()
            child = subprocess.Popen(words, stdin=read, stdout=write, env=env)
            _, status, usage = os.wait4(child.pid, 0)
            self.elapsed = time.monotonic() - began
        child.returncode = os.waitstatus_to_exitcode(status)
        if child.returncode:
            sys.exit(f"bench.py: {' '.join(words)} ended with {child.returncode}")
        self.seconds = usage.ru_utime + usage.ru_stime
        self.megabytes = usage.ru_maxrss / 1024


class Inputs:
    """Scripts and traces, each made once."""

    def __init__(self, room, bench, meerkat):
        self.room, self.bench, self.meerkat = room, bench, meerkat

    def made(self, name, make):
        path = f"{self.room}/{name}"
        if not os.path.exists(path):
            make(path)
        return path

    def empty(self):
        return self.made("empty", lambda path: open(path, "wb").close())

    def lines(self, name, lines):
        def make(path):
            with open(path, "w", encoding="ascii") as file:
                file.writelines(f"{line}\n" for line in lines)

        return self.made(name, make)

    def load(self, txns=TXNS, columns=COLUMNS):
        """The script of `gen 1 64 TXNS 256`, whose clients are dealt to so many columns."""
        printed = self.made(f"printed_{txns}", lambda path: Measured([self.bench, "load", str(txns)], self.empty(), path))

        def dealt():
            with open(printed, encoding="ascii") as file:
                for line in file:
                    words = line.split()
                    if words[0] == "client":
                        words[2] = str(int(words[2]) % columns)
                    yield " ".join(words)

        return self.lines(f"load_{txns}_{columns}", dealt())

    def large(self, rounds):
        """A script whose trace has nearly 64 MiB: 4,096 transactions of 16 writes on seven replicas, in so many rounds."""

        def lines():
            yield from ("meerkat 1", "size 3")
            yield from (f"client c{client} {client % COLUMNS} {client % 7}" for client in range(CLIENTS))
            for txn in range(TXNS):
                if txn and txn % (TXNS // rounds) == 0:
                    yield "round"
                items = " ".join(f"w:k{(txn % CLIENTS * 4 + item) % KEYS}={10**8 + txn * 16 + item}" for item in range(16))
                yield f"txn c{txn % CLIENTS} {txn + 10} {items}"

        return self.lines(f"large_{rounds}", lines())

    def trace(self, script):
        name = f"{os.path.basename(script)}.trace"
        return self.made(name, lambda path: Measured([self.meerkat, "run", "--trace"], script, path))

    def equal_rounds(self, rounds, steps=200_000):
        """A trace whose rounds behind the first only take a message that was taken before: each leaves the state as it was."""
        first = self.lines("one_write", ("meerkat 1", "size 1", "client a 0 0", "txn a 10 w:x=5"))
        with open(self.trace(first), encoding="ascii") as file:
            lines = file.read().splitlines()
        again = [line for line in lines if line.startswith("take ")][-1]

        def repeated():
            yield from lines[:-1]
            for number in range(2, rounds + 1):
                yield from (f"round {number}", "column 0")
                yield from (again for _ in range(steps))
            yield "end"

        return self.lines(f"equal_{rounds}.trace", repeated())


class Bench:
    def __init__(self, room, tries):
        self.tries, self.out = tries, f"{room}/out"
        self.bench, self.meerkat = program("bench"), program("meerkat")
        self.inputs = Inputs(room, self.bench, self.meerkat)
        self.kept = {}

    def best(self, words, text, env=None):
        """The least times and memory of several tries."""
        key = *words, text, env is None
        if key not in self.kept:
            tries = [Measured(words, text, self.out, env) for _ in range(self.tries)]
            self.kept[key] = SimpleNamespace(**{it: min(getattr(one, it) for one in tries) for it in ("seconds", "elapsed", "megabytes")})
        return self.kept[key]

    def whole(self, words, text):
        """The seconds of a call of `meerkat`."""
        return self.best([self.meerkat, *words.split()], text).seconds

    def peak(self, words, text):
        """The megabytes of a call of `meerkat`."""
        return self.best([self.meerkat, *words.split()], text, GIVEN_BACK).megabytes

    def word(self, word, text, times, env=None):
        return self.best([self.bench, word, str(times)], text, env)

    def once(self, word, text, many=MANY):
        """The seconds of doing once what the word says."""
        took = (self.word(word, text, many).seconds - self.word(word, text, 1).seconds) / (many - 1)
        if took < SHORT and word != "drive" and many <= MANY:
            return self.once(word, text, int(FILLED / max(took, FILLED / 10_000)))
        return took

    def end(self, word, text, many=MANY):
        """The seconds from start to end of doing once what the word says."""
        return (self.word(word, text, many).elapsed - self.word(word, text, 1).elapsed) / (many - 1)

    def printed(self, word, text):
        """What doing it once came to."""
        Measured([self.bench, word, "1"], text, self.out)
        with open(self.out, encoding="ascii") as file:
            return int(file.read())

    def memory(self, word, text):
        """The megabytes that doing it adds to doing nothing."""
        nothing, once = (self.word(word, text, times, GIVEN_BACK).megabytes for times in (0, 1))
        return max(once - nothing, 0.0)


def steps_and_entries(trace):
    """How many lines the logs of a trace have, and how many its journals."""
    counts, part = {"column": 0, "cell": 0}, None
    with open(trace, encoding="ascii") as file:
        for line in file:
            word = line.split()[0]
            if word in ("column", "cell", "global", "round", "end"):
                part = word
            elif part in counts:
                counts[part] += 1
    return counts["column"], counts["cell"]


def table(name):
    print(f"\nbench_{name}\n\n| what | figure | beside | ratio | asked | |\n|---|---|---|---|---|---|", flush=True)


def row(what, figure, beside, ratio, most=None, least=None):
    asked = f"at most {most}" if most is not None else f"at least {least}" if least is not None else ""
    holds = (most is None or ratio <= most) and (least is None or ratio >= least)
    print(f"| {what} | {figure} | {beside} | {ratio:.2f} | {asked} | {'' if not asked else 'yes' if holds else 'NO'} |", flush=True)


def by_time(what, took, beside, most=None):
    row(what, told(took), told(beside), took / beside, most)


def by_memory(what, took, beside, most=None):
    row(what, f"{took:.1f} MB", f"{beside:.1f} MB", max(took, 1.0) / max(beside, 1.0), most)


def told(seconds):
    return f"{seconds * 1000:.2f} ms"


def rate(count, seconds):
    return f"{count / seconds / 1e6:.2f} million/s"


def bench_run(b):
    trace, half = (b.inputs.trace(b.inputs.load(txns)) for txns in (TXNS, TXNS // 2))
    steps, entries = steps_and_entries(trace)
    judge, step = b.once("judge", trace), b.once("step", trace)
    row(f"judging {steps} steps and {entries} journal entries, beside the columns' own steps",
        rate(steps + entries, judge), rate(steps, step), (steps + entries) / judge / (steps / step), least=0.5)
    row("the same, the steps alone counted", rate(steps, judge), rate(steps, step), step / judge)
    by_time("judging 4,096 transactions, beside 2,048", judge, b.once("judge", half), 2.2)
    many, few = (b.memory("judge", b.inputs.equal_rounds(rounds)) for rounds in (16, 2))
    by_memory("memory of judging 16 rounds, all but the first of equal state, beside 2", many, few, 1.1)


def bench_work(b):
    loads = {count: b.inputs.load(columns=count) for count in (1, 2, 4, 8)}
    for count, load in loads.items():
        steps, beside = (b.printed(word, load) for word in ROUND_WORDS)
        if steps != beside:
            sys.exit(f"bench.py: {count} workers do {steps} steps, and as many columns in one thread {beside}")
        work, drive = (b.once(word, load) for word in ROUND_WORDS)
        by_time(f"a round of {steps} steps, {count} workers with locks, beside as many columns in one thread over plain cells", work - b.once("begin", load), drive, 1.25)
    for count in (2, 4, 8):
        alone, several = (b.end("work", loads[it]) - b.end("begin", loads[it]) for it in (1, count))
        row(f"the same from start to end, 1 worker, beside {count}", told(alone), told(several), alone / several, least=3.5 if count == 4 else None)


def bench_trace(b):
    trace = b.inputs.trace(b.inputs.load())
    size = os.path.getsize(trace)
    split, read, write = (b.once(word, trace) for word in ("split", "read", "write"))
    by_time(f"reading {size} bytes, beside splitting them into lines and words", read, split, 3)
    by_time("writing them, beside splitting them", write, split, 1.5)
    large, part = b.inputs.trace(b.inputs.large(16)), b.inputs.trace(b.inputs.load(TXNS // 2))
    length, less = os.path.getsize(large), os.path.getsize(part)
    each, beside = b.once("read", large, 2) / length, b.once("read", part) / less
    row(f"reading {length} bytes, beside {less}, a byte", f"{each * 1e9:.1f} ns", f"{beside * 1e9:.1f} ns", each / beside, 1.2)
    pieces, whole = b.memory("feed", large), b.memory("read", large)
    by_memory("memory of reading them in pieces, 16 rounds, beside whole", pieces, whole, 0.25)


def bench_report(b):
    trace = b.inputs.trace(b.inputs.load())
    by_time("the report, beside copying its bytes and sorting its attempts", b.once("report", trace), b.once("copy", trace), 1.5)
    by_time("telling how its attempts ended, beside the report", b.once("outcomes", trace), b.once("report", trace))


def bench_past(b):
    whole, half, quarter = (b.inputs.trace(b.inputs.load(TXNS // part)) for part in (1, 2, 4))
    by_time("the index of 4,096 transactions, beside 2,048", b.once("index", whole), b.once("index", half), 2.2)
    by_time("the index, beside telling how the attempts ended", b.once("index", whole), b.once("outcomes", whole))
    ask, less = b.once("ask", whole) / QUESTIONS, b.once("ask", quarter) / QUESTIONS
    row(f"a question, beside 1,024 transactions ({QUESTIONS} asked)", f"{ask * 1e9:.1f} ns", f"{less * 1e9:.1f} ns", ask / less, 1.5)


def bench_top(b):
    script, half = b.inputs.load(), b.inputs.load(TXNS // 2)
    trace, half_trace = b.inputs.trace(script), b.inputs.trace(half)
    parts = {word: b.once(word, script) for word in ("parse", "drive")}
    parts |= {word: b.once(word, trace) for word in ("read", "write", "judge", "report")}
    calls = (
        (f"gen 1 {CLIENTS} {TXNS} {KEYS}", b.inputs.empty(), ("drive",), 2, f"gen 1 {CLIENTS} {TXNS // 2} {KEYS}", b.inputs.empty()),
        ("run", script, ("parse", "drive", "report"), None, "run", half),
        ("run --trace", script, ("parse", "drive", "write"), None, "run --trace", half),
        ("check", trace, ("read", "judge"), 1.5, "check", half_trace),
    )
    for words, text, of, most, less, less_text in calls:
        took = b.whole(words, text)
        names = ", ".join(f"{it} {told(parts[it])}" for it in of)
        by_time(f"`{words}`, beside {names}", took, sum(parts[it] for it in of), most)
        by_time(f"`{words}`, beside half the load", took, b.whole(less, less_text), 2.1)
        by_memory(f"memory of `{words}`, beside half the load", b.peak(words, text), b.peak(less, less_text))
    many, few = (b.peak("check", b.inputs.equal_rounds(rounds)) for rounds in (16, 2))
    by_memory("memory of `check` of 16 rounds, all but the first of equal state, beside 2", many, few, 1.1)


KINDS = {"run": bench_run, "work": bench_work, "trace": bench_trace, "report": bench_report, "past": bench_past, "top": bench_top}


def main():
    asks = argparse.ArgumentParser(description=__doc__, formatter_class=argparse.RawDescriptionHelpFormatter)
    asks.add_argument("--tries", type=int, default=5)
    asks.add_argument("--only", choices=KINDS)
    asked = asks.parse_args()
    with tempfile.TemporaryDirectory() as room:
        b = Bench(room, asked.tries)
        print(f"{os.cpu_count()} processors, load {os.getloadavg()[0]:.1f}, best of {asked.tries} tries")
        for name, kind in KINDS.items():
            if asked.only in (None, name):
                table(name)
                kind(b)
        print(f"\nload at the end {os.getloadavg()[0]:.1f}")


if __name__ == "__main__":
    main()
