#!/usr/bin/env python3
"""Random trials of the built program against itself.

For each seed one random script goes through every word: `run`, `run --trace`, `run --json`, `run --follow`; the trace goes
through `check`, `at` of every commit's stamp and `why` of every attempt. Each text has to agree with itself, and those of one run with
each other (tools/trial/texts.py); the trace has to be legal, and each forged trace has to be refused or judged. A script with one fault
has to be refused at the faulty line with its fault. Random scripts and forgeries: tools/trial/scripts.py and tools/trial/forging.py. A
seed gives the same script each time; where clients of several columns meet at a key, two runs of it may differ.

Usage: tools/trials.py [--from SEED] [--jobs JOBS] [--program FILE] COUNT
"""

import argparse
import collections
import multiprocessing
import os
import pathlib
import random
import signal
import sys
import time

sys.path.insert(0, str(pathlib.Path(__file__).resolve().parent))
from trial import forging, scripts, texts
from trial.texts import Differs, expect

TOP = pathlib.Path(__file__).resolve().parent.parent
FORGED = 3


class Program:
    """The built program, and how often it was called. Input, output and errors are files in memory, which cost less than pipes."""

    def __init__(self, file):
        self.file = file
        self.tally = collections.Counter()
        self.streams = [os.memfd_create(name) for name in ("input", "output", "errors")]

    def close(self):
        for stream in self.streams:
            os.close(stream)

    def call(self, words, given):
        """Status, output and errors of one call, which may take 60 seconds."""
        self.tally["calls"] += 1
        for stream in self.streams:
            os.ftruncate(stream, 0)
            os.lseek(stream, 0, os.SEEK_SET)
        put(self.streams[0], given)
        ends = [(os.POSIX_SPAWN_DUP2, stream, number) for number, stream in enumerate(self.streams)]
        number = os.posix_spawn(self.file, [self.file, *words], {}, file_actions=ends)
        signal.signal(signal.SIGALRM, lambda *_: os.kill(number, signal.SIGKILL))
        signal.alarm(60)
        status = os.waitstatus_to_exitcode(os.waitpid(number, 0)[1])
        signal.alarm(0)
        return status, held(self.streams[1]).decode(), held(self.streams[2]).decode()

    def wrote(self, words, given, status):
        """What a call writes that has to end with this status and no line on standard error."""
        seen, text, errors = self.call(words, given)
        expect((status, ""), (seen, errors), f"status and errors of {' '.join(words)}")
        return text


def put(stream, given):
    """Writes all of it at the stream's begin, where the next read is."""
    at = 0
    while at < len(given):
        at += os.pwrite(stream, given[at:], at)


def held(stream):
    """All bytes of the stream."""
    size, parts = os.fstat(stream).st_size, []
    while sum(map(len, parts)) < size:
        parts.append(os.pread(stream, size, sum(map(len, parts))))
    return b"".join(parts)


def ran(program, words, given):
    """What a run writes; its status tells whether an attempt is left."""
    status, text, errors = program.call(words, given)
    if status not in (0, 6) or errors:
        raise Differs(f"status and errors of {' '.join(words)}: {status} {errors!r}")
    return status, text


def try_report(status, report):
    """The report of one run agrees with itself and with the status."""
    texts.check_report(report)
    expect(6 if report.counts[2] else 0, status, "status of a run")


def try_run(program, rng, script):
    """The texts of four runs; where all clients are of one column, the four are one and the same."""
    given = script.text().encode()
    if rng.random() < 0.3:
        given = "".join(line + "\n" for line in scripts.commented(rng, script.lines())).encode()
    status, text = ran(program, ["run"], given)
    report = texts.read_report(text)
    try_report(status, report)
    json_status, told = ran(program, ["run", "--json"], given)
    json_report = texts.report_of_json(told)
    try_report(json_status, json_report)
    expect(texts.json_of(json_report), told, "JSON, written again")
    _, trace = ran(program, ["run", "--trace"], given)
    if script.has_one_column():
        expect(texts.json_of(report), told, "JSON")
        try_trace(program, report, trace)
    else:
        try_foreign(program, trace)
    try_follow(program, script, given, text)
    program.tally.update(commits=report.counts[0], aborts=report.counts[1], opens=report.counts[2], globals=len(report.globals))
    return trace


def try_follow(program, script, given, text):
    """The follower's lines agree with the report above them. A program without the word passes."""
    status, followed, _ = program.call(["run", "--follow"], given)
    if status == 1:
        return
    report = texts.read_report(followed)
    try_report(status, report)
    texts.check_follow(report, followed, len(script.rounds))
    if script.has_one_column():
        expect(text, followed[: len(text)], "the report of run --follow")


def try_foreign(program, trace):
    """A trace whose report is not known is legal."""
    verdict = program.wrote(["check"], trace.encode(), 0)
    expect("legal", verdict.split()[0], "verdict")


def try_trace(program, report, trace):
    given = trace.encode()
    counts = " ".join(map(str, report.counts))
    expect(f"legal {counts}\n", program.wrote(["check"], given, 0), "verdict")
    if program.call(["at", "0.0"], given)[0] == 1:
        return
    for one in report.commits():
        expect(texts.at_text(report, one.stamp), program.wrote(["at", one.stamp], given, 0), f"at {one.stamp}")
    for one in report.attempts:
        expect(texts.why_text(report, trace, one), program.wrote(["why", one.id], given, 0), f"why {one.id}")
    expect((10, "", "no attempt\n"), program.call(["why", "nobody.1"], given), "why nobody.1")


def try_forged(program, rng, trace):
    for _ in range(FORGED):
        forgery = forging.forged(rng, trace)
        if forgery is None:
            continue
        text, is_certain = forgery
        status, verdict, errors = program.call(["check"], text.encode())
        program.tally[f"forged traces with status {status}"] += 1
        if status == 8:
            line = int(errors.removeprefix("line ").split(":")[0])
            if not 1 <= line <= text.count("\n") + 1:
                raise Differs(f"a forged trace names line {line}")
        elif status == 7:
            expect("broken", verdict.split()[0], "verdict on a forged trace")
        elif status != 0 or is_certain:
            raise Differs(f"a forged trace has status {status}: {verdict}{errors}\n{text}")


def try_faulty(program, rng):
    given, line, fault = scripts.faulty_script(rng)
    for words in (["run"], ["run", "--trace"]):
        expect((2, "", f"line {line}: {fault}\n"), program.call(words, given), f"{' '.join(words)} of a script with the fault {fault}\n{given.decode('latin-1')}")
    program.tally[f"scripts refused: {fault}"] += 1


def trial(seed, file):
    """The tally of one seed, and what differs in it, if anything does."""
    rng = random.Random(seed)
    program = Program(file)
    script = scripts.random_script(rng)
    try:
        trace = try_run(program, rng, script)
        try_forged(program, rng, trace)
        try_faulty(program, rng)
    except (Differs, ValueError, IndexError, KeyError) as error:
        return program.tally, f"seed {seed}: {type(error).__name__}: {error}\n{script.text()}"
    finally:
        program.close()
    return program.tally, None


def one_trial(given):
    return trial(*given)


def main():
    asks = argparse.ArgumentParser(description="Random trials of the built program against itself.")
    asks.add_argument("count", type=int)
    asks.add_argument("--from", dest="first", type=int, default=1, help="the first seed")
    asks.add_argument("--jobs", type=int, default=multiprocessing.cpu_count())
    asks.add_argument("--program", default=str(TOP / "crates/meerkat/out/meerkat"))
    asked = asks.parse_args()
    began = time.monotonic()
    tally, differing = collections.Counter(), 0
    with multiprocessing.Pool(asked.jobs) as pool:
        seeds = ((seed, asked.program) for seed in range(asked.first, asked.first + asked.count))
        for counts, difference in pool.imap_unordered(one_trial, seeds, chunksize=16):
            tally.update(counts)
            if difference:
                differing += 1
                print(difference, flush=True)
    print(f"trials: seeds {asked.first} to {asked.first + asked.count - 1}, {differing} with a difference, {time.monotonic() - began:.0f} seconds")
    for what in sorted(tally):
        print(f"  {what}: {tally[what]}")
    return 1 if differing else 0


if __name__ == "__main__":
    sys.exit(main())
