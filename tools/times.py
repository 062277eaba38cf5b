#!/usr/bin/env python3
"""Runs a command and prints how much processor time its checks took, crate by crate.

  tools/times.py TABLE COMMAND..   writes the table to the file TABLE, passes the command's output on, and ends with its status

A crate's time is that of the `rattle` processes below the command that name the crate, as /proc/PID/stat tells it twice
a second; what a process takes after its last reading is not counted.
"""
import collections
import os
import re
import subprocess
import sys
import threading
import time

TICKS = os.sysconf("SC_CLK_TCK")
KINDS = ("proof", "tests", "edits", "build")


def processes():
    """Each process: its parent, when it began, and the ticks that it and its ended children took."""
    for name in filter(str.isdigit, os.listdir("/proc")):
        try:
            with open(f"/proc/{name}/stat", encoding="utf-8", errors="replace") as file:
                fields = file.read().rsplit(")", 1)[1].split()
        except OSError:
            continue
        yield int(name), int(fields[1]), int(fields[19]), sum(map(int, fields[11:15]))


def words_of(pid):
    try:
        with open(f"/proc/{pid}/cmdline", "rb") as file:
            return file.read().decode(errors="replace").split("\0")
    except OSError:
        return []


def told(words):
    """The crate and the kind of work of a process of the checker, if it is one."""
    if len(words) < 2 or not words[0].endswith("/rattle") or "--crate-name" not in words:
        return None
    crate = words[words.index("--crate-name") + 1]
    if "--test" in words:
        return crate, "tests"
    if "--statements" in words:
        return crate, "proof"
    return crate, "edits" if "--incremental" in words else "build"


def sample(root, is_over, taken):
    kinds = {}
    while not is_over.wait(0.5):
        found = {pid: rest for pid, *rest in processes()}
        for pid, (parent, began, ticks) in found.items():
            above = parent
            while above in found and above != root:
                above = found[above][0]
            if above != root:
                continue
            key = pid, began
            # a process that has just begun still has its parent's words
            kinds[key] = kinds.get(key) or told(words_of(pid))
            if kinds[key]:
                taken[key] = kinds[key], ticks


def table(taken, wall):
    times = collections.defaultdict(lambda: dict.fromkeys(KINDS, 0.0))
    for (crate, kind), ticks in taken.values():
        times[crate][kind] += ticks / TICKS
    rows = sorted(times.items(), key=lambda row: -sum(row[1].values()))
    lines = [f"{'processor seconds':20} {' '.join(f'{kind:>7}' for kind in KINDS)} {'all':>7}"]
    for crate, row in rows:
        lines.append(f"{crate:20} {' '.join(f'{row[kind]:7.0f}' for kind in KINDS)} {sum(row.values()):7.0f}")
    sums = {kind: sum(row[kind] for _, row in rows) for kind in KINDS}
    lines.append(f"{'all':20} {' '.join(f'{sums[kind]:7.0f}' for kind in KINDS)} {sum(sums.values()):7.0f}")
    lines.append(f"{sum(sums.values()) / 60:.0f} processor minutes in {wall / 60:.0f} minutes")
    return "\n".join(lines)


def main(path, *command):
    taken, is_over, start = {}, threading.Event(), time.monotonic()
    running = subprocess.Popen(command)
    sampler = threading.Thread(target=sample, args=(running.pid, is_over, taken))
    sampler.start()
    status = running.wait()
    is_over.set()
    sampler.join()
    with open(path, "w", encoding="utf-8") as file:
        print(table(taken, time.monotonic() - start), file=file)
    return status


if __name__ == "__main__":
    sys.exit(main(*sys.argv[1:]))
