#!/usr/bin/env python3
"""Plays long scenarios, and tells what that takes: events a second, the greatest memory, or instructions an event.

The scenarios are those of `threads.py`, whose sources have so many commands together. Seconds are those of the processor, of the fastest of
some runs, and depend on what else the machine does; instructions don't. They are counted by callgrind, of the whole run.

usage: plays.py PROGRAM [--commands N] [--kinds asks,again,cells,capped] [--connections N].. [--hops N].. [--instructions]
"""
import argparse
import os
import re
import subprocess
import sys
import tempfile
from itertools import product
from pathlib import Path

import threads

RUNS = 3


def played(words, folder):
    """How many events a play has, its seconds of the processor, and the peak of memory in KiB."""
    with open(folder / "told", "w+b") as told:
        process = subprocess.Popen(words, cwd=folder, stdout=told)
        _, status, usage = os.wait4(process.pid, 0)
        process.returncode = os.waitstatus_to_exitcode(status)
        told.seek(0)
        return events_of(told.readline(), process.returncode), usage.ru_utime + usage.ru_stime, usage.ru_maxrss


def events_of(line, status):
    found = re.match(rb"events: (\d+), ", line)
    if status != 0 or not found:
        sys.exit(f"plays: status {status}, {line!r}")
    return int(found[1])


def instructions(words, folder):
    """How many events a play has, and how many instructions it takes."""
    told = ["valgrind", "--tool=callgrind", "--callgrind-out-file=calls", *words]
    done = subprocess.run(told, cwd=folder, capture_output=True)
    events = events_of(done.stdout.split(b"\n")[0], done.returncode)
    return events, int(re.search(r"^totals: (\d+)", (folder / "calls").read_text(), re.M)[1])


def tell(given, kind, connections, hops, commands, folder):
    (folder / "play.toml").write_text(threads.threaded(kind, connections, commands, hops))
    words = [given.program.resolve(), "play", "play.toml", "--seed", "1"]
    if given.instructions:
        events, count = instructions(words, folder)
        columns = (f"{events:,}", f"{count / events:,.0f}")
    else:
        events, seconds, peak = min((played(words, folder) for _ in range(RUNS)), key=lambda one: one[1])
        columns = (f"{events:,}", f"{seconds:.2f}", f"{events / seconds:,.0f}", f"{peak:,}")
    print(f"| {kind}, {connections:,}, {hops} | " + " | ".join(columns) + " |", flush=True)


def main():
    parser = argparse.ArgumentParser(description=__doc__, formatter_class=argparse.RawDescriptionHelpFormatter)
    parser.add_argument("program", type=Path)
    parser.add_argument("--commands", type=int, default=40_000)
    parser.add_argument("--kinds", default=",".join(threads.KINDS))
    parser.add_argument("--connections", type=int, action="append")
    parser.add_argument("--hops", type=int, action="append")
    parser.add_argument("--instructions", action="store_true", help="count instructions an event by callgrind")
    given = parser.parse_args()
    columns = ("events", "instructions an event") if given.instructions else ("events", "s", "events a second", "peak, KiB")
    print("| kind, connections, hops | " + " | ".join(columns) + " |\n|" + " --- |" * (len(columns) + 1))
    with tempfile.TemporaryDirectory() as folder:
        for kind, connections, hops in product(given.kinds.split(","), given.connections or [16, 1024], given.hops or [1, 8]):
            tell(given, kind, connections, hops, given.commands, Path(folder))


main()
