#!/usr/bin/env python3
"""Writes a long scenario for runs in threads, of so many commands, and times such runs.

kinds:
  asks     each source asks for one rate and then another, and listens for the answer each time
  again    each source asks once, and sends its request again and again; it listens in the end alone
  cells    each source asks once, listens, and then sends cells, of which each sixteenth gets lost
  capped   as asks, and the operator gives each port one capacity and then another, as often as a source does something

The paths have eight of 16 ports, or as many as `--hops` says. The same words give the same text. With `--run` the program is run on
scenarios of 1,000, 10,000 and 100,000 commands (or of those that `--commands` says, more than once), for each number of connections and
of hops. The lines that it prints tell where the time goes: `gathered` comes when the threads have ended and their journals are gathered,
`woven` when these are woven. Told are the seconds that went by up to each line, those that the processor worked, the peak of memory, and
the exponents by which they grow from one length to the next. With `--instructions` callgrind counts what `gather` and `weave` take.
"""
import argparse
import math
import os
import subprocess
import sys
import tempfile
from dataclasses import dataclass
from itertools import chain, count, cycle, islice, product
from pathlib import Path
from signal import SIGKILL
from threading import Timer
from time import perf_counter

from scenarios import DELAY, GREAT_PORT, RATES, SECOND, SPACING, TAU, connection

PROGRAM = Path(__file__).resolve().parent.parent / "crates" / "abt" / "out" / "abt"
PORTS, HOPS = 16, 8
LISTEN = "listen 1000000"
CAPACITIES = (GREAT_PORT, GREAT_PORT - 1)
COMMANDS = (1000, 10_000, 100_000)
# What callgrind's lines of the run, of `gather` and of `weave` have in them.
NAMED = {
    "instructions": ("PROGRAM TOTALS",),
    "gather": ("gathering::gather", "gathering.gather"),
    "shown": ("showing::show_run", "showing.show_run"),
    "run": ("whole::run", "whole.run"),
}


def asks():
    yield "start 0"
    for rate in cycle(RATES):
        yield from (f"ask {rate}", LISTEN)


def again():
    yield from ("start 0", f"ask {RATES[0]}")
    while True:
        yield "again"


def cells():
    yield from ("start 0", f"ask {RATES[0]}", LISTEN)
    for cell in count():
        jitter = "lost" if cell % 16 == 15 else cell % TAU
        yield f"emit {SECOND + 2 * cell * SPACING} {jitter}"


KINDS = {"asks": asks, "again": again, "cells": cells, "capped": asks}


def texts(words):
    return "[\n" + "".join(f'"{word}",\n' for word in words) + "]\n"


def threaded(kind, connections, commands, hops):
    """A scenario whose sources have so many commands together."""
    paths = [[(3 * conn + hop) % PORTS for hop in range(hops)] for conn in range(connections)]
    head = f"ports = {[GREAT_PORT] * PORTS}\n"
    each = [commands // connections + (conn < commands % connections) for conn in range(connections)]
    if kind == "capped":
        operator = (f"capacity {place % PORTS} {CAPACITIES[place // PORTS % 2]}" for place in count())
        head += "operator = " + texts(islice(operator, max(each)))
    tables = (
        connection(conn, path) + "script = " + texts(islice(KINDS[kind](), length))
        for conn, (path, length) in enumerate(zip(paths, each))
    )
    return "".join(chain([head], tables))


@dataclass
class Taken:
    """What a run took: seconds up to each line that it printed, seconds of the processor, mebibytes."""

    lines: dict
    processor: float
    peak: float

    def parts(self):
        """Seconds up to `gathered`, from there to `woven`, of the processor for all, and the peak."""
        gathered = self.lines["gathered"]
        return gathered, self.lines["woven"] - gathered, self.processor, self.peak


def taken_by(program, file, workers, most):
    """What a run took, whose last line has to be `safe`; None where it takes more seconds than that."""
    began = perf_counter()
    process = subprocess.Popen([program, "threads", file, "--workers", str(workers)], stdout=subprocess.PIPE, text=True)
    timer = Timer(most, process.kill)
    timer.start()
    lines = {line.strip(): perf_counter() - began for line in process.stdout}
    _, status, usage = os.wait4(process.pid, 0)
    timer.cancel()
    process.returncode = os.waitstatus_to_exitcode(status)
    if process.returncode == -SIGKILL:
        return None
    if process.returncode != 0 or list(lines) != ["gathered", "woven", "safe"]:
        sys.exit(f"threads.py: {file}: the run isn't as it should be (status {process.returncode}, {list(lines)})")
    return Taken(lines, usage.ru_utime + usage.ru_stime, usage.ru_maxrss / 1024)


def best_of(words, file):
    """The fastest of some runs, by the seconds of the processor."""
    taken = [taken_by(words.program, file, words.workers, words.most) for _ in range(words.runs)]
    return min((one.parts() for one in taken if one), key=lambda parts: parts[2], default=None)


def instructions_of(words, file):
    """Instructions of a run, of `gather` in it, of `weave` in it, and of the run of the woven events, by callgrind. The compiler puts
    `weave` into `show_run`, so it is what that takes beside the run of the woven events."""
    with tempfile.NamedTemporaryFile() as counted:
        command = ["valgrind", "--tool=callgrind", "--max-threads=2000", f"--callgrind-out-file={counted.name}", words.program]
        subprocess.run([*command, "threads", file, "--workers", str(words.workers)], check=True, capture_output=True)
        annotate = ["callgrind_annotate", "--inclusive=yes", "--threshold=100", counted.name]
        listed = subprocess.run(annotate, capture_output=True, text=True, check=True).stdout.split("\n")
    found = {}
    for line in listed:
        for name, words_of in NAMED.items():
            if any(word in line for word in words_of) and name not in found:
                found[name] = int(line.split("(")[0].replace(",", ""))
    if len(found) < len(NAMED):
        sys.exit(f"threads.py: {file}: callgrind doesn't name {', '.join(set(NAMED) - set(found))}")
    return found["instructions"], found["gather"], found["shown"] - found["run"], found["run"]


def grown(lengths, values):
    """The exponents by which values grow from one length to the next."""
    pairs = list(zip(lengths, values))
    known = [(n, a, m, b) for (n, a), (m, b) in zip(pairs, pairs[1:]) if a and b]
    return ", ".join(f"{math.log(b / a) / math.log(m / n):.2f}" for n, a, m, b in known)


def measure(words):
    columns = ("instructions", "gather", "weave", "the events run") if words.instructions else ("s to gathered", "s from there to woven", "s of the processor", "peak MiB")
    form = "{:,}" if words.instructions else "{:.3f}"
    print("| kind, connections, hops | commands | " + " | ".join(columns) + " |")
    print("| --- " * (len(columns) + 2) + "|")
    with tempfile.TemporaryDirectory() as folder:
        for connections, hops in product(words.connections or [4], words.hops or [HOPS]):
            name, taken = f"{words.kind}, {connections:,}, {hops}", []
            for commands in words.commands:
                file = Path(folder, "scenario.toml")
                file.write_text(threaded(words.kind, connections, commands, hops))
                one = (instructions_of if words.instructions else best_of)(words, file)
                taken.append(one or (None,) * len(columns))
                told = (form.format(value) if value is not None else "-" for value in taken[-1])
                print(f"| {name} | {commands:,} | " + " | ".join(told) + " |", flush=True)
            told = (grown(words.commands, values) for values in zip(*taken))
            print(f"| {name} | exponents | " + " | ".join(told) + " |", flush=True)


def main():
    parser = argparse.ArgumentParser(description=__doc__, formatter_class=argparse.RawDescriptionHelpFormatter)
    parser.add_argument("kind", choices=KINDS)
    parser.add_argument("--connections", type=int, action="append", metavar="N", help="how many there are; without it, 4; with --run more than once")
    parser.add_argument("--hops", type=int, action="append", metavar="N", help="how many ports a path has; without it, 8; with --run more than once")
    parser.add_argument("--commands", type=int, action="append", metavar="N", help="how many there are together; without it, 1,000")
    parser.add_argument("--run", action="store_true", help="runs the program on them and tells what that took")
    parser.add_argument("--instructions", action="store_true", help="as --run, but callgrind counts the instructions (slow)")
    parser.add_argument("--workers", type=int, default=4, metavar="N", help="how many link workers; without it, 4")
    parser.add_argument("--runs", type=int, default=3, metavar="N", help="the fastest of so many runs; without it, of 3")
    parser.add_argument("--most", type=float, default=600, metavar="SECONDS", help="a run that takes longer is ended, and `-` told; without it, 600")
    parser.add_argument("--program", default=PROGRAM, metavar="FILE", help="the program; without it, the one that was built here")
    words = parser.parse_args()
    if words.run or words.instructions:
        words.commands = words.commands or COMMANDS
        measure(words)
    else:
        connections, commands, hops = (given[0] if given else usual for given, usual in (
            (words.connections, 4), (words.commands, 1000), (words.hops, HOPS)))
        sys.stdout.write(threaded(words.kind, connections, commands, hops))


if __name__ == "__main__":
    main()
