#!/usr/bin/env python3
"""Measures what `abt run` costs, and prints tables.

Instructions are counted by callgrind and come out the same each time. Seconds are those of the fastest of some runs, on this machine;
where other programs run beside it, `--processor` takes the seconds that the processor worked.
The peak of memory is what the system counted for the run; below some 20 MiB it is that of this script. Each run is looked at: its
report has to tell of as many events as were written, all of them enabled, and has to end with `safe`.

Nothing here is part of the gate. It needs valgrind.
"""
import argparse
import math
import os
import subprocess
import sys
import tempfile
from pathlib import Path
from time import perf_counter

HERE = Path(__file__).resolve().parent
PROGRAM = HERE.parent / "crates" / "abt" / "out" / "abt"
LONGEST = 16_777_216
TESTED = [
    ("one-port", 4),
    ("one-port", 16),
    ("one-port", 1024),
    ("many-ports", 16),
    ("many-ports", 1024),
    ("long-paths", 16),
    ("repeats", 16),
    ("cells", 16),
    ("cells", 1024),
    ("again", 1),
]
# Steps of a world: the kind that has them, how many of its events in so many are other ones, the kind that has these alone, and how many
# instructions a step should take at most.
STEPS = [
    ("a step that isn't enabled", "not-enabled", 1, None, 150),
    ("an ask", "asks", 1, None, None),
    ("a request at one hop", "requests", 2, "asks", 700),
]
STEP = "abt_world::world::World::step"
# What the figures should keep to.
MOST_INSTRUCTIONS = 2500
MOST_GROWTH = 1.05
MOST_EXPONENT = 1.1
MOST_MEBIBYTES = 150
MOST_FOR_FULL_PORT = 1.1


class Bench:
    """Runs of one program over scenarios in a folder of its own."""

    def __init__(self, program, folder, runs, is_processor):
        self.program, self.folder, self.runs, self.is_processor = program, Path(folder), runs, is_processor

    def scenario(self, *words):
        """The file of a scenario, written where it isn't there yet."""
        file = self.folder / ("_".join(words) + ".toml")
        if not file.exists():
            with file.open("wb") as output:
                subprocess.run([sys.executable, HERE / "scenarios.py", *words], stdout=output, check=True)
        return file

    def once(self, file):
        """Status, seconds and mebibytes of one run, its report in the file `report`, what it told in `told`."""
        with (self.folder / "report").open("wb") as report, (self.folder / "told").open("wb") as told:
            began = perf_counter()
            process = subprocess.Popen([self.program, "run", file], stdout=report, stderr=told)
            _, status, usage = os.wait4(process.pid, 0)
            seconds = perf_counter() - began
        process.returncode = os.waitstatus_to_exitcode(status)
        if self.is_processor:
            seconds = usage.ru_utime + usage.ru_stime
        return process.returncode, seconds, usage.ru_maxrss / 1024

    def fastest(self, file):
        """Status, seconds and mebibytes of the fastest run of some."""
        return min((self.once(file) for _ in range(self.runs)), key=lambda run: run[1])

    def looked_at(self, is_enabled=True):
        """The number of events of the report, which has to be that of a run as it should be."""
        # Line by line, so that this script stays small: what it took counts for the peaks of later runs.
        events, enabled, last = 0, 0, ""
        with (self.folder / "report").open() as report:
            for line in report:
                if line.startswith("events "):
                    events = int(line.removeprefix("events "))
                enabled += line[0].isdigit() and " not-enabled " not in line
                last = line
        if is_enabled and enabled != events or last != "safe\n":
            sys.exit(f"measure.py: {enabled} of {events} events are enabled, and the report ends with {last!r}")
        return events

    def instructions(self, file):
        """How many instructions a run takes; callgrind's file is `calls`."""
        words = ["valgrind", "--tool=callgrind", f"--callgrind-out-file={self.folder / 'calls'}", self.program, "run", file]
        with (self.folder / "report").open("wb") as report:
            subprocess.run(words, stdout=report, stderr=subprocess.DEVNULL, check=True)
        self.looked_at()
        totals = [line for line in (self.folder / "calls").read_text().split("\n") if line.startswith("totals: ")]
        return int(totals[0].removeprefix("totals: "))

    def in_steps(self, kind, events):
        """How many instructions a run takes in the steps of its world."""
        file = self.scenario(kind, "--connections", "16", "--events", str(events))
        words = ["valgrind", "--tool=callgrind", f"--toggle-collect={STEP}", f"--callgrind-out-file={self.folder / 'calls'}", self.program, "run", file]
        with (self.folder / "report").open("wb") as report:
            subprocess.run(words, stdout=report, stderr=subprocess.DEVNULL, check=True)
        self.looked_at(kind != "not-enabled")
        totals = [line for line in (self.folder / "calls").read_text().split("\n") if line.startswith("totals: ")]
        return int(totals[0].removeprefix("totals: ")) or sys.exit(f"measure.py: the program has no function {STEP}")

    def heaviest(self, count):
        """The lines of the functions that cost most in the run that was counted last."""
        words = ["callgrind_annotate", "--threshold=100", self.folder / "calls"]
        listed = subprocess.run(words, capture_output=True, text=True, check=True).stdout.split("\n")
        return [line.strip() for line in listed if "%)" in line and "PROGRAM TOTALS" not in line][:count]


def row(*fields):
    print("| " + " | ".join(str(field) for field in fields) + " |", flush=True)


def heading(*fields):
    print()
    row(*fields)
    row(*("---" for _ in fields))


def named(kind, connections):
    return f"{kind}, {connections:,}"


def words_of(kind, connections, events):
    return kind, "--connections", str(connections), "--events", str(events)


def count_instructions(bench, tested, low, high, listed):
    """The table of instructions; gives what falls short."""
    heading("kind, connections", f"instructions an event, {low:,} events", f"{high:,} events", "ratio", "each event between")
    short, further = [], {}
    for kind, connections in tested:
        counted = [bench.instructions(bench.scenario(*words_of(kind, connections, events))) for events in (low, high)]
        each = [total / events for total, events in zip(counted, (low, high))]
        ratio, between = each[1] / each[0], (counted[1] - counted[0]) / (high - low)
        further[kind, connections] = between
        row(named(kind, connections), f"{each[0]:,.0f}", f"{each[1]:,.0f}", f"{ratio:.3f}", f"{between:,.0f}")
        for line in bench.heaviest(listed):
            print(f"    {line}")
        if each[1] > MOST_INSTRUCTIONS:
            short.append(f"{named(kind, connections)}: more than {MOST_INSTRUCTIONS:,} instructions an event")
        if ratio > MOST_GROWTH:
            short.append(f"{named(kind, connections)}: an event costs more than {MOST_GROWTH} times as much in the longer run")
    if {("one-port", 16), ("one-port", 1024)} <= further.keys():
        ratio = further["one-port", 1024] / further["one-port", 16]
        print(f"\nAt a port of 1,024 connections an event costs {ratio:.3f} times one at a port of 16.")
        if ratio > MOST_FOR_FULL_PORT:
            short.append(f"one-port: at 1,024 connections more than {MOST_FOR_FULL_PORT} times as much as at 16")
    return short


def count_steps(bench, low, high):
    """The table of single steps; gives what falls short."""
    heading("step", "wanted", "instructions")
    short = []
    for name, kind, share, other, most in STEPS:
        steps = (high - low) // share
        taken = bench.in_steps(kind, high) - bench.in_steps(kind, low)
        if other:
            taken -= bench.in_steps(other, high // share) - bench.in_steps(other, low // share)
        row(name, most and f"at most {most}" or "", f"{taken / steps:,.0f}")
        if most and taken > most * steps:
            short.append(f"{name}: more than {most} instructions")
    return short


def exponent(low, high):
    """The exponent with which the seconds grow, of two pairs of a size and its seconds."""
    return math.log(high[1] / low[1]) / math.log(high[0] / low[0])


def measure_seconds(bench, tested, sizes):
    """The table of seconds; gives what falls short."""
    first = 1 if len(sizes) > 2 else 0
    heading("kind, connections", *(f"s, {events:,} events" for events in sizes), f"exponent from {sizes[first]:,}", "peak MiB")
    short = []
    for kind, connections in tested:
        taken = []
        for events in sizes:
            _, seconds, peak = bench.fastest(bench.scenario(*words_of(kind, connections, events)))
            bench.looked_at()
            taken.append((events, seconds))
        grows = exponent(taken[first], taken[-1])
        row(named(kind, connections), *(f"{seconds:.3f}" for _, seconds in taken), f"{grows:.2f}", f"{peak:.0f}")
        if grows > MOST_EXPONENT:
            short.append(f"{named(kind, connections)}: the seconds grow with an exponent above {MOST_EXPONENT}")
    return short


def measure_longest(bench, tested):
    """The table of the longest texts; gives what falls short."""
    heading("longest text of a kind, connections", "events", "s", "peak MiB")
    short = []
    for kind, connections in tested:
        _, seconds, peak = bench.fastest(bench.scenario(kind, "--connections", str(connections), "--octets", str(LONGEST)))
        row(named(kind, connections), f"{bench.looked_at():,}", f"{seconds:.2f}", f"{peak:.0f}")
        if peak > MOST_MEBIBYTES:
            short.append(f"longest text of {named(kind, connections)}: more than {MOST_MEBIBYTES} MiB")
    return short


def measure_refused(bench):
    """The table of texts with far too many connections; gives what falls short."""
    heading("too-many, connections", "octets", "status", "told", "s", "peak MiB")
    taken = []
    for parts in (16, 4, 1):
        connections, octets = 200_000 // parts, LONGEST // parts
        status, seconds, peak = bench.fastest(bench.scenario("too-many", "--connections", str(connections), "--octets", str(octets)))
        told = (bench.folder / "told").read_text().strip()
        row(f"{connections:,}", f"{octets:,}", status, told, f"{seconds:.2f}", f"{peak:.0f}")
        taken.append((octets, seconds))
    grows = exponent(taken[0], taken[-1])
    print(f"\nThe seconds grow with an exponent of {grows:.2f}.")
    return [f"too-many: refused with an exponent above {MOST_EXPONENT}"] if grows > MOST_EXPONENT else []


def numbers(text):
    return [int(word) for word in text.split(",")]


def main():
    parser = argparse.ArgumentParser(description=__doc__, formatter_class=argparse.RawDescriptionHelpFormatter)
    parser.add_argument("--program", type=Path, default=PROGRAM, help="the program; without it, the one that `abt` built")
    parser.add_argument("--counted", type=numbers, default=[10_000, 100_000], metavar="N,N", help="the two numbers of events at which instructions are counted")
    parser.add_argument("--sizes", type=numbers, default=[1_000, 10_000, 100_000, 300_000], metavar="N,..", help="the numbers of events at which seconds are taken; the exponent is from the second to the last of them, or from the first of two")
    parser.add_argument("--kinds", default="", metavar="WORD,..", help="only these kinds")
    parser.add_argument("--runs", type=int, default=3, metavar="N", help="how many runs, of which the fastest counts; without it, 3")
    parser.add_argument("--processor", action="store_true", help="take the seconds that the processor worked, and not those that went by")
    parser.add_argument("--calls", type=int, default=0, metavar="N", help="list the N functions that cost most in each longer run")
    parser.add_argument("--only", choices=["instructions", "steps", "seconds", "longest", "refused"], help="only this table")
    words = parser.parse_args()
    tested = [one for one in TESTED if not words.kinds or one[0] in words.kinds.split(",")]
    short = []
    with tempfile.TemporaryDirectory() as folder:
        bench = Bench(words.program.resolve(), folder, words.runs, words.processor)
        if words.only in (None, "instructions"):
            short += count_instructions(bench, tested, *words.counted, words.calls)
        if words.only in (None, "steps"):
            short += count_steps(bench, *words.counted)
        if words.only in (None, "seconds"):
            short += measure_seconds(bench, tested, words.sizes)
        if words.only in (None, "longest"):
            short += measure_longest(bench, tested)
        if words.only in (None, "refused"):
            short += measure_refused(bench)
    print("\n" + "\n".join([*short, f"{len(short)} figures fall short"]))


if __name__ == "__main__":
    main()
