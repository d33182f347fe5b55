#!/usr/bin/env python3
"""Compiles the program and all tests without a proof, and runs the tests, the samples and every script that needs no proof.

usage: abt --test [--jobs N] [--seconds N] [NAME..]      (NAME: a script or a test, by its name or the beginning of it; without one, all)

Each test runs in a process of its own, under the address sanitizer. A line tells what begins and what ended; one that begins with FAILED
has the words that run that part alone. The last line is `N passed, M failed`, and the status is 1 if something failed. The programs stay
in crates/abt/out while no source is newer. What interrupts this command ends what it started, and leaves no half-made file.
"""
import argparse
import os
import re
import sys
import tempfile
import threading
import time
from concurrent.futures import ThreadPoolExecutor
from pathlib import Path

import merged
import processes
import program
import unproved

ROOT = Path(__file__).resolve().parent.parent
TESTS = "abt.tests"
# Where scripts that need no proof stand; what is told soonest comes first.
PLACES = (".ci/gate/texts.py", "tests/*.py", ".ci/documents/*.py")
# How long a script and a test may take, in seconds.
SCRIPT_SECONDS, TEST_SECONDS = 600, 120
# How many characters of a failed part are shown, and after how many tests there is a line.
SHOWN, EVERY = 1500, 50


class Tally:
    """What passed and what failed, told as it comes."""

    def __init__(self):
        self.began, self.lock = time.time(), threading.Lock()
        self.passed, self.failures = 0, []

    def say(self, text):
        with self.lock:
            print(f"test: {time.time() - self.began:4.0f} s  {text}", flush=True)

    def take(self, name, status, told, limit):
        """Takes down how a part ended; a failure is told with its last words, and with the words that run the part again."""
        if status == 0:
            with self.lock:
                self.passed += 1
            return
        why = f"no end after {limit} seconds" if status is None else f"status {status}"
        with self.lock:
            self.failures.append(f"{name}: {why}")
        self.say(f"FAILED {name}: {why}; again: ./abt --test {name}\n{told[-SHOWN:].rstrip()}")


def scripts(names):
    """The scripts that are asked for: each with what it is run with, if anything: PROGRAM, or TESTS, the program of all tests. A script says
    so in its line of usage."""
    found = {}
    for place in PLACES:
        for file in sorted(ROOT.glob(place)):
            usage = re.search(rf"^usage: {file.name}(?: \[?(PROGRAM|TESTS))?", file.read_text(), re.M)
            if usage:
                found[str(file.relative_to(ROOT))] = usage[1]
    return {name: asks for name, asks in found.items() if is_wanted(name, names)}


def is_wanted(name, names):
    return not names or any(name.startswith(it) for it in names)


def compiled_tests():
    """The program of all tests; compiled if there is none, or a source is newer."""
    if not program.is_current(TESTS):
        room = program.room()
        try:
            (room / "began").touch()
            unproved.make(merged.merge(ROOT, room / "merged"), room / TESTS, room, tests=True, sanitize=True)
            program.keep(room, TESTS)
        finally:
            processes.clear(room)
    return program.OUT / TESTS


def listed(tests):
    """The names of the tests of a program."""
    status, told = processes.run([tests, "--list"], tempfile.gettempdir(), TEST_SECONDS)
    names = [line.removesuffix(": test") for line in told.split("\n") if line.endswith(": test")]
    if status != 0 or not names:
        raise unproved.Unmade(f"the program of the tests doesn't list them: {told[-SHOWN:]}")
    return names


class Run:
    """One run of the parts that are asked for, some side by side."""

    def __init__(self, words):
        self.names, self.seconds, self.tally, self.pool = words.names, words.seconds, Tally(), ThreadPoolExecutor(max(1, words.jobs))

    def script(self, name, *more):
        began = time.time()
        status, told = processes.run([sys.executable, "-B", name, *more], ROOT, SCRIPT_SECONDS)
        self.tally.take(name, status, told, SCRIPT_SECONDS)
        if status == 0:
            self.tally.say(f"passed {name} in {time.time() - began:.0f} s")

    def test(self, tests, name):
        status, told = processes.run([tests, name], tempfile.gettempdir(), self.seconds)
        self.tally.take(name, status, told, self.seconds)

    def made(self, what, make):
        """Makes a program, or counts that it couldn't be made."""
        self.tally.say(f"compiling {what}")
        try:
            made = make()
            self.tally.say(f"compiled {what}")
            return made
        except (unproved.Unmade, program.Failed, OSError) as why:
            self.tally.take(f"compiling {what}", 1, f"{why}\n{getattr(why, 'log', '')}", 0)
            return None

    def all(self):
        wanted = scripts(self.names)
        asking = {it: [name for name, asks in wanted.items() if asks == it] for it in ("PROGRAM", "TESTS")}
        making = self.pool.submit(self.made, "the program", program.current) if asking["PROGRAM"] else None
        asks_tests = asking["TESTS"] or not all(any(name.startswith(it) for name in wanted) for it in self.names) or not self.names
        building = self.pool.submit(self.made, "all tests", compiled_tests) if asks_tests else None
        parts = [self.pool.submit(self.script, name) for name, asks in wanted.items() if not asks]
        made = making.result() if making else None
        parts += [self.pool.submit(self.script, name, made) for name in asking["PROGRAM"] if made]
        tests = building.result() if building else None
        parts += [self.pool.submit(self.script, name, tests) for name in asking["TESTS"] if tests]
        names = [name for name in listed(tests) if is_wanted(name, self.names)] if tests else []
        if names:
            self.tally.say(f"running {len(names)} tests")
        running = [self.pool.submit(self.test, tests, name) for name in names]
        for count, part in enumerate(running, 1):
            part.result()
            if count % EVERY == 0 or count == len(names):
                self.tally.say(f"{count} of {len(names)} tests have ended")
        for part in parts:
            part.result()
        return bool(wanted or names)


def main():
    reader = argparse.ArgumentParser(prog="abt --test", description=__doc__, formatter_class=argparse.RawDescriptionHelpFormatter)
    processors = len(os.sched_getaffinity(0))
    reader.add_argument("--jobs", type=int, default=processors, help=f"how many parts run at a time; without it, {processors}")
    reader.add_argument("--seconds", type=int, default=TEST_SECONDS, help=f"how long a test may take; without it, {TEST_SECONDS}")
    reader.add_argument("names", nargs="*", metavar="NAME")
    words = reader.parse_args()
    processes.end_on_signals("test")
    run = Run(words)
    try:
        program.need_kit()
        if not run.all():
            sys.exit("test: no script or test has such a name")
    except program.Failed as why:
        program.say(why)
        sys.exit(program.FAILED)
    finally:
        processes.clear_rooms()
    for failure in run.tally.failures:
        print(f"test: FAILED {failure}")
    print(f"{run.tally.passed} passed, {len(run.tally.failures)} failed")
    sys.exit(1 if run.tally.failures else 0)


if __name__ == "__main__":
    main()
