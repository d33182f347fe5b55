"""Hands long inputs to `abt switch` and `abt source`, and tells what they take: seconds of one processor, lines a second, and the greatest
memory.

Each line has its line in a journal by then, in a folder that is made for it. Cells are handed in as lines, and as 52 octets behind an octet
(`--binary`). Each answer is counted. The fastest of three runs is told.

usage: processes.py PROGRAM [--lines N].. [--only KIND].. [--runs N]
"""
import argparse
import os
import re
import subprocess
import sys
import tempfile
import threading
from itertools import count, islice
from pathlib import Path

NET = "net.toml"
NET_TEXT = "ports = [512000]\n[[connection]]\nvpi = 1\nvci = 100\npath = [0]\ndelay = 0\ntau = 0\n"
# The request for 600 cells per second (docs/FORMATS.md).
REQUEST = f"0010064c02045258000000000000000000000001{'6a' * 30}038c"
SWITCH = ["switch", NET, "--port", "0", "--journal", "journal"]
SOURCE = ["source", NET, "0", "--store", "store", "--journal", "journal", "--new"]
# A little more than the time between two cells at that rate, in picoseconds.
APART = 1_666_700_000
CODES = ["5120", "5258"]


def data():
    """Data cells of a connection that holds the rate."""
    yield f"0 {REQUEST}\n".encode()
    yield from (f"0 data {number} 1 100 {number * APART}\n".encode() for number in count())


def requests():
    return (f"0 {REQUEST}\n".encode() for _ in count())


def request_cells():
    return (b"\x80" + bytes.fromhex(REQUEST) for _ in count())


def asks():
    yield b"start 0\n"
    yield from (f"ask {CODES[number % 2]}\n".encode() for number in count())


def emissions(yes):
    """A source that was granted its rate, and emits."""
    yield from (b"start 0\n", b"ask 5258\n", yes.encode())
    yield from (f"emit {number * APART}\n".encode() for number in count())


def kinds(program):
    """For each kind the words, the lines, and the octets of an answer to a cell, if the answers aren't lines."""
    yes = subprocess.run([program, "write", "yes", "1", "100", "1", "0000", "5258"], capture_output=True, text=True, check=True).stdout
    return {
        "switch, data cells": (SWITCH, data, None),
        "switch, requests": (SWITCH, requests, None),
        "switch, requests as cells": ([*SWITCH, "--binary"], request_cells, 53),
        "source, emissions": (SOURCE, lambda: emissions(yes), None),
        "source, asks": (SOURCE, asks, None),
        "source, asks answered by cells": ([*SOURCE, "--binary"], asks, None),
    }


def written(stream, lines, number):
    lines = islice(lines, number)
    while piece := b"".join(islice(lines, 10_000)):
        stream.write(piece)
    stream.close()


def peak_of(pid):
    """The greatest memory that a process took so far, in KiB; 0 once it has ended."""
    try:
        return int(re.search(r"^VmHWM:\s*(\d+) kB$", Path(f"/proc/{pid}/status").read_text(), re.M)[1])
    except (OSError, TypeError):
        return 0


def measured(program, kind, number):
    """The seconds of the processor, and the peak of memory in KiB."""
    words, lines, octets = kind
    with tempfile.TemporaryDirectory() as folder:
        Path(folder, NET).write_text(NET_TEXT)
        process = subprocess.Popen([program, *words], cwd=folder, stdin=subprocess.PIPE, stdout=subprocess.PIPE, bufsize=1 << 20)
        writer = threading.Thread(target=written, args=(process.stdin, lines(), number))
        writer.start()
        taken, feeds, peak = 0, 0, 0
        while piece := process.stdout.read1(1 << 20):
            taken, feeds = taken + len(piece), feeds + piece.count(b"\n")
            peak = max(peak, peak_of(process.pid))
        writer.join()
        _, status, used = os.wait4(process.pid, 0)
        answers = taken // octets if octets else feeds if "--binary" not in words else number
        if status or answers != number:
            sys.exit(f"processes: {words} ended with {status} and {answers} answers")
    return used.ru_utime + used.ru_stime, peak


def main():
    parser = argparse.ArgumentParser(description=__doc__, formatter_class=argparse.RawDescriptionHelpFormatter)
    parser.add_argument("program", type=Path)
    parser.add_argument("--lines", type=int, action="append")
    parser.add_argument("--only", action="append")
    parser.add_argument("--runs", type=int, default=3)
    given = parser.parse_args()
    program = given.program.resolve()
    print("| kind | lines | s | lines a second | peak, KiB |\n| --- | --- | --- | --- | --- |")
    for name, kind in kinds(program).items():
        if given.only and name not in given.only:
            continue
        for number in given.lines or [100_000, 1_000_000]:
            runs = [measured(program, kind, number) for _ in range(given.runs)]
            seconds, peak = min(runs)[0], max(peak for _, peak in runs)
            print(f"| {name} | {number:,} | {seconds:.2f} | {number / seconds:,.0f} | {peak:,} |", flush=True)


main()
