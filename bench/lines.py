"""Hands long inputs to the commands that answer lines, and tells what they take: seconds and the greatest memory, or instructions a line.

It counts the answers too, of which there has to be one for each line, and of a port and a net one more. Seconds depend on what else the
machine does; memory and instructions don't. Instructions are counted by callgrind: the difference between 1,000 and 21,000 lines. The
events of `step` are those of 16 sources that ask over one port (`scenarios.py`, one-port), and its memory grows with what is asked.

usage: lines.py PROGRAM [--lines N].. [--only police|shape|cell|port|step].. [--instructions]
"""
import argparse
import re
import subprocess
import sys
import tempfile
import threading
import time
from itertools import chain, islice
from pathlib import Path

import scenarios

# The test cell A of docs/FORMATS.md, a request for 600 cells per second.
CELL = b"0010064c020452580000000000000000000000016a6a6a6a6a6a6a6a6a6a6a6a6a6a6a6a6a6a6a6a6a6a6a6a6a6a6a6a6a6a038c\n"
CONNECTIONS = 16
NET = "net.toml"


def moments(apart):
    number = 0
    while True:
        yield b"%d\n" % (number * apart)
        number += 1


def cells():
    while True:
        yield CELL


def events():
    texts = chain.from_iterable(zip(*(scenarios.requests(conn, 1) for conn in range(CONNECTIONS))))
    return (f"{text}\n".encode() for text in texts)


# For each kind the words of the program, its lines, and how many lines more than those of the input are answered.
KINDS = {
    "police": (["police", "--tau", "200000000", "--rate", "53e8"], lambda: moments(900_000_000), 0),
    "shape": (["shape", "--rate", "53e8"], lambda: moments(100_000_000), 0),
    "cell": (["cell", "--stdin"], cells, 0),
    "port": (["port", "512000", "--stdin"], cells, 1),
    "step": (["step", NET], events, 1),
}
PIECE = 10_000
LOW, HIGH = 1_000, 21_000


def written(stream, lines, count):
    """Writes so many lines, some at a time."""
    lines = islice(lines, count)
    while piece := b"".join(islice(lines, PIECE)):
        stream.write(piece)
    stream.close()


def peak_of(pid):
    """The greatest memory that a process took so far, in KiB; 0 once it has ended."""
    try:
        return int(re.search(r"^VmHWM:\s*(\d+) kB$", Path(f"/proc/{pid}/status").read_text(), re.M)[1])
    except (OSError, TypeError):
        return 0


def look_at(kind, answered, count):
    if answered != count + KINDS[kind][2]:
        sys.exit(f"lines: {answered} lines answer {count} of {kind}")


def measured(program, kind, count, folder):
    """The seconds, and the peak of memory in KiB."""
    words, lines, _ = KINDS[kind]
    began = time.monotonic()
    process = subprocess.Popen([program, *words], cwd=folder, stdin=subprocess.PIPE, stdout=subprocess.PIPE, bufsize=1 << 20)
    writer = threading.Thread(target=written, args=(process.stdin, lines(), count))
    writer.start()
    answered, peak = 0, 0
    while piece := process.stdout.read1(1 << 20):
        answered += piece.count(b"\n")
        peak = max(peak, peak_of(process.pid))
    writer.join()
    if process.wait() != 0:
        sys.exit(f"lines: {words} ended with status {process.returncode}")
    look_at(kind, answered, count)
    return time.monotonic() - began, peak


def instructions(program, kind, count, folder):
    """How many instructions so many lines take."""
    words, lines, _ = KINDS[kind]
    told = ["valgrind", "--tool=callgrind", "--callgrind-out-file=calls", program, *words]
    done = subprocess.run(told, cwd=folder, input=b"".join(islice(lines(), count)), capture_output=True, check=True)
    look_at(kind, done.stdout.count(b"\n"), count)
    return int(re.search(r"^totals: (\d+)", Path(folder, "calls").read_text(), re.M)[1])


def tell(program, kind, counts, folder, is_counted):
    if is_counted:
        each = (instructions(program, kind, HIGH, folder) - instructions(program, kind, LOW, folder)) / (HIGH - LOW)
        print(f"| {kind} | {each:,.0f} |", flush=True)
        return
    for count in counts:
        seconds, peak = measured(program, kind, count, folder)
        print(f"| {kind} | {count:,} | {seconds:.1f} | {peak:,} |", flush=True)


def main():
    parser = argparse.ArgumentParser(description=__doc__, formatter_class=argparse.RawDescriptionHelpFormatter)
    parser.add_argument("program", type=Path)
    parser.add_argument("--lines", type=int, action="append")
    parser.add_argument("--only", choices=KINDS, action="append")
    parser.add_argument("--instructions", action="store_true", help="count instructions a line by callgrind")
    given = parser.parse_args()
    columns = ("command", "instructions a line") if given.instructions else ("command", "lines", "seconds", "peak, KiB")
    print("| " + " | ".join(columns) + " |\n|" + " --- |" * len(columns))
    with tempfile.TemporaryDirectory() as folder:
        paths = (scenarios.connection(conn, [0]) for conn in range(CONNECTIONS))
        Path(folder, NET).write_text(f"ports = [{scenarios.SMALL_PORT}]\n" + "".join(paths))
        for kind in given.only or KINDS:
            tell(given.program.resolve(), kind, given.lines or [100_000, 1_000_000, 10_000_000], folder, given.instructions)


main()
