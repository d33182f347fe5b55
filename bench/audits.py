"""Has long journals audited, and tells what that takes: seconds, the greatest memory, and how both grow.

The journals are of sources that ask for one rate and then another, and are granted each. A grant is two entries of the source and, at
each port of its path, one for the request and one for the answer, and one more of the source for the first hop. So they are known without
a model; `--check` has the slow model of scenarios/model write a short run of that kind, and compares the lines. The lines of the actors
stand in the order in which it happened, or, with `--mixed`, those of each actor by themselves. With `--writes N` every Nth write of a
store that keeps more numbers fails, its source crashes and starts again, and the log doesn't say whether it was stored.

Each length is audited so often, and the run that took fewest seconds of the processor is told.

usage: audits.py PROGRAM [--entries N].. [--connections N] [--hops N] [--mixed] [--events] [--writes N] [--runs N]
       audits.py --check
"""
import argparse
import json
import math
import os
import shutil
import subprocess
import sys
import tempfile
import time
from pathlib import Path

ROOT = Path(__file__).resolve().parent.parent
sys.path.insert(0, str(ROOT / "scenarios" / "model"))
from journals import journals  # noqa: E402

# Of a port no request is refused: it carries the greater rate of each of 1,024 sources.
CAPACITY, DELAY, TAU = 1 << 40, 1000, 200
# 400 and 600 cells per second.
RATES = ("5120", "5258")
# How many numbers one write keeps.
STRIDE = 64
LENGTHS = (10_000, 100_000, 1_000_000)


def line(**members):
    return json.dumps(members, separators=(",", ":"))


def net(connections, hops):
    conns = [{"vpi": 1, "vci": 100 + c, "path": list(range(hops)), "delay": DELAY, "tau": TAU} for c in range(connections)]
    return line(net={"ports": [CAPACITY] * hops, "connections": conns})


class Source:
    """The number of the next request, and the floor; each write of the store keeps the numbers up to one."""

    def __init__(self, number):
        self.number, self.seq, self.kept, self.floor = number, 1, 0, "0000"

    def start(self):
        return ("source", self.number), line(source=self.number, did={"start": 0}, outcome="started")

    def fails(self, is_stored):
        """A write that fails, of which the log doesn't say whether it was stored, and the start after it, by which it shows."""
        source, ask = self.number, {"ask": RATES[0], "store": "failed"}
        yield ("source", source), line(source=source, did=ask, outcome={"refused": "Keep"})
        yield ("source", source), line(source=source, did="crash", outcome="crashed")
        yield self.start()
        self.kept += STRIDE if is_stored else 0
        self.seq, self.floor = self.kept + 1, "0000"

    def asks(self):
        terms = {"vpi": 1, "vci": 100 + self.number, "seq": self.seq, "floor": self.floor, "ask": RATES[(self.seq - 1) % 2]}
        self.kept = max(self.kept, self.seq + STRIDE - 1 if self.seq > self.kept else 0)
        self.seq, self.floor = self.seq + 1, RATES[0]
        return terms


def rounds(connections, hops, writes):
    """The entries of all sources' starts, and then those of one grant after the other, each with its actor. Of the writes of the stores
    this one in so many fails, if it is more than 0, and every other of these is stored."""
    sources = [Source(c) for c in range(connections)]
    for source in sources:
        yield [source.start()]
    places, written = [0] * hops, 0
    while True:
        for source in sources:
            is_write = source.seq > source.kept > 0
            written += is_write
            if is_write and writes and written % writes == 0:
                yield list(source.fails(written // writes % 2 == 0))
            yield list(grant(source.number, source.asks(), places))


def grant(c, terms, places):
    source = ("source", c)
    yield source, line(source=c, did={"ask": terms["ask"], "store": "works"}, outcome={"asked": terms})
    for port in range(len(places)):
        yield ("port", port), line(port=port, place=places[port], caller=0, input={"request": terms}, reply="passed")
        if port == 0:
            yield source, line(source=c, sent=places[0])
        places[port] += 1
    for port in reversed(range(len(places))):
        yield ("port", port), line(port=port, place=places[port], caller=0, input={"answer": {**terms, "granted": True}}, reply="passed")
        places[port] += 1
    yield source, line(source=c, did={"told": terms["seq"], "granted": True}, outcome={"told": "Raised"})


def entries(connections, hops, least, writes=0):
    """So many entries at least, up to the end of a grant, each with its actor."""
    number = 0
    for some in rounds(connections, hops, writes):
        yield from some
        number += len(some)
        if number >= least:
            return


def written(file, connections, hops, least, mixed, writes=0):
    """Writes the journals, and says how many entries they have. No more than a grant is kept in memory, which the peak of a child would
    show."""
    number, actors = 0, {}
    with tempfile.TemporaryDirectory() as folder, open(file, "w") as out:
        out.write(net(connections, hops) + "\n")
        for actor, one in entries(connections, hops, least, writes):
            number += 1
            if mixed and actor not in actors:
                actors[actor] = open(Path(folder, str(len(actors))), "w+")
            (actors[actor] if mixed else out).write(one + "\n")
        for part in actors.values():
            part.seek(0)
            shutil.copyfileobj(part, out)
            part.close()
        out.write(line(end=True) + "\n")
    return number


def check():
    """Whether the slow model writes the same of the events of such a run."""
    connections, hops, grants = 3, 2, 4
    events = [f"start {c} 0" for c in range(connections)]
    for seq in range(1, grants + 1):
        for c in range(connections):
            there = [f"request {c} {hop} {seq}" for hop in range(1, hops + 1)]
            back = [f"yes {c} {hop} {seq}" for hop in range(hops, 0, -1)]
            events += [f"ask {c} {RATES[(seq - 1) % 2]}", *there, f"turn {c} {seq}", *back, f"told-yes {c} {seq}"]
    tables = "".join(
        f"[[connection]]\nvpi = 1\nvci = {100 + c}\npath = {list(range(hops))}\ndelay = {DELAY}\ntau = {TAU}\n" for c in range(connections)
    )
    scenario = f"ports = {[CAPACITY] * hops}\nevents = {json.dumps(events)}\n{tables}"
    wanted = journals(scenario.encode())
    least = connections + grants * connections * (3 + 2 * hops)
    with tempfile.NamedTemporaryFile() as file:
        written(file.name, connections, hops, least, False)
        given = Path(file.name).read_text().splitlines()
    if wanted != given:
        first = next((k for k, (a, b) in enumerate(zip(wanted, given)) if a != b), min(len(wanted), len(given)))
        sys.exit(f"audits: line {first + 1} isn't the model's: {given[first:first + 1]} in place of {wanted[first:first + 1]}")
    print(f"audits: {len(given)} lines are the model's")


def taken(words, number):
    """Seconds of the processor, seconds that went by, and the peak in MiB, of one audit."""
    began = time.perf_counter()
    process = subprocess.Popen(words, stdout=subprocess.PIPE)
    out = process.stdout.read()
    _, status, usage = os.wait4(process.pid, 0)
    process.returncode = os.waitstatus_to_exitcode(status)
    if process.returncode != 0 or out != b"woven\nsafe\n":
        sys.exit(f"audits: {number} entries: status {process.returncode}, {out}")
    return usage.ru_utime + usage.ru_stime, time.perf_counter() - began, usage.ru_maxrss / 1024


def measure(given):
    print("| connections, hops | entries | s of the processor | s | peak MiB |")
    print("| --- | --- | --- | --- | --- |")
    name, rows = f"{given.connections:,}, {given.hops:,}", []
    with tempfile.TemporaryDirectory() as folder:
        file = Path(folder, "run.jsonl")
        words = [given.program.resolve(), "audit", file, *(["--events", Path(folder, "events.toml")] if given.events else [])]
        for least in given.entries or LENGTHS:
            number = written(file, given.connections, given.hops, least, given.mixed, given.writes)
            rows.append((number, *min(taken(words, number) for _ in range(given.runs))))
            print("| {} | {:,} | {:.3f} | {:.3f} | {:.1f} |".format(name, *rows[-1]), flush=True)
    if len(rows) > 1:
        grown = lambda k: ", ".join(f"{math.log(b[k] / a[k]) / math.log(b[0] / a[0]):.2f}" for a, b in zip(rows, rows[1:]))
        print(f"| {name} | exponents | {grown(1)} | {grown(2)} | {grown(3)} |")


def main():
    parser = argparse.ArgumentParser(description=__doc__, formatter_class=argparse.RawDescriptionHelpFormatter)
    parser.add_argument("program", type=Path, nargs="?")
    parser.add_argument("--entries", type=int, action="append", metavar="N")
    parser.add_argument("--connections", type=int, default=16, metavar="N")
    parser.add_argument("--hops", type=int, default=1, metavar="N")
    parser.add_argument("--runs", type=int, default=3, metavar="N")
    parser.add_argument("--mixed", action="store_true")
    parser.add_argument("--writes", type=int, default=0, metavar="N")
    parser.add_argument("--events", action="store_true")
    parser.add_argument("--check", action="store_true")
    given = parser.parse_args()
    if given.check:
        check()
    elif given.program:
        measure(given)
    else:
        parser.error("no program")


if __name__ == "__main__":
    main()
