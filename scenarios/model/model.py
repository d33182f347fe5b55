#!/usr/bin/env python3
"""A slow model of `abt run`: it prints what a scenario has to print, with the exit status.

It was written from docs/RULES.md and docs/FORMATS.md alone, shares nothing with the program, and keeps nothing but lists of facts,
of each connection and of the ports, from which it works out everything anew at each event. usage: model.py FILE
"""
import sys
from pathlib import Path

from reading import Fault, read

SECOND = 10**12
LAST_NUMBER = 2**32 - 1
LAST_EMISSION = 2**61
GREATEST_CAPACITY = 2**60
STRIDE = 64


def code(units):
    """The canonical code of a rate, as it is printed."""
    if units == 0:
        return "0000"
    exponent = (units // 512).bit_length() - 1
    assert units % 2**exponent == 0, units
    return f"{2**14 + exponent * 2**9 + units // 2**exponent - 512:04x}"


def spacing(units):
    return -(-512 * SECOND // units)


class Course:
    """What happened to one connection: a list of facts, each a tuple that begins with its kind, the oldest first."""

    def __init__(self, conn):
        self.path, self.delay, self.tau = conn["path"], conn["delay"], conn["tau"]
        self.facts = []

    def add(self, *fact):
        self.facts.append(fact)

    def has(self, *fact):
        return fact in self.facts

    def of(self, *kinds):
        return [fact for fact in self.facts if fact[0] in kinds]

    # The source.

    def asking(self):
        """The number that the source waits for, 0 where it waits for none, and None where it is down."""
        state = None
        for kind, *rest in self.facts:
            if kind in ("started", "heard"):
                state = 0
            elif kind == "crashed":
                state = None
            elif kind == "asked":
                state = rest[0]
        return state

    def request(self, seq):
        """The floor, the asked rate and the mark of a request, or None."""
        found = [fact[2:] for fact in self.of("asked") if fact[1] == seq]
        assert len(found) <= 1
        return found[0] if found else None

    def rate(self):
        rate = 0
        for kind, *rest in self.facts:
            if kind in ("started", "crashed"):
                rate = 0
            elif kind == "asked":
                rate = rest[1]
            elif kind == "heard":
                seq, granted = rest
                floor, ask, _ = self.request(seq)
                rate = ask if granted else floor
        return rate

    def stored(self):
        """The number and the spacing in the store: those of the last write, or of an empty store."""
        written = self.of("stored")
        return written[-1][1:3] if written else (0, SECOND)

    def kept(self):
        """The number and the spacing that the source knows to be in its store."""
        for kind, *rest in reversed(self.facts):
            if kind == "started":
                return rest[1:]
            if kind == "stored" and rest[2] == "works":
                return rest[:2]
        return 0, SECOND

    def last(self):
        number = 0
        for kind, *rest in self.facts:
            if kind == "started":
                number = rest[1]
            elif kind == "asked":
                number = rest[0]
        return number

    def gap(self):
        """For how long no cell leaves after the last start or the last cell."""
        kind, *rest = self.of("started", "emitted")[-1]
        return rest[2] if kind == "started" else spacing(rest[2])

    def need(self, rate):
        """The greatest gap that may be running at any moment until the next ask, if this rate is asked for."""
        waiting = self.asking()
        rates = [self.rate(), self.request(waiting)[1] if waiting else 0, rate]
        return max([self.gap()] + [spacing(units) for units in rates if units])

    def clock(self):
        return max([fact[1] for fact in self.of("started")] + [fact[2] for fact in self.of("emitted")], default=0)

    def next_cell(self):
        """The first moment at which the next cell may leave."""
        moment = 0
        for kind, *rest in self.facts:
            if kind == "started":
                moment = rest[0] + rest[2]
            elif kind == "emitted":
                moment = rest[1] + spacing(rest[2])
        return moment

    # A hop.

    def newest(self, hop):
        """The newest number that a hop decided, and whether it is open there."""
        newest, is_open = 0, False
        for kind, *rest in self.facts:
            if kind in ("passed", "shut") and rest[1] == hop and rest[0] >= newest:
                # What is passed again stays as it was, and nothing opens a number that was shut.
                is_open = kind == "passed" and (is_open or rest[0] > newest)
                newest = rest[0]
        return newest, is_open

    def held(self, hop):
        newest, is_open = self.newest(hop)
        if newest == 0:
            return 0
        floor, ask, _ = self.request(newest)
        return ask if is_open else floor

    # Cells.

    def fence(self):
        arrived = [fact[1] + 1 for fact in self.of("arrived")]
        marks = [self.request(fact[1])[2] for fact in self.of("delivered")]
        return max(arrived + marks, default=0)

    def verdict(self, at):
        held = self.held(1)
        if held == 0:
            return "NoRate"
        taken = [(fact[2], spacing(fact[3])) for fact in self.of("arrived") if fact[4] == "Conforming"]
        for place, (arrival, _) in enumerate(taken):
            if at + self.tau < arrival + sum(gap for _, gap in taken[place:]):
                return "TooEarly"
        return "Conforming"


class World:
    def __init__(self, ports, conns):
        self.ports = ports
        self.courses = [Course(conn) for conn in conns]
        # Each capacity that was set, with its port, the oldest first.
        self.capped = []

    def capacity(self, port):
        """The capacity in force: the last one that was set, else the net's."""
        given = [units for capped, units in self.capped if capped == port]
        return given[-1] if given else self.ports[port]

    def total(self, port):
        return sum(
            course.held(hop)
            for course in self.courses
            for hop, visited in enumerate(course.path, 1)
            if visited == port
        )

    def step(self, event):
        """What an event answers."""
        if event[0] == "capacity":
            return self.cap(*event[1:])
        kind, conn, *rest = event
        if conn >= len(self.courses):
            return "not-enabled Unknown"
        course = self.courses[conn]
        if kind in ("request", "answer") and not 1 <= rest[0] <= len(course.path):
            return "not-enabled Unknown"
        return getattr(self, kind)(course, *rest)

    def cap(self, port, units):
        if port >= len(self.ports):
            return "not-enabled Unknown"
        if units < self.total(port):
            return "refused BelowSum"
        if units > GREATEST_CAPACITY:
            return "refused AboveLimit"
        self.capped.append((port, units))
        return "set"

    def start(self, course, now):
        if course.asking() is not None:
            return "not-enabled Running"
        if now < course.clock():
            return "not-enabled ClockBack"
        if now > LAST_EMISSION - SECOND:
            return "refused TimeRange"
        course.add("started", now, *course.stored())
        return "started"

    def ask(self, course, rate, plan):
        if course.asking() is None:
            return "not-enabled Down"
        seq = course.last() + 1
        if seq > LAST_NUMBER:
            return "refused SeqExhausted"
        number, covered = course.kept()
        need = course.need(rate)
        if seq > number or need > covered:
            if plan != "before":
                course.add("stored", min(seq + STRIDE - 1, LAST_NUMBER), need, plan)
            if plan != "works":
                return "refused Keep"
        floor = min(course.rate(), rate)
        course.add("asked", seq, floor, rate, len(course.of("emitted")))
        return f"asked {seq} {code(floor)} {code(rate)}"

    def again(self, course):
        seq = course.asking()
        if not seq:
            return "not-enabled Down" if seq is None else "not-enabled NotAsking"
        floor, ask, _ = course.request(seq)
        return f"again {seq} {code(floor)} {code(ask)}"

    def crash(self, course):
        if course.asking() is None:
            return "not-enabled Down"
        course.add("crashed")
        return "crashed"

    def emit(self, course, now):
        if course.asking() is None:
            return "not-enabled Down"
        if now < course.clock():
            return "not-enabled ClockBack"
        if now > LAST_EMISSION:
            return "refused TimeRange"
        rate = course.rate()
        if rate == 0:
            return "refused Zero"
        if now < course.next_cell():
            return f"refused TooSoon {course.next_cell()}"
        cell = len(course.of("emitted"))
        course.add("emitted", cell, now, rate)
        return f"emitted {cell} {course.next_cell()}"

    def arrive(self, course, cell, at):
        moments = [fact[2] for fact in course.of("emitted") if fact[1] == cell]
        if not moments:
            return "not-enabled NotSent"
        if cell < course.fence():
            return "not-enabled Fenced"
        first = moments[0] + course.delay
        if not first <= at <= first + course.tau:
            return "not-enabled Delay"
        if any(at < fact[2] for fact in course.of("arrived")):
            return "not-enabled ClockBack"
        verdict = course.verdict(at)
        course.add("arrived", cell, at, course.held(1), verdict)
        return f"arrived {verdict}"

    def request(self, course, hop, seq):
        terms = course.request(seq)
        if terms is None or hop > 1 and not course.has("passed", seq, hop - 1):
            return "not-enabled NotSent"
        floor, ask, _ = terms
        port = course.path[hop - 1]
        newest, passes = course.newest(hop)
        if hop == 1:
            course.add("delivered", seq)
        if seq < newest:
            return "dropped Stale"
        if seq > newest:
            if floor > course.held(hop):
                return "dropped FloorAbove"
            passes = self.total(port) - course.held(hop) + ask <= self.capacity(port)
        course.add("passed" if passes else "shut", seq, hop)
        return "passed" if passes else "refuses"

    def turn(self, course, seq):
        if not course.has("passed", seq, len(course.path)):
            return "not-enabled NotSent"
        course.add("turned", seq)
        return "turned"

    def answer(self, course, hop, seq, granted):
        if not granted:
            was_sent = course.has("shut", seq, hop + 1)
        elif hop == len(course.path):
            was_sent = course.has("turned", seq)
        else:
            was_sent = course.has("back", seq, hop + 1)
        if not was_sent:
            return "not-enabled NotSent"
        newest, is_open = course.newest(hop)
        if seq < newest:
            return "dropped Stale"
        if seq > newest or granted and not is_open:
            return "dropped Conflict"
        course.add("back" if granted else "shut", seq, hop)
        return "passed"

    def told(self, course, seq, granted):
        if not course.has("back" if granted else "shut", seq, 1):
            return "not-enabled NotSent"
        if course.asking() != seq:
            return "told Ignored"
        course.add("heard", seq, granted)
        return "told Raised" if granted else "told Refused"

    def is_safe(self):
        return (
            all(course.rate() <= course.held(hop) for course in self.courses for hop in range(1, len(course.path) + 1))
            and all(self.total(port) <= self.capacity(port) for port in range(len(self.ports)))
            and all(fact[4] == "Conforming" for course in self.courses for fact in course.of("arrived"))
        )

    def report(self, events):
        lines = [f"events {len(events)}"]
        lines += [f"{number} {self.step(event)}" for number, event in enumerate(events, 1)]
        for conn, course in enumerate(self.courses):
            held = " ".join(code(course.held(hop)) for hop in range(1, len(course.path) + 1))
            lines.append(f"connection {conn} rate {code(course.rate())} held {held}")
        for port in range(len(self.ports)):
            lines.append(f"port {port} total {self.total(port)} capacity {self.capacity(port)}")
        lines.append("safe" if self.is_safe() else "unsafe")
        return "".join(line + "\n" for line in lines)


def run(octets):
    """The exit status, the output and the standard error of `abt run` over these octets."""
    try:
        ports, conns, events, _ = read(octets)
    except Fault as fault:
        return 1, "", f"fault: {fault}\n"
    return 0, World(ports, conns).report(events), ""


if __name__ == "__main__":
    status, output, told = run(Path(sys.argv[1]).read_bytes())
    sys.stdout.write(output)
    sys.stderr.write(told)
    sys.exit(status)
