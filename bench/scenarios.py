#!/usr/bin/env python3
"""Writes a long scenario for measurements. Every event of it is enabled, but for those of the kind not-enabled.

kinds:
  one-port    sources ask again and again over one port, and every fourth request is refused
  many-ports  the same over paths of eight of 64 ports, and the fourth hop refuses
  long-paths  the same over paths of sixteen of them
  repeats     as one-port, and after each request ten messages of old ones come once more
  cells       sources were granted a rate and send cells at it, of which each sixteenth gets lost
  again       sources send one request again and again: events that have hardly any text, so of one length the scenario with most events
  asks        sources ask again and again, and nothing comes of it
  requests    the same, and each request comes to its first hop
  not-enabled what the last hop is to turn into a yes was never asked
  too-many    different connections, far more than a net may have, and no events: the net is refused

The events of the connections alternate, so each event is of another connection than the one before. The same words give the same text.
"""
import argparse
import random
import sys
from itertools import chain, count, islice

LONGEST = 16_777_216
# By docs/RULES.md, "Rates": 400 and 600 cells per second, and the greatest rate of all, of 2,196,875,771,904 units.
RATES = ("5120", "5258")
GREATEST = "7fff"
# The spacing of 600 cells per second.
SPACING = 1_666_666_667
# Has room for 600 cells per second of each of 1,024 connections, and never for the greatest rate.
SMALL_PORT = 1_000_000_000
# Has room for the greatest rate of each of them.
GREAT_PORT = 2**60
# Hops of a path, of a long one, and ports.
HOPS, MOST_HOPS, PORTS, FIRST_SMALL = 8, 16, 64, 4
SECOND = 10**12
DELAY, TAU = 1000, 200


def is_refused(seq):
    return seq % 4 == 0


def exchange(conn, seq, hops):
    """The events of one request, from the ask to its answer."""
    if is_refused(seq):
        last = min(hops, FIRST_SMALL)
        yield f"ask {conn} {GREATEST}"
        yield from (f"request {conn} {hop} {seq}" for hop in range(1, last + 1))
        yield from (f"no {conn} {hop} {seq}" for hop in range(last - 1, 0, -1))
        yield f"told-no {conn} {seq}"
    else:
        yield f"ask {conn} {RATES[seq % 2]}"
        yield from (f"request {conn} {hop} {seq}" for hop in range(1, hops + 1))
        yield f"turn {conn} {seq}"
        yield from (f"yes {conn} {hop} {seq}" for hop in range(hops, 0, -1))
        yield f"told-yes {conn} {seq}"


def requests(conn, hops):
    yield f"start {conn} 0"
    for seq in count(1):
        yield from exchange(conn, seq, hops)


def repeats(conn, hops):
    chosen = random.Random(conn)
    yield f"start {conn} 0"
    yield from exchange(conn, 1, hops)
    for seq in count(2):
        yield from exchange(conn, seq, hops)
        for _ in range(10):
            old = chosen.randrange(1, seq)
            verbs = ("request", "told-no") if is_refused(old) else ("request", "turn", "yes", "told-yes")
            verb = chosen.choice(verbs)
            yield f"{verb} {conn} 1 {old}" if verb in ("request", "yes") else f"{verb} {conn} {old}"


def cells(conn, hops):
    yield f"start {conn} 0"
    yield from exchange(conn, 1, hops)
    for cell in count():
        now = SECOND + cell * SPACING
        yield f"emit {conn} {now}"
        if cell % 16 != 15:
            yield f"arrive {conn} {cell} {now + DELAY + cell % TAU}"


def agains(conn, hops):
    yield from (f"start {conn} 0", f"ask {conn} {RATES[0]}")
    while True:
        yield f"again {conn}"


def asks(conn, hops):
    yield f"start {conn} 0"
    for seq in count(1):
        yield f"ask {conn} {RATES[seq % 2]}"


def asks_that_come(conn, hops):
    yield f"start {conn} 0"
    for seq in count(1):
        yield f"ask {conn} {RATES[seq % 2]}"
        yield f"request {conn} 1 {seq}"


def turns(conn, hops):
    yield f"start {conn} 0"
    while True:
        yield f"turn {conn} 1"


# What the connections do in the kinds that have events, and how many hops their paths have.
KINDS = {
    "one-port": (requests, 1),
    "many-ports": (requests, HOPS),
    "long-paths": (requests, MOST_HOPS),
    "repeats": (repeats, 1),
    "cells": (cells, 1),
    "again": (agains, 1),
    "asks": (asks, 1),
    "requests": (asks_that_come, 1),
    "not-enabled": (turns, 1),
}


def connection(conn, path):
    return f"[[connection]]\nvpi = {conn // 65536}\nvci = {conn % 65536}\npath = {path}\ndelay = {DELAY}\ntau = {TAU}\n"


def padded(text, octets):
    """The text, made as long as that by a comment."""
    missing = octets - len(text)
    if missing < 0:
        sys.exit(f"scenarios.py: the text has {len(text)} octets already")
    return text + ("#" * (missing - 1) + "\n" if missing else "")


def lines_within(lines, octets):
    for line in lines:
        octets -= len(line)
        if octets < 0:
            return
        yield line


def eventful(kind, connections, events, octets):
    """A scenario of so many events, or one of so many octets."""
    source, hops = KINDS[kind]
    if hops > 1:
        ports = [SMALL_PORT if (port + 1) % FIRST_SMALL == 0 else GREAT_PORT for port in range(PORTS)]
        paths = [[(FIRST_SMALL * conn + hop) % PORTS for hop in range(hops)] for conn in range(connections)]
    else:
        ports = [SMALL_PORT]
        paths = [[0]] * connections
    head = f"ports = {ports}\nevents = [\n"
    tail = "]\n" + "".join(connection(conn, path) for conn, path in enumerate(paths))
    texts = chain.from_iterable(zip(*(source(conn, len(path)) for conn, path in enumerate(paths))))
    lines = (f'"{text}",\n' for text in texts)
    if octets is None:
        return head + "".join(islice(lines, events)) + tail
    return padded(head + "".join(lines_within(lines, octets - len(head) - len(tail))) + tail, octets)


def too_many(connections, octets):
    text = f"ports = [{SMALL_PORT}]\n" + "".join(connection(conn, [0]) for conn in range(connections))
    return text if octets is None else padded(text, octets)


def main():
    parser = argparse.ArgumentParser(description=__doc__, formatter_class=argparse.RawDescriptionHelpFormatter)
    parser.add_argument("kind", choices=[*KINDS, "too-many"])
    parser.add_argument("--connections", type=int, default=16, metavar="N", help="how many there are; without it, 16")
    length = parser.add_mutually_exclusive_group()
    length.add_argument("--events", type=int, default=1000, metavar="N", help="how many there are; without it, 1,000")
    length.add_argument("--octets", type=int, metavar="N", help=f"as many events as fit into so many octets (at most {LONGEST} can be read)")
    words = parser.parse_args()
    if words.kind == "too-many":
        text = too_many(words.connections, words.octets)
    else:
        text = eventful(words.kind, words.connections, words.events, words.octets)
    sys.stdout.write(text)


if __name__ == "__main__":
    main()
