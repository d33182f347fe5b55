#!/usr/bin/env python3
"""A slow search for the events that journals are: how many entries of each of them can be placed before none can.

It was written from docs/JOURNALS.md and docs/THREADS.md ("Woven") alone. An entry is tried as the event that it can be, behind all events
that were placed, also with the turn that a yes may need; the event is placed if the journals that the slow model then writes are
beginnings of the ones that are looked for. All ways of placing entries end at the same places, so the first that is found does. usage:
search.py JOURNALS
"""
import copy
import json
import sys
from pathlib import Path

from journals import Writer
from reading import units


def actor_of(entry):
    return ("port", entry["port"]) if "port" in entry else ("source", entry["source"])


def bare(entry):
    """An entry without who had it done, and with the store that it means if it names none."""
    entry = {name: value for name, value in entry.items() if name != "caller"}
    if "ask" in entry.get("did", ()):
        entry["did"] = {"store": "works", **entry["did"]}
    return entry


class Search:
    """The journals of each actor, with the line of each entry, and the events that are placed so far."""

    def __init__(self, lines):
        net = json.loads(lines[0])["net"]
        self.conns = [{**one, "vc": (one["vpi"], one["vci"]), "script": []} for one in net["connections"]]
        self.ports = net["ports"]
        self.journals, self.spots = {}, {}
        for number, line in enumerate(lines[1:-1], 2):
            entry = bare(json.loads(line))
            self.journals.setdefault(actor_of(entry), []).append(entry)
            self.spots.setdefault(actor_of(entry), []).append(number)
        self.writer, self.placed, self.events = Writer(self.ports, self.conns), {}, []

    def conn_of(self, cell):
        found = [number for number, conn in enumerate(self.conns) if conn["vc"] == (cell["vpi"], cell["vci"])]
        return found[0] if found else None

    def next(self, actor):
        entries, place = self.journals.get(actor, []), self.placed.get(actor, 0)
        return entries[place] if place < len(entries) else None

    def tries(self, actor, entry):
        """The lists of events that an entry can be, one event each, or a turn and then that."""
        kind, number = actor
        if kind == "source":
            did = entry.get("did")
            return [[self.event_of(number, did)]] if did is not None else []
        (what, came), = entry["input"].items()
        if what == "capacity":
            return [[("capacity", number, came)]]
        conn = self.conn_of(came)
        if conn is None or number not in self.conns[conn]["path"]:
            return []
        hop = self.conns[conn]["path"].index(number) + 1
        if what == "request":
            return [[("request", conn, hop, came["seq"])]]
        if what == "answer":
            answer = ("answer", conn, hop, came["seq"], came["granted"])
            return [[answer], [("turn", conn, came["seq"]), answer]]
        arrived = (self.next(("source", conn)) or {}).get("arrived")
        return [[("arrive", conn, arrived["cell"], came["at"])]] if arrived else []

    @staticmethod
    def event_of(conn, did):
        if type(did) is str:
            return did, conn
        if "ask" in did:
            return "ask", conn, units(int(did["ask"], 16)), did["store"]
        if "told" in did:
            return "told", conn, did["told"], did["granted"]
        (verb, moment), = did.items()
        return verb, conn, moment

    def fits(self, events):
        """Lets events happen, if what they are to their actors is what their journals have next."""
        writer = copy.deepcopy(self.writer)
        before = len(writer.lines)
        for event in events:
            writer.happen(event)
        placed = dict(self.placed)
        made = [bare(one) for one in writer.lines[before:]]
        for entry in made:
            actor = actor_of(entry)
            entries, place = self.journals.get(actor, []), placed.get(actor, 0)
            if place == len(entries) or entries[place] != entry:
                return False
            placed[actor] = place + 1
        if made:
            self.writer, self.placed = writer, placed
            self.events += events
        return bool(made)

    def run(self):
        """Places what can be placed; the actors that have entries left, sources before ports, each with the line of its next entry."""
        while any(
            self.fits(events)
            for actor in self.journals
            if (entry := self.next(actor)) is not None
            for events in self.tries(actor, entry)
        ):
            pass
        order = sorted(self.journals, key=lambda actor: (actor[0] != "source", actor[1]))
        return {actor: self.spots[actor][self.placed.get(actor, 0)] for actor in order if self.next(actor) is not None}


if __name__ == "__main__":
    for (kind, number), line in Search(Path(sys.argv[1]).read_text().splitlines()).run().items():
        print(f"{kind} {number}: line {line}")
