#!/usr/bin/env python3
"""The journals that the events of a scenario leave, as the model has them, in the lines of docs/JOURNALS.md.

usage: journals.py FILE
"""
import json
import sys
from pathlib import Path

from model import World, code
from reading import read


def line(**members):
    return {name.replace("_", "-"): value for name, value in members.items()}


class Writer:
    """Lets events happen to the model's world, and writes down what each is to its port and to its source."""

    def __init__(self, ports, conns):
        self.world, self.conns = World(ports, conns), conns
        self.places = [0] * len(ports)
        self.lines = [line(net={"ports": ports, "connections": [self.connection(conn) for conn in conns]})]

    @staticmethod
    def connection(conn):
        vpi, vci = conn["vc"]
        return {"vpi": vpi, "vci": vci, "path": conn["path"], "delay": conn["delay"], "tau": conn["tau"]}

    def cell(self, conn, seq, floor, ask, **granted):
        vpi, vci = self.conns[conn]["vc"]
        return {"vpi": vpi, "vci": vci, "seq": int(seq), "floor": floor, "ask": ask, **granted}

    def terms(self, conn, seq, **granted):
        floor, ask, _ = self.world.courses[conn].request(seq)
        return self.cell(conn, seq, code(floor), code(ask), **granted)

    def step(self, port, came, reply):
        """A step of a port; its place."""
        place = self.places[port]
        self.lines.append(line(port=port, place=place, caller=0, input=came, reply=reply))
        self.places[port] += 1
        return place

    def entry(self, conn, **members):
        self.lines.append(line(source=conn, **members))

    def happen(self, event):
        kind, number, *rest = event
        outcome = self.world.step(event).split(" ")
        if kind == "capacity":
            if number < len(self.places):
                self.step(number, {"capacity": rest[0]}, "set" if outcome == ["set"] else {"refused": outcome[1]})
        elif number < len(self.conns):
            {"request": self.request, "answer": self.answer, "arrive": self.arrive, "turn": lambda *_: None}.get(kind, self.source)(event, outcome)

    def source(self, event, outcome):
        kind, conn, *rest = event
        if kind == "told" and outcome[0] == "not-enabled":
            return
        did = {
            "start": lambda now: {"start": now},
            "ask": lambda rate, plan: {"ask": code(rate), "store": plan},
            "again": lambda: "again",
            "crash": lambda: "crash",
            "emit": lambda now: {"emit": now},
            "told": lambda seq, granted: {"told": seq, "granted": granted},
        }[kind](*rest)
        self.entry(conn, did=did, outcome=self.outcome(conn, *outcome))

    def outcome(self, conn, word, *rest):
        match word:
            case "started" | "crashed":
                return word
            case "asked" | "again":
                return {word: self.cell(conn, *rest)}
            case "emitted":
                return {word: {"cell": int(rest[0]), "next": int(rest[1])}}
            case "refused" if rest[0] == "TooSoon":
                return {word: {"TooSoon": int(rest[1])}}
            case _:
                return {word: rest[0]}

    def request(self, event, outcome):
        _, conn, hop, seq = event
        if outcome[0] == "not-enabled":
            return
        reply = {"passed": "passed", "refuses": {"refused": self.terms(conn, seq, granted=False)}}.get(outcome[0]) or {"dropped": outcome[1]}
        place = self.step(self.conns[conn]["path"][hop - 1], {"request": self.terms(conn, seq)}, reply)
        if hop == 1:
            self.entry(conn, sent=place)

    def answer(self, event, outcome):
        _, conn, hop, seq, granted = event
        if outcome[0] == "not-enabled":
            return
        reply = "passed" if outcome == ["passed"] else {"dropped": outcome[1]}
        self.step(self.conns[conn]["path"][hop - 1], {"answer": self.terms(conn, seq, granted=granted)}, reply)

    def arrive(self, event, outcome):
        _, conn, cell, at = event
        if outcome[0] == "not-enabled":
            return
        vpi, vci = self.conns[conn]["vc"]
        place = self.step(self.conns[conn]["path"][0], {"arrive": {"vpi": vpi, "vci": vci, "at": at}}, {"arrived": outcome[1]})
        self.entry(conn, arrived={"cell": cell, "place": place})


def entries(ports, conns, events):
    """The lines of the journals that events leave, as objects, without the end."""
    writer = Writer(ports, conns)
    for event in events:
        writer.happen(event)
    return writer.lines


def texts_of(lines):
    """These lines, and that of the end, as texts without their line feeds."""
    return [json.dumps(one, separators=(",", ":")) for one in [*lines, line(end=True)]]


def journals(octets):
    """The lines of the journals that the events of a scenario leave."""
    return texts_of(entries(*read(octets)[:3]))


if __name__ == "__main__":
    print("\n".join(journals(Path(sys.argv[1]).read_bytes())))
