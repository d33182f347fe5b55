"""Judges the log of one port, and of one source, alone (docs/AUDITS.md, "One log"): those of the run of docs/JOURNALS.md and of each
sample of scenarios/, as the slow model writes them, alone and among the others, with and without what a device can't know.

With one entry changed, missing, there twice or elsewhere, the first entry has to be told that isn't what a port or a source by itself
answers, with that answer. Here these are a port in Python (`tests/devices`) and a source of the slow model, which are given what the log
says that came in. A mismatch that an audit of all finds is the one that the log alone has, word by word.

usage: one_log.py PROGRAM..
"""
import json
import random
from collections import Counter

from harness import ROOT, End, main, sys
from audits import Auditor, sample_journals, text_of, worked_faults, worked_run
from completing import KINDS, crashes, starts, stripped
from damage import actor, changed, damaged
from journals import Writer
from search import Search, bare

sys.path.insert(0, str(ROOT / "tests" / "devices"))
import device

# How many entries of a log are changed.
MOST = 3


class LonePort(device.Port):
    """A port of a net, which replies to what a log says that came."""

    def __init__(self, net, number):
        super().__init__(net["ports"][number])
        self.ingress, self.clocks = set(), Counter()
        for line in net["connections"]:
            if number in line["path"]:
                vc = line["vpi"], line["vci"]
                self.holds[vc] = device.Hold(line["tau"])
                self.ingress |= {vc} if line["path"][0] == number else set()

    def answer_to(self, entry):
        (what, came), = entry["input"].items()
        if what == "capacity":
            word, *cause = self.set_capacity(came).split()
            return {word: cause[0]} if cause else word
        vc = came["vpi"], came["vci"]
        if what == "arrive":
            return self.arrived(vc, came["at"])
        if vc not in self.holds:
            return {"dropped": "UnknownVc"}
        terms = vc, came["seq"], *(device.units(int(came[name], 16)) for name in ("floor", "ask"))
        word, *cause = (self.request(*terms) if what == "request" else self.answer(*terms, came["granted"])).split()
        return {"pass": "passed", "refuse": {"refused": {**came, "granted": False}}}.get(word) or {"dropped": cause[0]}

    def arrived(self, vc, at):
        if vc not in self.ingress:
            return {"refused": "NotIngress" if vc in self.holds else "UnknownVc"}
        if at < self.clocks[vc]:
            return {"refused": "ClockBack"}
        self.clocks[vc] = at
        return {"arrived": self.arrive(vc, at)}

    said = staticmethod(lambda entry: entry["reply"])


class LoneSource:
    """A source of a net, which does what a log says that it was to do, and hears each answer as one that was sent."""

    def __init__(self, net, number):
        conns = [{**line, "vc": (line["vpi"], line["vci"]), "script": []} for line in net["connections"]]
        self.writer, self.number, self.is_up = Writer(net["ports"], conns), number, False
        self.world = self.writer.world

    def answer_to(self, entry):
        # A source that is up by what its log tells, and starts, has crashed.
        if starts(entry) and self.is_up:
            self.world.step(("crash", self.number))
        self.is_up = starts(entry) or self.is_up and not crashes(entry)
        kind, _, *rest = event = Search.event_of(self.number, entry["did"])
        if kind != "told":
            return self.writer.outcome(self.number, *self.world.step(event).split(" "))
        course = self.world.courses[self.number]
        if course.asking() != rest[0]:
            return {"told": "Ignored"}
        course.add("heard", *rest)
        return {"told": "Raised" if rest[1] else "Refused"}

    said = staticmethod(lambda entry: entry["outcome"])


def judged(lines, who):
    """How many entries of an actor are judged; and the first that differs, as its line and what it had to say, or None."""
    kind, number = who
    rule = {"port": LonePort, "source": LoneSource}[kind](json.loads(lines[0])["net"], number)
    count, first = 0, None
    for at, one in enumerate(lines[1:], 2):
        entry = bare(json.loads(one))
        if entry.get(kind) != number or not entry.keys() & {"input", "did"}:
            continue
        count += 1
        right = rule.answer_to(entry) if first is None else None
        if first is None and right != rule.said(entry):
            first = at, right
    return count, first


def actors(lines):
    net = json.loads(lines[0])["net"]
    return [("port", number) for number in range(len(net["ports"]))] + [("source", number) for number in range(len(net["connections"]))]


def obeys(who, count):
    return End(0, f"{who[0]} {who[1]} obeys: entries {count}\n")


class Judge(Auditor):
    differing = 0

    def judge(self, who, *texts):
        """How the log of one actor in these texts is judged."""
        return self.run("audit", *self.put(texts), f"--{who[0]}", who[1])

    def wants_judged(self, what, who, lines):
        """The log of an actor ends as by itself."""
        count, first = judged(lines, who)
        status, out, told = given = self.judge(who, text_of(lines))
        if first is None:
            self.wants(f"{what}, {who}", obeys(who, count), given)
            return
        self.differing += 1
        line, right = first
        fault, entry, protocol, *why = told.splitlines() + [""] * 3
        said = json.loads(protocol.removeprefix("protocol: ") or "null")
        is_told = fault == "fault: Mismatch" and entry.startswith(f"0:{line}: ") and said == right
        if (status, out, is_told) != (1, "", True) or not all(one.startswith("why: ") for one in why if one):
            self.fail(f"{what}, {who}: {given}, and line {line} has to say {right}")


def alone(lines, who):
    """The log of one actor, behind the line of the net."""
    return [lines[0], *(one for one in lines[1:] if "end" not in json.loads(one) and actor(one) == who)]


def try_right(judge, name, lines):
    for who in actors(lines):
        for what, left in [("", lines), (" alone", alone(lines, who)), (" as a device writes it", stripped(alone(lines, who), KINDS))]:
            count = sum(bool(json.loads(one).keys() & {"input", "did"}) for one in alone(left, who)[1:])
            judge.wants(f"{name}, {who}{what}", obeys(who, count), judge.judge(who, text_of(left)))
        judge.wants(f"{name}, {who} in two texts", obeys(who, judged(lines, who)[0]),
                    judge.judge(who, text_of([lines[0]]), text_of(alone(lines, who)[1:])))


def try_wrong(judge, name, lines):
    """With one entry changed, that entry is told, with what stood there; what is damaged in any way is told as it is by itself."""
    draw = random.Random(f"{name} alone")
    for who in actors(lines):
        log = alone(lines, who)
        places = [at for at in range(1, len(log)) if changed(log[at])]
        for at in sorted(draw.sample(places, min(MOST, len(places)))):
            right = json.loads(log[at])
            left = [*log[:at], changed(log[at]), *log[at + 1 :]]
            if judged(left, who)[1] != (at + 1, right.get("reply") or right.get("outcome")):
                judge.fail(f"{name}, {who}, line {at + 1} changed: by itself it is {judged(left, who)[1]}")
            judge.wants_judged(f"{name}, line {at + 1} changed", who, left)
    for what, left in damaged(lines, draw, 2):
        for who in actors(lines):
            judge.wants_judged(f"{name}, {what}", who, left)
        try_alike(judge, f"{name}, {what}", left)


def try_alike(judge, what, lines):
    """A mismatch of an audit of all is that of the log alone."""
    whole = judge.audit(text_of(lines))
    if whole.told.startswith("fault: Mismatch\n"):
        entry = json.loads(whole.told.splitlines()[1].split(": ", 1)[1])
        who = ("port", entry["port"]) if "port" in entry else ("source", entry["source"])
        judge.wants(f"{what}, {who} as in an audit of all", whole, judge.judge(who, text_of(lines)))


def try_words(judge, lines, faults):
    """The words, the faults of texts, and logs of docs/AUDITS.md in which something is wrong."""
    net, *entries, end = (one + "\n" for one in lines)
    texts = {name.removesuffix(".jsonl"): text.decode() for name, text, _ in faults}
    judge.cases("one_log", run="".join([net, *entries, end]), net=net, end=end, **texts)


def look(judge):
    worked = worked_run()
    every = [("docs/JOURNALS.md", worked), *sample_journals()]
    for name, lines in every:
        try_right(judge, name, lines)
        try_wrong(judge, name, lines)
    try_words(judge, worked, worked_faults())
    return f"{len(every)} runs, {judge.differing} logs that differ beside a port and a source by themselves"


if __name__ == "__main__":
    main(look, Judge)
