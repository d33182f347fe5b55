"""Audits logs that can't tell whether a write that failed was stored.

Sources are drawn that start, ask over a store which fails, emit and crash. The slow model writes their journals, and those of each
sample. Then each store that failed says no more than that. The model tries all ways to settle these, `before` first: of those in which
every source answers what the log tells, the first is wanted, in the scenario that `abt audit --events` writes. With a number that no way
shows, no list of events is woven. The line that docs/JOURNALS.md shows for such a write is tried as it stands there
(`tests/cases/open_writes.toml`).

usage: open_writes.py PROGRAM..
"""
import itertools
import random

from harness import main, sample_runs, worked
from audits import WHOLE, Auditor, by_actor, text_of
from completing import dumps
from journals import Writer, entries, journals, texts_of
from reading import rate

DRAWN = 400
TOGETHER = 8
PORTS = [512000]
CONNS = [{"vc": (1, 100), "path": [0], "delay": 1000, "tau": 200, "script": []}]
RATES = [rate(one) for one in ("0000", "4000", "5120", "5258", "53e8")]
GAPS = [0, 1, 10**9, 2_500_000_000, 10**12]


def fails(event):
    return event[0] == "ask" and event[3] in ("before", "after")


def opened(lines):
    """The lines, where each store that failed says no more than that; and without any word of it."""
    left, told = [], []
    for one in lines:
        did = one.get("did")
        if type(did) is not dict or did.get("store") not in ("before", "after"):
            left.append(one)
            told.append(one)
        else:
            left.append({**one, "did": {**did, "store": "failed"}})
            told.append({**one, "did": {"ask": did["ask"]}})
    return left, told


def settled(ports, conns, events):
    """The events with the first plans under which each source answers the same."""
    places = [at for at, event in enumerate(events) if fails(event)]
    told = opened(entries(ports, conns, events))[1]
    for plans in itertools.product(("before", "after"), repeat=len(places)):
        other = list(events)
        for at, plan in zip(places, plans):
            other[at] = (*events[at][:3], plan)
        if opened(entries(ports, conns, other))[1] == told:
            return other
    raise AssertionError("the plans that were drawn fit")


class Draw:
    """The life of one source over a store that fails now and then."""

    def __init__(self, seed):
        self.draw, self.writer, self.events, self.clock = random.Random(seed), Writer(PORTS, CONNS), [], 0

    def happen(self, *event):
        self.events.append(event)
        self.writer.happen(event)

    def later(self):
        self.clock += self.draw.choice(GAPS)
        return self.clock

    def ask(self):
        plan = self.draw.choice(("works", "before", "after", "after"))
        self.happen("ask", 0, self.draw.choice(RATES), plan)
        asked = self.writer.lines[-1]["outcome"]
        if type(asked) is dict and "asked" in asked and self.draw.random() < 0.6:
            seq = asked["asked"]["seq"]
            answers = [("turn", 0, seq), ("answer", 0, 1, seq, True), ("told", 0, seq, True)] if self.draw.random() < 0.8 else []
            for event in (("request", 0, 1, seq), *answers):
                self.happen(*event)
        if asked == {"refused": "Keep"} and self.draw.random() < 0.5:
            self.happen("crash", 0)
            self.happen("start", 0, self.later())

    def stride(self):
        """All numbers of the first write are used, and a cell left: the next write has another spacing than the hold-off of a second."""
        asked = ("ask", 0, rate("53e8"), "works")
        for event in (asked, ("request", 0, 1, 1), ("turn", 0, 1), ("answer", 0, 1, 1, True), ("told", 0, 1, True), ("emit", 0, 10**12)):
            self.happen(*event)
        self.clock = 10**12
        for _ in range(63):
            self.happen(*asked)

    def live(self):
        self.happen("start", 0, 0)
        if self.draw.random() < 0.3:
            self.stride()
        for _ in range(self.draw.randrange(4, 20)):
            kind = self.draw.choice(("start", "ask", "ask", "ask", "crash", "emit", "emit", "again"))
            if kind == "ask":
                self.ask()
            else:
                self.happen(kind, 0, *([self.later()] if kind in ("start", "emit") else []))
        return self.events


def try_run(auditor, name, ports, conns, events):
    """One run, its failing stores opened: woven, and settled as the model settles it. How many stores were."""
    count = sum(map(fails, events))
    if not 0 < count <= TOGETHER:
        return 0
    lines = texts_of(opened(entries(ports, conns, events))[0])
    wanted = texts_of(entries(ports, conns, settled(ports, conns, events)))
    out = auditor.folder / "settled.toml"
    out.unlink(missing_ok=True)
    given = auditor.save(out, text_of(lines))
    auditor.wants(name, WHOLE, given)
    if given == WHOLE and by_actor(journals(out.read_bytes())) != by_actor(wanted):
        auditor.fail(f"{name}: {out.read_text()} in place of {wanted}")
    return count


def try_strange(auditor, name, ports, conns, events):
    """The last number of the source is one that no way to settle its open writes shows."""
    lines = opened(entries(ports, conns, events))[0]
    asked = [at for at, one in enumerate(lines) if "asked" in one.get("outcome", ())]
    if not any(map(fails, events)) or not asked:
        return 0
    cell = lines[asked[-1]]["outcome"]["asked"]
    cell["seq"] += 100_000
    auditor.unwoven(f"{name}, a number changed", text_of(texts_of(lines)))
    return 1


def pieces():
    """The pieces of the logs of tests/cases/open_writes.toml: a source that starts, the line of docs/JOURNALS.md, and what comes behind it."""
    (line,) = worked("JOURNALS.md", r"^```\n(\{\"source\"[^\n]*\"Keep\"\}\}\n)```$")
    cell = {"vpi": 1, "vci": 100, "floor": "0000", "ask": "5120"}
    asked = {f"asks_{seq}": [{"source": 0, "did": {"ask": "5120"}, "outcome": {"asked": {**cell, "seq": seq}}}] for seq in (1, 2, 65)}
    restart = [{"source": 0, "did": {"start": 5}, "outcome": "started"}]
    made = {"up": entries(PORTS, CONNS, [("start", 0, 0)]), "restart": restart, **asked}
    return {"line": line, **{name: text_of(map(dumps, lines)).decode() for name, lines in made.items()}}


def look(auditor):
    runs = [*sample_runs(), *((f"draw {seed}", PORTS, CONNS, Draw(seed).live()) for seed in range(DRAWN))]
    counts = [try_run(auditor, *run) for run in runs]
    strange = sum(try_strange(auditor, *run) for run in runs)
    by_hand = auditor.cases("open_writes", **pieces())
    return f"{sum(map(bool, counts))} logs with {sum(counts)} open writes settled, {strange} with a number changed, {by_hand} by hand"


if __name__ == "__main__":
    main(look, Auditor)
