"""Audits small logs without `sent`, `arrived` or both, beside a slow search through all that these could be.

Runs of one or two connections over one or two ports are drawn, with messages that are lost, come twice or late, and with cells of which several
can come in one moment. The slow model writes their journals; then one entry is changed, missing, there twice or elsewhere.

The search tries every order of the entries, and for each arrival every cell that left. An entry that is left out stands where its source has come
to, so the orders try all places that it could have. It uses nothing of the rule by which these entries are put in (docs/JOURNALS.md, "What may be
left out"). A log has to be woven exactly if an order is found.

usage: derivations.py PROGRAM..
"""
import itertools
import json
import random
from collections import Counter

from harness import main
from audits import WHOLE, Auditor, text_of
from completing import crashes, dumps, starts, stripped
from damage import damaged
from journals import Writer, texts_of
from reading import rate
from search import Search, actor_of, bare

# How many runs are drawn, and how many entries an actor has, before any is left out, when its run ends.
DRAWN, MOST = 200, 14
# What is left out; mostly both.
LEFT_OUT = [("sent", "arrived")] * 4 + [("sent",), ("arrived",)]
PATHS = [[[0]]] * 3 + [[[0, 1]], [[0], [0]], [[0, 1], [0]], [[0, 1], [1, 0]]]
# A port has room for two connections at 1,000 cells per second, at which several cells can come in one moment if tau is long.
CAPACITIES, RATES = (1_024_000, 512_000, 2_048_000), [rate(one) for one in ("53e8", "53e8", "55e8", "0000")]
MILLISECOND = 10**9
DELAYS, TAUS = (0, MILLISECOND), (MILLISECOND, 3 * MILLISECOND, 6 * MILLISECOND)
# By how much the moment of an arrival is changed.
LATER = (1, MILLISECOND // 2, MILLISECOND, 2 * MILLISECOND)


class Draw:
    """A run whose events are drawn by what has happened so far."""

    def __init__(self, seed):
        self.draw = random.Random(seed)
        paths = self.draw.choice(PATHS)
        self.ports = [CAPACITIES[0]] * (1 + max(map(max, paths)))
        self.conns = [
            {"vc": (1, 100 + number), "path": path, "delay": self.draw.choice(DELAYS), "tau": self.draw.choice(TAUS), "script": []}
            for number, path in enumerate(paths)
        ]
        self.writer = Writer(self.ports, self.conns)

    def raised(self, conn):
        """A source asks for a rate, and hears the yes."""
        hops = range(1, len(self.conns[conn]["path"]) + 1)
        yield from [("start", conn, 0), ("ask", conn, RATES[0], "works")]
        yield from (("request", conn, hop, 1) for hop in hops)
        yield ("turn", conn, 1)
        yield from (("answer", conn, hop, 1, True) for hop in reversed(hops))
        yield ("told", conn, 1, True)

    def fenced(self, conn):
        """A cell leaves, and then a request, which comes first: the cell is lost, though the next one may come while it could have."""
        yield from [("emit", conn, 10**12), ("ask", conn, RATES[0], "works"), ("request", conn, 1, 2), ("emit", conn, 10**12 + MILLISECOND)]

    def deeds(self, conn):
        """What a source may do now; mostly a cell leaves if one may, as soon as it may or a little later."""
        course = self.writer.world.courses[conn]
        if course.asking() is None:
            return [("start", conn, max(course.clock(), self.draw.choice((0, 10**12))))]
        deeds = [("ask", conn, self.draw.choice(RATES), "works")] * 2 + [("crash", conn)] + [("again", conn)] * bool(course.asking())
        if course.rate():
            deeds += [("emit", conn, max(course.clock(), course.next_cell()) + self.draw.choice((0, 0, MILLISECOND // 2)))] * 8
        return deeds

    def messages(self, conn):
        """What may come of what was sent."""
        course = self.writer.world.courses[conn]
        hops, found = len(course.path), []
        for kind, *rest in course.facts:
            match kind:
                case "asked":
                    found.append(("request", conn, 1, rest[0]))
                case "passed":
                    found.append(("request", conn, rest[1] + 1, rest[0]) if rest[1] < hops else ("turn", conn, rest[0]))
                case "turned":
                    found.append(("answer", conn, hops, rest[0], True))
                case "back" | "shut":
                    granted = kind == "back"
                    found.append(("answer", conn, rest[1] - 1, rest[0], granted) if rest[1] > 1 else ("told", conn, rest[0], granted))
        return found

    def cells(self, conn):
        """Cells that may come, each as early, as late, or in the middle."""
        course, found = self.writer.world.courses[conn], []
        last = max((fact[2] for fact in course.of("arrived")), default=0)
        for _, cell, left, _ in course.of("emitted")[course.fence() :]:
            late = left + course.delay + course.tau
            first = max(late - course.tau, last)
            found += [("arrive", conn, cell, at) for at in (first, late, (first + late) // 2) if first <= at <= late]
        return found

    def next(self):
        """The next event: of messages mostly the newest one."""
        conn = self.draw.randrange(len(self.conns))
        messages, cells = self.messages(conn), self.cells(conn)
        capacity = ("capacity", self.draw.randrange(len(self.ports)), self.draw.choice(CAPACITIES))
        kinds = [self.deeds(conn)] * 8 + [messages[-1:]] * 6 + [messages] * 2 + [cells] * 8 + [[capacity]]
        return self.draw.choice(self.draw.choice([kind for kind in kinds if kind]))

    def most(self):
        return max(Counter(map(actor_of, self.writer.lines[1:])).values(), default=0)

    def lines(self):
        """The lines of the journals; most sources have a rate at first, and some of these a cell that is lost."""
        for conn in range(len(self.conns)):
            first = self.draw.choice([(), self.raised(conn), self.raised(conn), itertools.chain(self.raised(conn), self.fenced(conn))])
            for event in first:
                self.writer.happen(event)
        for _ in range(self.draw.randrange(6, 30)):
            if self.most() < MOST:
                self.writer.happen(self.next())
        return texts_of(self.writer.lines)


def other_input(one, lines, draw):
    """A step to which something else of its kind comes, or a cell at another moment; None if there is nothing else."""
    step = json.loads(one)
    if "arrive" in step["input"]:
        step["input"]["arrive"]["at"] += draw.choice((-1, 1)) * draw.choice(LATER)
        return dumps(step)
    came = [it["input"] for it in map(json.loads, lines) if it.get("input", {}).keys() == step["input"].keys()]
    others = [it for it in came if it != step["input"]]
    return dumps({**step, "input": draw.choice(others)}) if others else None


def wrong_ones(lines, draw):
    """Journals with one entry changed, missing, there twice or elsewhere."""
    yield from damaged(lines, draw, 1)
    for at in draw.sample(range(len(lines)), len(lines)):
        if '"input"' in lines[at] and (other := other_input(lines[at], lines, draw)):
            yield f"line {at + 1} with another input", [*lines[:at], other, *lines[at + 1 :]]
            break


def with_crashes(lines):
    """The lines, and before each start of a source that is up the crash that nobody wrote."""
    up, found = set(), []
    for line in lines:
        entry = json.loads(line)
        if starts(entry):
            if entry["source"] in up:
                found.append(dumps({"source": entry["source"], "did": "crash", "outcome": "crashed"}))
            up.add(entry["source"])
        if crashes(entry):
            up.discard(entry["source"])
        found.append(line)
    return found


class EveryOrder(Search):
    """A search through every order of a log's entries, and every cell that an arrival could be. An order is found if the slow model's journals
    of its events are the log, but for `sent` of a source that writes none, and `arrived` likewise."""

    def __init__(self, lines):
        super().__init__(with_crashes(lines))
        self.kinds = {actor: set().union(*entries) for actor, entries in self.journals.items()}
        self.seen = set()

    def is_left_out(self, entry):
        kind = {"sent", "arrived"} & entry.keys()
        return bool(kind) and not kind & self.kinds.get(actor_of(entry), set())

    def choices(self, world, placed):
        """The lists of events that may be next."""
        for actor, entries in self.journals.items():
            if placed.get(actor, 0) == len(entries):
                continue
            entry = entries[placed.get(actor, 0)]
            came = entry.get("input", {}).get("arrive")
            if came is None:
                yield from self.tries(actor, entry)
            elif (conn := self.conn_of(came)) is not None and actor == ("port", self.conns[conn]["path"][0]):
                yield from ([("arrive", conn, cell, came["at"])] for _, cell, *_ in world.courses[conn].of("emitted"))

    def after(self, writer, placed, events):
        """What these events make of a run and of how many entries are placed, or None if the log doesn't go on with them."""
        made, placed = Writer(self.ports, self.conns), dict(placed)
        made.places, made.world.capped = list(writer.places), list(writer.world.capped)
        for course, before in zip(made.world.courses, writer.world.courses):
            course.facts = list(before.facts)
        for event in events:
            made.happen(event)
        for entry in map(bare, made.lines[1:]):
            actor = actor_of(entry)
            place = placed.get(actor, 0)
            if self.is_left_out(entry):
                continue
            if self.journals.get(actor, [])[place : place + 1] != [entry]:
                return None
            placed[actor] = place + 1
        return (made, placed) if made.lines[1:] else None

    def is_new(self, writer, placed):
        """Whether no state like this was seen. The order of facts that nothing looks at together doesn't matter."""
        state = tuple(sorted(placed.items())), tuple(map(looked_at, writer.world.courses)), tuple(writer.world.capped)
        is_new = state not in self.seen
        self.seen.add(state)
        return is_new

    def finds(self):
        """Whether there is an order of all entries."""
        left = [(self.writer, {})]
        while left:
            writer, placed = left.pop()
            if all(placed.get(actor, 0) == len(entries) for actor, entries in self.journals.items()):
                return True
            found = (self.after(writer, placed, events) for events in self.choices(writer.world, placed))
            left += [state for state in found if state and self.is_new(*state)]
        return False


def looked_at(course):
    """The facts of a connection by what looks at them: its source, a hop, or cells. Which requests were delivered or turned has no order."""
    groups = {}
    for fact in course.facts:
        match fact[0]:
            case "delivered" | "turned":
                groups[fact] = []
            case "passed" | "shut" | "back":
                groups.setdefault(fact[2], []).append(fact)
            case "arrived":
                groups.setdefault("cells", []).append(fact)
            case _:
                groups.setdefault("source", []).append(fact)
    return frozenset((name, tuple(facts)) for name, facts in groups.items())


def judge(auditor, name, lines):
    """An audit of a log says what the search finds, which is given."""
    finds, given = EveryOrder(lines).finds(), auditor.audit(text_of(lines))
    is_stuck = (given.status, given.output) == (1, "") and given.told.startswith(("fault: NoOrder\n", "fault: Mismatch\n"))
    if not (given == WHOLE if finds else is_stuck):
        auditor.fail(f"{name}: the search finds {'an' if finds else 'no'} order, and {given} of\n" + "\n".join(lines))
    return finds


def look(auditor):
    found = Counter()
    for seed in range(DRAWN):
        lines, draw = Draw(seed).lines(), random.Random(f"{seed} left out")
        for what, left in [("as it is", lines), *wrong_ones(lines, draw)]:
            kinds = draw.choice(LEFT_OUT)
            name = f"draw {seed}, {what}, without {' '.join(kinds)}"
            found[what == "as it is", judge(auditor, name, stripped(left, kinds))] += 1
    auditor.wants("right logs of which an order is found", (DRAWN, 0), (found[True, True], found[True, False]))
    return f"{DRAWN} right logs, {sum(found.values()) - DRAWN} wrong ones, of {found[False, True]} of which a slow search finds an order"


if __name__ == "__main__":
    main(look, Auditor)
