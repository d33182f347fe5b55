"""Logs as devices write them, from journals and back: what a device can't know is left out of journals, and the entries that sources lack are put
in again, by the rule of docs/JOURNALS.md ("What may be left out") alone.
"""
import json

from search import Search

# What may be left out, by the names of members.
KINDS = ("place", "caller", "end", "store", "sent", "arrived", "crash")


def dumps(entry):
    return json.dumps(entry, separators=(",", ":"))


def starts(entry):
    """Whether a source started."""
    return type(entry.get("did")) is dict and "start" in entry["did"] and entry.get("outcome") == "started"


def crashes(entry):
    return entry.get("did") == "crash" and entry.get("outcome") == "crashed"


def shown_crashes(lines):
    """The lines of crashes behind which their source starts before it does anything else."""
    shown, last = set(), {}
    for number, line in enumerate(lines):
        entry = json.loads(line)
        if "did" not in entry:
            continue
        if starts(entry) and entry["source"] in last:
            shown.add(last[entry["source"]])
        last.pop(entry["source"], None)
        if crashes(entry):
            last[entry["source"]] = number
    return shown


def stripped(lines, kinds):
    """Journals without what is of these kinds."""
    left, shown = [], shown_crashes(lines) if "crash" in kinds else ()
    for number, line in enumerate(lines):
        entry = json.loads(line)
        if number in shown or any(kind in entry for kind in ("sent", "arrived", "end") if kind in kinds):
            continue
        for kind in ("place", "caller"):
            if kind in kinds and "port" in entry:
                entry.pop(kind, None)
        if "store" in kinds and type(entry.get("did")) is dict:
            entry["did"].pop("store", None)
        left.append(dumps(entry))
    return left


class Source:
    """The entries of a source, each with its line, and how far it had come when its first port served something."""

    def __init__(self, conn):
        self.conn, self.written, self.put, self.up = conn, [], {}, False
        self.reached = self.fence = 0
        self.asked, self.left = {}, []

    def take(self, number, entry):
        if starts(entry) and self.up:
            self.take(number, {"source": self.conn["number"], "did": "crash", "outcome": "crashed"})
        self.up = starts(entry) or self.up and not crashes(entry)
        self.written.append((number, entry))
        behind = len(self.written)
        outcome = entry.get("outcome")
        if type(outcome) is dict and "asked" in outcome:
            self.asked.setdefault(outcome["asked"]["seq"], (behind, len(self.left)))
        elif type(outcome) is dict and "emitted" in outcome and "emit" in entry["did"]:
            self.left.append((outcome["emitted"]["cell"], entry["did"]["emit"], behind))

    def tells(self, kind):
        return any(kind in entry for _, entry in self.written)

    def wrote(self, place):
        """How many entries there are up to the one that tells this place, 0 if none does."""
        for behind, (_, entry) in enumerate(self.written, 1):
            if place == (entry["sent"] if "sent" in entry else entry["arrived"]["place"] if "arrived" in entry else None):
                return behind
        return 0

    def serve(self, number, place, step):
        """The first port served something: the entry of that is put in, unless the source writes such entries itself."""
        came = step["input"]
        if "request" in came:
            if came["request"]["seq"] not in self.asked:
                return
            behind, mark = self.asked[came["request"]["seq"]]
            self.fence, self.reached = max(self.fence, mark), max(self.reached, behind)
            kind, made = "sent", {"source": self.conn["number"], "sent": place}
        else:
            kind, made = "arrived", None
            at, delay, tau = came["arrive"]["at"], self.conn["delay"], self.conn["tau"]
            if not self.tells(kind):
                fits = [left for left, cell in enumerate(self.left) if left >= self.fence and cell[1] + delay <= at <= cell[1] + delay + tau]
                if not fits:
                    return
                cell, _, behind = self.left[fits[0]]
                self.fence, self.reached = fits[0] + 1, max(self.reached, behind)
                made = {"source": self.conn["number"], "arrived": {"cell": cell, "place": place}}
        if self.tells(kind):
            self.reached = max(self.reached, self.wrote(place))
        else:
            self.put.setdefault(self.reached, []).append((number, made))

    def entries(self):
        yield from self.put.get(0, [])
        for behind, entry in enumerate(self.written, 1):
            yield entry
            yield from self.put.get(behind, [])


def completed(lines):
    """The entries of a log, each with its line: what a device may leave out of them is there."""
    conns = [{**conn, "number": number} for number, conn in enumerate(json.loads(lines[0])["net"]["connections"])]
    sources, steps = [Source(conn) for conn in conns], {}
    for number, line in enumerate(lines[1:], 2):
        entry = json.loads(line)
        if "port" in entry:
            place = len(steps.setdefault(entry["port"], []))
            steps[entry["port"]].append((number, {"place": place, **entry}))
        elif "source" in entry:
            sources[entry["source"]].take(number, entry)
    for port, found in steps.items():
        for number, step in found:
            came = step["input"].get("request") or step["input"].get("arrive")
            if not came or "refused" in step["reply"] and "arrive" in step["input"]:
                continue
            for source in sources:
                if (source.conn["vpi"], source.conn["vci"], source.conn["path"][0]) == (came["vpi"], came["vci"], port):
                    source.serve(number, step["place"], step)
    yield from (step for found in steps.values() for step in found)
    for source in sources:
        yield from source.entries()


class CompletedSearch(Search):
    """A slow search for the events of a log. An entry that was put in stands in the line of its step."""

    def __init__(self, lines):
        entries = list(completed(lines))
        super().__init__([lines[0], *(dumps(entry) for _, entry in entries), '{"end":true}'])
        self.spots = {actor: [entries[number - 2][0] for number in numbers] for actor, numbers in self.spots.items()}
