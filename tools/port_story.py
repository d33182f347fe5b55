"""What a port does with cells, each with its reason and with what its connections hold then: worked out anew after docs/RULES.md, "Node"."""
from rm_cells import units
from side import Unfit


class Kept:
    """What a port keeps of one connection."""

    def __init__(self):
        self.newest, self.terms, self.is_open = 0, (0, 0), False

    def held(self):
        return self.terms[self.is_open]


class Story:
    """A port of a capacity, in units, and its connections by their channels, as `VPI/VCI`."""

    def __init__(self, capacity):
        self.capacity, self.kept = capacity, {}

    def total(self):
        return sum(it.held() for it in self.kept.values())

    def decide(self, kind, channel, seq, terms):
        """What becomes of a message, and why."""
        kept = self.kept.setdefault(channel, Kept())
        if seq < kept.newest:
            return "drop Stale", f"{kept.newest} is the newest here"
        if seq == kept.newest and terms != kept.terms:
            return "drop Conflict", f"{seq} was decided with floor {kept.terms[0]} and ask {kept.terms[1]}"
        if kind == "request":
            return self.repeated(kept) if seq == kept.newest else self.asked(kept, seq, terms)
        if seq > kept.newest:
            return "drop Conflict", f"{kept.newest} is the newest here"
        if kind == "yes":
            return ("pass", f"{seq} is open here") if kept.is_open else ("drop Conflict", f"{seq} was refused here")
        kept.is_open = False
        return "pass", f"a no to the newest request: it holds its floor {terms[0]}"

    @staticmethod
    def repeated(kept):
        return ("pass", f"{kept.newest} is open here") if kept.is_open else ("refuse", f"{kept.newest} was refused here")

    def asked(self, kept, seq, terms):
        floor, ask = terms
        held = kept.held()
        if floor > held:
            return "drop FloorAbove", f"its floor {floor} is above the {held} that it holds"
        others = self.total() - held
        kept.newest, kept.terms, kept.is_open = seq, terms, others + ask <= self.capacity
        why = f"asks {ask}, holds {held}, others hold {others} of {self.capacity}"
        return ("pass", why) if kept.is_open else ("refuse", f"{why}: it holds its floor {floor}")

    def holds(self):
        held = ", ".join(f"{channel} holds {kept.held()}" for channel, kept in self.kept.items())
        return f"then {held or 'nothing is held'}; total {self.total()} of {self.capacity}"


def read_cell(line):
    """Kind, channel, number, and floor and asked rate in units, of what `abt cell --stdin` says of a cell; None of a fault."""
    _, kind, *words = line.replace(" answer ", " ").split(" ")
    if kind == "fault":
        return None
    vpi, vci, seq, floor, ask = words[1::2]
    return kind, f"{vpi}/{vci}", int(seq), (units(int(floor, 16)), units(int(ask, 16)))


def said(line):
    """The same in words."""
    read = read_cell(line)
    if read is None:
        return f"no cell of a message: {line.split(' ')[-1]}"
    kind, channel, seq, (floor, ask) = read
    return f"{kind} {seq} of {channel}, floor {floor}, ask {ask}"


def told_cells(capacity, lines, answers):
    """Two lines for each cell. `lines` are what `abt cell --stdin` says of them, `answers` what `abt port` does."""
    story, told = Story(capacity), []
    for line, answer in zip(lines, answers):
        number, verb, *more = answer.split(" ")
        read, why = read_cell(line), ""
        if read is not None:
            became, why = story.decide(*read)
            if became != (f"{verb} {more[0]}" if verb == "drop" else verb):
                raise Unfit(f"abt port answers cell {number} by {verb}, and {became} by the rules, which is a fault of theirs")
            why = f": {became}: {why}"
        told += [f"{number} {said(line)}{why}", f"  {story.holds()}"]
    return told
