"""Ladder diagrams, the drawings of `abt draw` as text, as they have to be by a run of the model (docs/PICTURES.md, "As text")."""
from picture import BAD

COLUMN, LINE, WORDS = 8, 80, 32
LINES = {"request": "-", "yes": "=", "no": "~"}
# Marks, by the first word that an event answered.
MARKS = {"started": "o", "crashed": "X", "asked": "*", "again": "*", "emitted": "+", "arrived": "+", "set": "#", "not-enabled": "?"}
KEYS = """
---> request  ===> yes  ~~~> no  - -> again, or late  ---x never came
o start  X crash  * ask  + cell leaves, comes  # capacity  ? not enabled
! refused or dropped  @ a journal is stuck
times in picoseconds; rates behind refuses and capacity in 1/512 cell/s
"""


class Ladder:
    """The diagram of the events of a run from one on up to another, over the lifelines of some connections."""

    def __init__(self, run, first, last, only):
        self.run, self.first, self.last, self.only = run, first, last, only
        self.columns = run.columns(only)
        self.bars = {actor: COLUMN * place + COLUMN - 1 for place, actor in enumerate(self.columns)}
        self.kept = [event for event in range(first, last) if not only or run.place_of(event) in self.bars]

    def text(self, explained, stuck=()):
        """The whole text. Each stuck entry is its actor and what is told of it."""
        lines, count = explained.split("\n"), len(self.run.events)
        only = f", --only {','.join(map(str, self.only))}" if self.only else ""
        title = f"Events {self.first + 1} to {self.last} of a run of {count}{only}" if count else "A run without events"
        names = "".join(f"{kind:>8}" for kind, _ in self.columns), "".join(f"{number:>8}" for _, number in self.columns)
        events = [line for event in self.kept for line in self.event(event, lines[event])]
        ends = [self.line({}, {self.bars.get(actor, 0): "@"}, f"stuck: {told}") for actor, told in stuck]
        return "\n".join([title + (", behind which journals are stuck" if stuck else ""), "", *names, *events, *ends]) + "\n" + KEYS

    def event(self, event, words):
        run, outcome = self.run, self.run.outcomes[event]
        sign = "!" if BAD.match(outcome) else MARKS.get(outcome.split(" ")[0])
        brought, sent, crossing = run.brought[event], run.sent[event], {}
        if brought:
            again = brought in run.brought[:event]
            late = any(number > brought[3] for number, _ in run.asked(brought[0], event))
            crossing = self.crossing(brought, again or late, None)
        yield self.line(crossing, {self.bars.get(run.place_of(event), 0): sign} if sign else {}, words)
        came = run.coming(event) if sent else None
        if sent and (came is None or came >= self.last):
            stump = self.crossing(sent, False, "x" if came is None else ">")
            if stump:
                yield self.line(stump, {}, "never came" if came is None else "comes behind these events")

    def crossing(self, message, is_broken, stump):
        """The signs between the lifelines of a message, by their places; none, if one of the two isn't shown. A stump's head is given."""
        start, end = (self.bars.get(actor) for actor in (self.run.sender(message), self.run.actor(message[0], message[2])))
        if start is None or end is None:
            return {}
        way = 1 if start < end else -1
        head = start + 4 * way if stump else end - way
        signs = {place: " " if is_broken and place % 2 == 0 else LINES[message[1]] for place in range(start + way, head, way)}
        return {**signs, head: "x" if stump == "x" else ">" if way == 1 else "<"}

    def line(self, crossing, marks, words):
        bars = {place: "|" for place in self.bars.values()}
        signs = {**bars, **marks, **crossing}
        width = COLUMN * len(self.columns)
        room = max(LINE - width - 2, WORDS)
        shown = words if len(words) <= room else words[: room - 2] + ".."
        return "".join(signs.get(place, " ") for place in range(width)) + "  " + shown
