"""What `abt draw` draws: pictures and pages as parsers of Python's own have them, and how they have to be by a run of the model of
scenarios/model.

Compared are the ends of each arrow and its words, what never came, when sources are up, the blocks of each stack with what they tell and
the words in them, the capacities and the rates with the steps between them and what they tell, the legend, and the width that the words of
the rows take (docs/PICTURES.md).
"""
import re
import xml.etree.ElementTree as ElementTree
from html.parser import HTMLParser
from itertools import chain, zip_longest

import harness  # noqa: F401 (the model's folder)
from model import World
from reading import rate

SVG = "{http://www.w3.org/2000/svg}"
# The geometry of docs/PICTURES.md, in tenths of a unit.
TOP, ROW, BAND, BAND_STEP = 400, 260, 600, 860
AXIS_LEFT, AXIS_RIGHT = 1000, 200
# Where the axis of cells begins, and how long it is.
TIME_LEFT, TIME = 1000, 4800
# A picture's least width, the room of a sign of the rows, at least and at most so many signs, and that of a sign in a block.
WIDTH, SIGN, SIGNS, SIGN_IN_BLOCK = 6000, 42, (16, 66), 46


# What each shape of the legend means: its element and class, and how many there are of it, one key under the other and column by column.
KEYS = {
    "request": ("line", "arrow request", 1), "yes": ("line", "arrow yes", 1), "no": ("line", "arrow no", 1),
    "came again or late": ("line", "arrow request old", 1), "never came": ("line", "stump request", 1),
    "a source starts": ("circle", "mark start", 1), "a source crashes": ("line", "mark crash", 2),
    "a request is sent": ("circle", "mark ask", 1), "a cell leaves or comes": ("line", "mark cell", 1),
    "a capacity is set": ("rect", "mark set", 1), "refused or dropped": ("rect", "mark refused", 1),
    "couldn't happen": ("circle", "mark idle", 1), "the source is up": ("line", "up", 1), "a journal is stuck": ("circle", "mark stuck", 1),
    "held by a connection": ("rect", "hold h0", 1), "capacity of the port": ("line", "capacity", 1),
    "rate of the source": ("line", "rate", 1), "least held along its path": ("line", "least", 1),
}
# What something that was refused or dropped answers.
BAD = re.compile(r"refuse|dropped|told Ignored|arrived (?!Conforming)")
UNITS = [
    "c0 r1 is request 1 of connection 0. Rates are in cells/s; a + stands for a fraction. Behind refuses and capacity they are in 1/512 cell/s.",
    "Times are in picoseconds, unless an s for seconds stands behind them.",
]


def tenths(text):
    whole, rest = text.split(".")
    return int(whole) * 10 + int(rest)


def short(units):
    """A rate in whole cells per second, with a sign behind it if more than that is meant."""
    return f"{units // 512}{'+' if units % 512 else ''}"


def step_between(columns):
    """How far so many columns are apart."""
    return 1100 if columns <= 6 else 720 if columns <= 12 else 460


def scale(most):
    """How high values stand in a band whose greatest value is this."""
    return lambda value: value * BAND // most if most else 0


def laid(stack):
    """The blocks of a stack: the connection, what is held below it, and what with it."""
    below = 0
    for conn, held in enumerate(stack):
        yield conn, below, below + held
        below += held


# What the events of a run send and bring, by docs/PICTURES.md: a message is its connection, kind, stop and number. Stop 0 is the source,
# and the one behind the last hop is the end of the path.


def brought_by(event, hops):
    match event:
        case "request", conn, hop, seq:
            return conn, "request", hop, seq
        case "turn", conn, seq:
            return conn, "request", hops + 1, seq
        case "answer", conn, hop, seq, granted:
            return conn, "yes" if granted else "no", hop, seq
        case "told", conn, seq, granted:
            return conn, "yes" if granted else "no", 0, seq
    return None


def sent_by(event, outcome, brought):
    """A source sends a request; what was brought goes on by one stop, or turns back as an answer."""
    word, *rest = outcome.split(" ")
    if word in ("asked", "again"):
        return event[1], "request", 1, int(rest[0])
    if word not in ("passed", "refuses", "turned"):
        return None
    conn, kind, stop, seq = brought
    kind = {"passed": kind, "refuses": "no", "turned": "yes"}[word]
    return conn, kind, stop + (1 if kind == "request" else -1), seq


class Run:
    """A run of the model: what each event answered, sent and brought, and what stands between the events."""

    def __init__(self, ports, conns, events):
        self.ports, self.conns, self.events = ports, conns, events
        world = World(ports, conns)
        self.sent, self.brought, self.outcomes, self.frames = [], [], [], [self.frame(world)]
        for event in events:
            outcome = world.step(event)
            self.outcomes.append(outcome)
            is_of_conn = event[0] != "capacity" and not outcome.startswith("not-enabled")
            brought = brought_by(event, len(conns[event[1]]["path"])) if is_of_conn else None
            self.brought.append(brought)
            self.sent.append(sent_by(event, outcome, brought))
            self.frames.append(self.frame(world))

    def frame(self, world):
        """Of each port what connections hold there and its capacity, and of each source its rate and the least that is held for it."""
        stacks = []
        for port in range(len(self.ports)):
            held = [sum(course.held(hop) for hop, visited in enumerate(course.path, 1) if visited == port) for course in world.courses]
            stacks.append((held, world.capacity(port)))
        rates = [(course.rate(), min(course.held(hop) for hop in range(1, len(course.path) + 1))) for course in world.courses]
        return stacks, rates

    def actor(self, conn, stop):
        path = self.conns[conn]["path"]
        if stop == 0:
            return "source", conn
        return ("end", conn) if stop > len(path) else ("port", path[stop - 1])

    def cell(self, event):
        """Of an event that had a cell leave or arrive, the verdict if it arrived, and its number."""
        word, *rest = self.outcomes[event].split(" ")
        if word == "emitted":
            return None, int(rest[0])
        return (rest[0], self.events[event][2]) if word == "arrived" else None

    def place_of(self, event):
        """On whose lifeline an event happens, or would if it could; None, if its net has no such connection or hop."""
        word, *rest = self.events[event]
        if word == "capacity":
            return "port", rest[0]
        if rest[0] >= len(self.conns) or (word in ("request", "answer") and not 1 <= rest[1] <= len(self.conns[rest[0]]["path"])):
            return None
        stop = {"arrive": 1, "request": rest[1:2], "answer": rest[1:2], "turn": len(self.conns[rest[0]]["path"]) + 1}.get(word, 0)
        return self.actor(rest[0], stop[0] if isinstance(stop, list) else stop)

    def columns(self, only):
        shown = [(conn, one["path"]) for conn, one in enumerate(self.conns) if not only or conn in only]
        columns = ([("source", conn), *(("port", port) for port in path), ("end", conn)] for conn, path in shown)
        return list(dict.fromkeys(chain.from_iterable(columns)))

    def sender(self, message):
        conn, kind, stop, _ = message
        return self.actor(conn, stop - 1 if kind == "request" else stop + 1)

    def newest_sending(self, message, before):
        return max((place for place in range(before) if self.sent[place] == message), default=None)

    def asked(self, conn, before):
        """The requests that a source sent, each number with the code that it asks for."""
        for event, outcome in zip(self.events[:before], self.outcomes):
            words = outcome.split(" ")
            if event[0] in ("ask", "again") and event[1] == conn and words[0] in ("asked", "again"):
                yield int(words[1]), words[3]

    def words(self, message, again=False, late=False):
        """What stands beside the arrow of a message."""
        conn, kind, _, seq = message
        asks = next((f": {short(rate(code))}" for number, code in self.asked(conn, len(self.events)) if number == seq), "")
        return f"c{conn} {'' if kind == 'request' else kind + ' '}r{seq}{asks}{' again' if again else ''}{' late' if late else ''}"

    def came_words(self, event):
        """The words of the message that an event brings."""
        message = self.brought[event]
        late = any(number > message[3] for number, _ in self.asked(message[0], event))
        return self.words(message, message in self.brought[:event], late)

    def ups(self, conn):
        """The events between which a source is up, the last of them None if it stays so."""
        own = [at for at, event in enumerate(self.events) if event[0] != "capacity" and event[1] == conn]
        began, ended = ([at for at in own if self.outcomes[at] == word] for word in ("started", "crashed"))
        return zip_longest(began, ended)

    def coming(self, place):
        """The event that brings what an event sent, if one does before it is sent again."""
        message, later = self.sent[place], range(place + 1, len(self.events))
        first = next((at for at in later if message in (self.brought[at], self.sent[at])), None)
        return first if first is not None and self.brought[first] == message else None


class Picture:
    """A picture, as an XML parser has it. Rows for entries at which journals are stuck may stand below those of the events."""

    def __init__(self, text, run, first, last, only):
        self.root = ElementTree.fromstring(text)
        self.run, self.first, self.last, self.only = run, first, last, only
        self.width, self.words = tenths(self.root.get("width")), self.root.findtext(SVG + "desc")
        self.stuck = self.shapes(self.root, "g", "stuck")
        self.kept = [event for event in range(first, last) if not only or run.place_of(event) in run.columns(only)]
        self.bottom = self.y(len(self.kept) + 1 + (len(self.stuck) + 1 if self.stuck else 0))

    def y(self, level):
        return TOP + ROW * level

    def level(self, event):
        return len(self.kept) + 1 if event >= self.last else sum(kept <= event for kept in self.kept)

    def shapes(self, under, kind, name):
        return [one for one in under.iter(SVG + kind) if name in one.get("class", "").split(" ")]

    def lifelines(self):
        """The place of each column, by the name above it."""
        names, found = self.shapes(self.root, "text", "name"), {}
        for life, kind, number in zip(self.shapes(self.root, "line", "life"), names[::2], names[1::2]):
            line = tenths(life.get("x1"))
            assert tenths(kind.get("x")) == tenths(number.get("x")) == line, "a name isn't above its lifeline"
            found[kind.text, int(number.text)] = line
        assert list(found) == self.run.columns(self.only), ("columns", list(found))
        return found

    def check(self):
        places = self.lifelines()
        bands = [one for one in places if one[0] == "port"] + [one for one in places if one[0] == "source"]
        axis = self.bottom + BAND_STEP * len(bands)
        self.check_legend(axis + self.check_cells(axis + 320))
        groups = {one.get("id"): one for one in self.shapes(self.root, "g", "event")}
        assert list(groups) == [f"e{event + 1}" for event in self.kept], "events"
        self.check_classes(groups.values(), places)
        notes = [self.check_arrows(groups[f"e{event + 1}"], event, places) for event in self.kept]
        drawn = [note for note in self.notes(self.root) if note[2] <= self.bottom + 95]
        assert drawn == list(chain.from_iterable(notes)), ("words of arrows", drawn, notes)
        rows, words = ([at for at, one in enumerate(self.root) if one in ones] for ones in (groups.values(), self.shapes(self.root, "text", "note")))
        assert not words or max(rows) < min(words), "a line is drawn over the words of an arrow"
        for place, (kind, number) in enumerate(bands):
            base = self.bottom + BAND_STEP * (place + 1)
            self.check_stack(number, base) if kind == "port" else self.check_rates(number, base)
        self.check_axis()
        self.check_ups(places)
        self.check_width(list(places.values()))

    def check_classes(self, groups, places):
        """Rows of events that couldn't happen, of what was refused or dropped, and of what happens on no lifeline here look otherwise."""
        for event, group in zip(self.kept, groups):
            outcome = self.run.outcomes[event]
            if outcome.startswith("not-enabled"):
                wanted = "event off"
            elif self.run.place_of(event) not in places:
                wanted = "event else"
            else:
                wanted = "event bad" if BAD.match(outcome) else "event"
            assert group.get("class") == wanted, ("class", event + 1, outcome, group.get("class"), wanted)

    def check_cells(self, upper):
        """Each source of which cells leave or arrive has a strip along an axis of time; how high they are. They are taken off."""
        run, shown = self.run, range(self.first, self.last)
        moments = [run.events[event][-1] for event in shown if run.cell(event) and (not self.only or run.events[event][1] in self.only)]
        if not moments:
            assert not self.shapes(self.root, "line", "way"), "arrows of cells"
            return 0
        least, most = min(moments), max(moments)
        x = {moment: TIME_LEFT + (min(moment, most) - least) * TIME // max(most - least, 1) for moment in [least, *(run.events[event][-1] for event in shown if run.cell(event))]}
        wanted = [("text", "key", (60, upper + 100), f"Cells, emitted above and arrived below, from {least} to {most} ps. A dashed line is a cell that was found nonconforming.")]
        y = upper + 300
        for kind, conn in run.columns(self.only):
            cells = [(event, *run.cell(event)) for event in shown if run.cell(event) and run.events[event][1] == conn]
            if kind != "source" or not cells:
                continue
            wanted += [("text", "band", (60, y + 230), f"cells {conn}")]
            wanted += [("line", "ground", (TIME_LEFT, at, TIME_LEFT + TIME, at), None) for at in (y, y + 400)]
            left = {cell: run.events[event][-1] for event, verdict, cell in reversed(cells) if verdict is None}
            for event, verdict, cell in cells:
                moment = run.events[event][-1]
                if verdict is None:
                    wanted.append(("line", "mark cell", (x[moment], y - 60, x[moment], y), None))
                else:
                    told = f"cell {cell} at {moment}" + (f", emitted at {left[cell]}" if cell in left else "")
                    wanted.append(("line", "way" if verdict == "Conforming" else "way bad", (x[left.get(cell, least)], y, x[moment], y + 400), told))
            y += 700
        drawn = [one for one in self.root if one.get("class") != "cursor" and upper < self.top(one) <= y - 250]
        found = [(one.tag.removeprefix(SVG), one.get("class"), self.at(one), one.text if one.tag == SVG + "text" else one.findtext(SVG + "title")) for one in drawn]
        assert found == wanted, ("cells", found, wanted)
        for one in drawn:
            self.root.remove(one)
        return y - upper

    def at(self, one):
        return self.places(one) if one.tag == SVG + "line" else (tenths(one.get("x")), tenths(one.get("y")))

    def check_legend(self, axis):
        """Each shape of the legend stands before its meaning, and the units below them; nothing else is there. It is taken off."""
        legend = [one for one in self.root if one.get("class") != "cursor" and self.top(one) > axis + 140]
        for one in legend:
            self.root.remove(one)
        told = {one.text: one for one in legend if one.tag == SVG + "text"}
        assert list(told)[-2:] == UNITS and set(told) == {*KEYS, *UNITS}, ("legend", list(told))
        for words, (kind, name, count) in KEYS.items():
            x, y = tenths(told[words].get("x")), tenths(told[words].get("y"))
            shapes = [one for one in legend if one.tag == SVG + kind and one.get("class") == name and abs(self.top(one) - y) < 120]
            assert len(shapes) == count and all(x - 320 < self.left(one) < x - 50 for one in shapes), ("key", words, len(shapes))
        crosses = [sum(one.get("class") == name for one in legend) for name in ("lost", "stuck")]
        assert crosses == [2, 2] and len(legend) == len(told) + 4 + sum(count for *_, count in KEYS.values()), "shapes of the legend"
        assert max(map(self.top, legend)) < tenths(self.root.get("height")), "the legend is cut off"

    def top(self, one):
        return next((tenths(one.get(name)) for name in ("y", "y1", "cy") if one.get(name)), 0)

    def left(self, one):
        return next((tenths(one.get(name)) for name in ("x", "x1", "cx") if one.get(name)), 0)

    def check_ups(self, places):
        """A source's line is thick where the source is up."""
        drawn = sorted(self.places(one) for one in self.shapes(self.root, "line", "up"))
        wanted = []
        for (kind, number), x in places.items():
            for began, ended in self.run.ups(number) if kind == "source" else ():
                top, bottom = self.y(self.level(began)), self.bottom if ended is None else self.y(self.level(ended))
                wanted += [(x, top, x, bottom)] if top < bottom else []
        assert drawn == sorted(wanted), ("up", drawn, wanted)

    def check_width(self, columns):
        """The columns stand behind the words of the rows, evenly, and the picture ends behind the last one."""
        lines = re.findall(r"^\d+ (?:line \d+ )?(.*?): (.*)$", self.words, flags=re.M)[self.first:self.last]
        room = max([SIGNS[0], *(len(event) + 6 for event, _ in lines), *(len(answer.encode()) for _, answer in lines)])
        step = step_between(len(columns))
        left = (SIGNS[1] if self.stuck else min(room, SIGNS[1])) * SIGN + step // 2 + 100
        assert columns == [left + step * place for place in range(len(columns))], ("columns", columns, left, step)
        assert self.width == max(left + step * (len(columns) - 1) + step_between(0), WIDTH), ("width", self.width, left, step)

    def check_axis(self):
        """Each number along the axis stands where its event does; the first event has one."""
        ticks = [(int(one.text), tenths(one.get("x"))) for one in self.shapes(self.root, "text", "tick")]
        assert ticks == [(number, self.edge(number - self.first)) for number, _ in ticks], ("axis", ticks)
        assert [number for number, _ in ticks[:1]] == [self.first + 1] * (self.last > self.first), ("axis", ticks)

    def arrow(self, message, sent, came, places):
        sender, receiver = self.run.sender(message), self.run.actor(message[0], message[2])
        if sender not in places or receiver not in places:
            return []
        return [(message[1], places[sender], self.y(0 if sent is None else self.level(sent)), places[receiver], self.y(self.level(came)))]

    def check_arrows(self, group, event, places):
        run, wanted, stumps, notes = self.run, [], [], []
        if run.brought[event]:
            wanted += self.arrow(run.brought[event], run.newest_sending(run.brought[event], event), event, places)
            goes_to = places.get(run.actor(*run.sent[event][:3:2])) if run.sent[event] else None
            notes += [self.note(arrow, run.came_words(event), goes_to) for arrow in wanted]
        if run.sent[event]:
            came = run.coming(event)
            if came is None:
                stumps = self.arrow(run.sent[event], event, event, places)
            elif came >= self.last:
                leaving = self.arrow(run.sent[event], event, came, places)
                notes += [self.note(arrow, run.words(run.sent[event]), None) for arrow in leaving]
                wanted += leaving
        drawn = [self.ends(one) for one in self.shapes(group, "line", "arrow")]
        assert drawn == wanted, ("arrows", event + 1, drawn, wanted)
        half = step_between(len(places)) // 2
        halves = [(kind, x, y, x + half if x < to else x - half, y) for kind, x, y, to, _ in stumps]
        drawn = [self.ends(one) for one in self.shapes(group, "line", "stump")]
        assert drawn == halves, ("stumps", event + 1, drawn, halves)
        assert len(self.shapes(group, "line", "lost")) == 2 * len(halves), ("crosses", event + 1)
        notes += [("note middle", x, y - 45, run.words(run.sent[event])) for _, _, _, x, y in halves]
        return notes

    def notes(self, under):
        return [(one.get("class"), tenths(one.get("x")), tenths(one.get("y")), one.text) for one in self.shapes(under, "text", "note")]

    def note(self, arrow, words, goes_to):
        """The words of an arrow stand below its head on the side from which it comes, or on the other one if what the event sends goes
        there."""
        _, start, _, head, y = arrow
        from_left = start < head
        returns = goes_to is not None and (goes_to < head) == from_left
        return ("note", head + 60, y + 95, words) if from_left == returns else ("note end", head - 60, y + 95, words)

    def places(self, line):
        return tuple(tenths(line.get(name)) for name in ("x1", "y1", "x2", "y2"))

    def ends(self, line):
        return (line.get("class").split(" ")[1], *self.places(line))

    def edge(self, frame):
        return AXIS_LEFT + (self.width - AXIS_LEFT - AXIS_RIGHT) * frame // (self.last - self.first + 1)

    def middle(self, frame):
        return (self.edge(frame) + self.edge(frame + 1)) / 2

    def frames(self):
        return self.run.frames[self.first : self.last + 1]

    def check_line(self, name, base, values, height, what):
        """A line of a band has the heights of these values, one a frame, and tells them; it goes upright where they differ, and nowhere
        else."""
        heights = [height(value) for value in values]
        lines = [(*self.places(one), one.findtext(SVG + "title")) for one in self.shapes(self.root, "line", name)]
        lines = [one for one in lines if base - BAND <= min(one[1], one[3]) and max(one[1], one[3]) <= base]
        level = [[(y, told) for x, y, to, end, told in lines if x < self.middle(frame) < to and y == end] for frame in range(len(heights))]
        wanted = [[(base - height(value), f"{what} {short(value)} cells/s")] for value in values]
        assert level == wanted, (name, level, wanted)
        upright = [(x, y, end) for x, y, to, end, _ in lines if x == to]
        steps = enumerate(zip(heights, heights[1:]), 1)
        wanted = [(self.edge(frame), base - old, base - new) for frame, (old, new) in steps if old != new]
        assert upright == wanted, ("steps", name, upright, wanted)

    def check_rates(self, conn, base):
        values = [rates[conn] for _, rates in self.frames()]
        height = scale(max(map(max, values)))
        self.check_line("rate", base, [rate for rate, _ in values], height, "shapes at")
        self.check_line("least", base, [least for _, least in values], height, "held along the path: at least")
        self.check_scale(base, max(map(max, values)))

    def check_stack(self, port, base):
        values = [stacks[port] for stacks, _ in self.frames()]
        height = scale(max(capacity for _, capacity in values))
        self.check_line("capacity", base, [capacity for _, capacity in values], height, "capacity")
        blocks = [one for one in self.shapes(self.root, "rect", "hold") if base - BAND <= tenths(one.get("y")) < base]
        blocks = [(*(tenths(one.get(name)) for name in ("x", "y", "width", "height")), one.get("class"), one.findtext(SVG + "title")) for one in blocks]
        for frame, (stack, capacity) in enumerate(values):
            drawn = [(*known, y, y + tall) for x, y, width, tall, *known in blocks if x < self.middle(frame) < x + width and tall]
            # What is held may be too little for a tenth of a unit: such a block isn't seen.
            heights = [(conn, top - low, height(low), height(top)) for conn, low, top in laid(stack)]
            wanted = [(f"hold h{conn % 6}", f"c{conn} holds {short(held)} cells/s", base - top, base - low) for conn, held, low, top in heights if top > low]
            assert drawn == wanted, ("stack", port, frame, drawn, wanted)
            assert all(y >= base - height(capacity) for *_, y, _ in drawn), ("a stack above its line", port)
        self.check_held(base, values, height)
        self.check_scale(base, max(capacity for _, capacity in values))

    def check_scale(self, base, most):
        """Beside a band stands what it has room for, with its unit."""
        drawn = [one.text for one in self.shapes(self.root, "text", "scale") if base - BAND <= tenths(one.get("y")) <= base]
        assert drawn == [f"{short(most)} cells/s", "0"], ("scale", drawn, most)

    def check_held(self, base, values, height):
        """Each block has the words of what is held, if there is room for them, and no other has. A block goes over all frames in which
        nothing of its port changes."""
        begins = [frame for frame, value in enumerate(values) if frame == 0 or value != values[frame - 1]]
        wanted = []
        for frame, behind in zip(begins, [*begins[1:], len(values)]):
            x, to = self.edge(frame), self.edge(behind)
            for conn, low, top in laid(values[frame][0]):
                tall, words = height(top) - height(low), f"c{conn}: {short(top - low)}"
                if top > low and tall >= 90 and to - x >= len(words) * SIGN_IN_BLOCK + 40:
                    wanted.append(("note", x + 30, base - height(top) + tall // 2 + 30, words))
        drawn = [note for note in self.notes(self.root) if note[0] == "note" and base - BAND <= note[2] <= base]
        assert drawn == wanted, ("words of blocks", drawn, wanted)
        grounds = [one for one in self.shapes(self.root, "rect", "paper") if base - BAND <= self.top(one) <= base]
        grounds = [(self.left(one) + 10, self.top(one) + 72, tenths(one.get("width"))) for one in grounds]
        assert grounds == [(x, y, len(words) * SIGN_IN_BLOCK) for _, x, y, words in wanted], ("grounds", grounds, wanted)


# The attributes by which an element takes something from outside.
TAKES = ("src", "href", "xlink:href", "srcset", "action", "data", "poster")


class Page(HTMLParser):
    """What a page takes from outside, and its words."""

    def __init__(self, text):
        super().__init__()
        self.outside, self.words, self.script, self.styles, self.open, self.slider = [], "", "", [], [], {}
        self.feed(text)

    def handle_starttag(self, tag, attributes):
        self.open.append(tag)
        self.outside += [(tag, *pair) for pair in attributes if pair[0] in TAKES]
        self.slider = dict(attributes) if tag == "input" else self.slider

    def handle_endtag(self, tag):
        while self.open and self.open.pop() != tag:
            pass

    def handle_data(self, data):
        if "pre" in self.open:
            self.words += data
        if "style" in self.open:
            self.styles.append(data)
        if "style" in self.open and "url(" in data.replace("url(#", ""):
            self.outside.append(("style", "url", data))
        if "script" in self.open:
            self.script += data
            self.outside += [("script", word) for word in ("fetch", "XMLHttp", "import", "http:", "https:", "WebSocket") if word in data]

    def check(self, words):
        """It takes nothing from outside, and shows these words; each button and each key steps to where its name says."""
        assert (self.outside, self.words) == ([], words), ("a page", self.outside, self.words, words)
        buttons = re.findall(r"getElementById\('(\w+)'\)\.addEventListener\('click', function \(\) { show\((.*?), true\); }\)", self.script)
        assert buttons == [("back", "at - 1"), ("on", "at + 1")], buttons
        keys = re.search(r"var steps = {(.*?)};", self.script)[1]
        assert keys == " ArrowRight: at + 1, ArrowLeft: at - 1, Home: 0, End: events.length - 1 ", keys
        assert "addEventListener('input', function () { show(slider.value - 1, true); })" in self.script, "the slider"

    def steps(self):
        """How many rows the slider steps through, how many events are before the first that is shown, and how many are shown."""
        return tuple(int(self.slider[name]) for name in ("max", "data-before", "data-shown"))
