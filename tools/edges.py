"""Events of a net and cells at a port, drawn at the edges of the rules: equal numbers, rates that just fit, moments at the ends of
windows, restarts. Only what can happen is drawn."""
from reading import event as event_of

from draw_events import message_after
from model import SECOND, World
from rm_cells import cell, code_above, code_below, units
from scenario_text import Connection, Scenario

CAPACITIES = (512_000, 409_600, 307_200, 819_200, 512_001, 511_999)
CODES = (0x5120, 0x5258, 0x53E8, 0x4F20, 0x0000)


def draw_net(chosen, ports=3, conns=4):
    """Some ports and connections without events."""
    ports, conns = chosen.randint(1, ports), chosen.randint(1, conns)
    capacities = tuple(chosen.choice(CAPACITIES) for _ in range(ports))
    tau = chosen.choice([0, 200, 200])
    lines = []
    for place in range(conns):
        path = tuple(chosen.sample(range(ports), chosen.randint(1, ports)))
        lines.append(Connection(1, 100 + place, path, chosen.choice([0, 1000]), tau))
    return Scenario(capacities, tuple(lines), ())


def world_of(scenario):
    conns = [{"vc": (it.vpi, it.vci), "path": list(it.path), "delay": it.delay, "tau": it.tau, "script": []} for it in scenario.connections]
    return World(list(scenario.ports), conns)


def possible(scenario):
    """The scenario with those of its events alone that can happen, and their outcomes by the slow model."""
    world, events, outcomes = world_of(scenario), [], []
    for text in scenario.events:
        event = event_of(text)
        outcome = world.step(event) if event else "not-enabled"
        if not outcome.startswith("not-enabled"):
            events.append(text)
            outcomes.append(outcome)
    return Scenario(scenario.ports, scenario.connections, tuple(events)), outcomes


class Events:
    """Draws the events of a net one by one; the slow model says what each leaves."""

    def __init__(self, chosen, scenario):
        self.chosen, self.scenario, self.world = chosen, scenario, world_of(scenario)
        # How often messages are repeated or late, sources crash, and stores fail.
        self.late, self.crashes = chosen.choice([0.05, 0.2, 0.5]), chosen.choice([0, 0.3, 1.5])
        self.fails, self.caps = chosen.choice([0, 0, 0.2]), chosen.choice([0, 0.2, 1])
        # What is to be drawn next, the next one last.
        self.planned = []

    def draw(self):
        """An event that can happen, which then has, and its outcome."""
        while True:
            text = self.event()
            event = event_of(text) if text else None
            if event is None:
                continue
            outcome = self.world.step(event)
            if not outcome.startswith("not-enabled"):
                return text, outcome

    def event(self):
        if self.planned:
            return self.planned.pop()()
        conn = self.chosen.randrange(len(self.world.courses))
        course = self.world.courses[conn]
        asking = course.asking()
        if course.rate() and not course.of("emitted")[course.fence() :] and self.chosen.random() < 0.2:
            return self.burst(conn, course)
        cells = 3 if course.rate() else 0.3
        kinds = {self.message: 8 if course.of("asked") else 0, self.capacity: self.caps, self.arrive: 4 if course.of("emitted") else 0}
        if asking is None:
            kinds[self.start] = 6
        else:
            kinds |= {self.ask: 5 if asking == 0 else 1.5, self.again: 1 if asking else 0, self.emit: cells, self.crash: self.crashes}
        return self.chosen.choices(list(kinds), list(kinds.values()))[0](conn, course)

    def burst(self, conn, course):
        """Cells that leave as soon as they may and arrive late and early by turns, the last one a picosecond too soon; maybe a
        restart."""
        late, early = ((lambda late=late: self.cell(conn, course, late)) for late in (True, False))
        leave = lambda: f"emit {conn} {course.next_cell()}"  # noqa: E731
        self.planned = [early, leave, late, leave, early, leave, late]
        if self.chosen.random() < 0.4:
            self.planned[:0] = [lambda: f"start {conn} {course.clock()}", lambda: f"crash {conn}"]
        else:
            self.planned[:0] = [lambda: f"emit {conn} {course.next_cell() - 1}"]
        return leave()

    def cell(self, conn, course, late):
        """The oldest cell on the line, as late or as early as it may come."""
        waiting = [fact[1:3] for fact in course.of("emitted") if fact[1] >= course.fence()]
        if not waiting:
            return None
        first = waiting[0][1] + course.delay
        last = max([fact[2] for fact in course.of("arrived")], default=0)
        return f"arrive {conn} {waiting[0][0]} {first + course.tau if late else max(first, last)}"

    def start(self, conn, course):
        return f"start {conn} {course.clock() + self.chosen.choice([0, 0, 1, SECOND, SECOND + 1])}"

    def ask(self, conn, course):
        """A rate that just fits at a hop, the next one above, or one of a few."""
        hop = self.chosen.randint(1, len(course.path))
        port = course.path[hop - 1]
        fits = code_below(self.world.capacity(port) - self.world.total(port) + course.held(hop))
        code = self.chosen.choice([fits, fits, code_above(fits), code_below(course.rate()), *CODES])
        plan = self.chosen.choice([" before", " after"]) if self.chosen.random() < self.fails else ""
        return f"ask {conn} {code:04x}{plan}"

    def again(self, conn, course):
        return f"again {conn}"

    def crash(self, conn, course):
        return f"crash {conn}"

    def emit(self, conn, course):
        first = course.next_cell()
        return f"emit {conn} {max(0, self.chosen.choice([first, first, first, first - 1, first + 1, course.clock()]))}"

    def arrive(self, conn, course):
        return self.cell(conn, course, self.chosen.random() < 0.4)

    def message(self, conn, course):
        """A message that was sent: mostly the newest, or else any once more."""
        sent = [text for fact in course.facts if (text := message_after(conn, course, fact))]
        if not sent:
            return None
        return self.chosen.choice(sent) if self.chosen.random() < self.late else sent[-1]

    def capacity(self, conn, course):
        """A capacity of a port at, just below or just above what it holds, or the net's."""
        port = self.chosen.randrange(len(self.world.ports))
        total, given = self.world.total(port), self.world.ports[port]
        return f"capacity {port} {self.chosen.choice([total, max(0, total - 1), total + 1, given, given])}"


class Cells:
    """Draws cells at a port, by what its answers to those before show."""

    CHANNELS = ((1, 100), (1, 101), (4095, 65535))
    # What else a request may have and is read all the same: a loss priority, and bits that are the network's or reserved.
    READ = ({"low": 6 << 1 | 1}, {"flipped": 0x40}, {"flipped": 0x20}, {"flipped": 0x03})
    # With what it is no message: no RM cell, another protocol, for maintenance, elastic, or going the wrong way.
    UNREAD = ({"low": 4 << 1}, {"protocol": 1}, {"flipped": 0x10}, {"flipped": 0x04}, {"flipped": 0x80})

    def __init__(self, chosen, capacity):
        self.chosen, self.capacity = chosen, capacity
        # By channel: the newest number with its floor and its asked rate, and what the port holds.
        self.newest, self.held, self.past = {}, dict.fromkeys(self.CHANNELS, 0), []

    def draw(self):
        vc = self.chosen.choice(self.CHANNELS)
        draws = {self.new: 5, self.repeat: 2, self.answer: 3, self.old: 1, self.other: 1, self.odd: 0.5, self.damaged: 0.3}
        self.last = self.chosen.choices(list(draws), list(draws.values()))[0](vc)
        return self.last[0]

    def terms(self, vc, number):
        free = self.capacity - sum(self.held.values()) + self.held[vc]
        fits = code_below(max(0, free))
        ask = self.chosen.choice([fits, fits, code_above(fits), code_below(self.held[vc]), *CODES])
        held = code_below(self.held[vc])
        floor = self.chosen.choice([0, held, held, code_above(held), ask])
        return "request", vc, number, min(floor, ask), ask

    def made(self, kind, vc, number, floor, ask):
        return cell(vc, kind, number, self.spelt(floor), self.spelt(ask)), (kind, vc, number, floor, ask)

    def spelt(self, code):
        """A code of the same rate: mostly the canonical one, or one with a bit that nothing reads, of the rate 0 any without its third."""
        if self.chosen.random() < 0.95:
            return code
        return code | 0x8000 if code else self.chosen.choice([0x8000, 0x1000, 0x3FFF])

    def new(self, vc):
        """A request with a number that is greater by one, or by more."""
        number = self.newest.get(vc, (0,))[0] + self.chosen.choice([1, 1, 1, 2])
        return self.made(*self.terms(vc, number))

    def repeat(self, vc):
        """The newest request once more."""
        return self.made("request", vc, *self.newest[vc]) if vc in self.newest else self.new(vc)

    def answer(self, vc):
        """A yes or a no to the newest request."""
        return self.made(self.chosen.choice(["yes", "no"]), vc, *self.newest[vc]) if vc in self.newest else self.new(vc)

    def old(self, vc):
        """Any message that came before, also one of an older number."""
        return self.chosen.choice(self.past) if self.past else self.new(vc)

    def other(self, vc):
        """A message with the newest number or the next one, that isn't of the request which was decided under it."""
        number = self.newest.get(vc, (1,))[0] + self.chosen.choice([0, 0, 1])
        _, *rest = self.terms(vc, number)
        return self.made(self.chosen.choice(["request", "yes", "no"]), *rest)

    def odd(self, vc):
        """The next request with something else in a field, a number 0 or a floor above its rate, under a right check."""
        number = self.newest.get(vc, (0,))[0] + 1
        kind, vc, number, floor, ask = self.terms(vc, number)
        least = min(ask, 0x7FFE)
        which = self.chosen.randrange(4)
        if which == 0:
            return cell(vc, kind, number, floor, ask, **self.chosen.choice(self.READ)), (kind, vc, number, floor, ask)
        if which == 1:
            return cell(vc, kind, 0, floor, ask), None
        if which == 2:
            return cell(vc, kind, number, code_above(least), least), None
        return cell(vc, kind, number, floor, ask, **self.chosen.choice(self.UNREAD)), None

    def damaged(self, vc):
        """A cell of which one bit was changed on the way."""
        text, _ = self.new(vc)
        octets = bytearray.fromhex(text)
        octets[self.chosen.randrange(4, len(octets))] ^= 1 << self.chosen.randrange(8)
        return octets.hex(), None

    def heard(self, answer):
        """Takes the port's answer to the cell that was drawn last."""
        verb, terms = answer.split(" ")[1], self.last[1]
        if terms is None:
            return
        self.past.append(self.last)
        kind, vc, number, floor, ask = terms
        newest = self.newest.get(vc, (0,))[0]
        if kind == "request" and number > newest and verb in ("pass", "refuse"):
            self.newest[vc] = number, floor, ask
            self.held[vc] = units(ask if verb == "pass" else floor)
        elif kind == "no" and number == newest and verb == "pass":
            self.held[vc] = units(floor)
