"""Random events of a net, most of which can happen: they are drawn from what the slow model says was sent and is on the line."""
from draw_net import GREATEST_START, SECOND
from reading import event as event_of

GREATEST_EMISSION = 2**61
GREATEST_CAPACITY = 2**60
ODD_CONNECTIONS = (65535,)
ODD_HOPS = (0, 1, 2, 16, 17, 65535)
ODD_NUMBERS = (0, 1, 2, 2**32 - 1)
ODD_MOMENTS = (0, 1, GREATEST_START, GREATEST_START + 1, GREATEST_EMISSION, GREATEST_EMISSION + 1, 2**62, 2**62 + 1, 2**63, 10**19 - 1)
ODD_CAPACITIES = (0, GREATEST_CAPACITY, GREATEST_CAPACITY + 1, 10**19 - 1)
PLANS = ("", " before", " after")


def message_after(conn, course, fact):
    """The event by which what a fact sent is delivered, or None."""
    last = len(course.path)
    match fact:
        case "asked", seq, *_:
            return f"request {conn} 1 {seq}"
        case "passed", seq, hop:
            return f"request {conn} {hop + 1} {seq}" if hop < last else f"turn {conn} {seq}"
        case "turned", seq:
            return f"yes {conn} {last} {seq}"
        case "back", seq, hop:
            return f"yes {conn} {hop - 1} {seq}" if hop > 1 else f"told-yes {conn} {seq}"
        case "shut", seq, hop:
            return f"no {conn} {hop - 1} {seq}" if hop > 1 else f"told-no {conn} {seq}"
    return None


class Drawing:
    """Draws the events of one net, one by one, and lets the model's world go through them."""

    def __init__(self, chosen, net, world):
        self.chosen, self.net, self.world = chosen, net, world
        # How lists differ: whether messages come soon and again, how many stores fail, how often sources crash, how much is nonsense.
        self.is_soon = chosen.choice([0.5, 0.7, 0.9, 0.98])
        self.repeats = chosen.choice([0, 0.05, 0.3])
        self.store_fails = chosen.choice([0, 0.05, 0.5])
        self.crashes = chosen.choice([0, 1, 5])
        self.nonsense = chosen.choice([0, 0.02, 0.1, 0.3])
        self.emits = chosen.choice([0, 10, 40, 80])
        self.asks_anew = chosen.choice([1, 5, 20])
        self.caps = chosen.choice([0, 0, 0.01, 0.1])
        # In some lists a source that has sent a cell goes on asking, so that strides end and keep a short spacing.
        self.asks_on = chosen.choice([0, 0, 2000])
        most = len(net.connections)
        self.active = chosen.sample(range(most), min(most, chosen.choice([1, 4, 16, 64])))

    def events(self, count):
        texts = []
        for _ in range(count):
            text = self.event()
            self.world.step(event_of(text))
            texts.append(text)
        return tuple(texts)

    def event(self):
        if self.chosen.random() < self.nonsense:
            return self.odd_event()
        if self.net.ports and self.chosen.random() < self.caps:
            return self.capacity()
        conn = self.chosen.choice(self.active)
        course = self.world.courses[conn]
        draws = self.draws(course)
        drawn = self.chosen.choices(list(draws), weights=list(draws.values()))[0](conn, course)
        return drawn or next(iter(draws))(conn, course)

    def draws(self, course):
        """What may happen to a connection now, with the weight of each; the first can always be drawn. A new kind of event stands
        here."""
        asking = course.asking()
        cells = {self.emit: self.emits if course.rate() else 1, self.arrive: self.emits if course.of("emitted")[course.fence() :] else 0}
        if asking is None:
            return {self.start: 20, self.message: 5, self.emit: 1, self.ask: 1, self.arrive: cells[self.arrive] / 4}
        more = self.asks_on if course.gap() < SECOND else 0
        if asking == 0:
            return {self.ask: 15 + more, self.message: 5, self.crash: self.crashes, self.again: 1, **cells}
        return {self.ask: self.asks_anew + more, self.message: 100, self.again: 5, self.crash: self.crashes, **cells}

    def capacity(self):
        """A capacity of a port at, just below or just above what is held there, or the one that the net gives it."""
        port = self.chosen.randrange(len(self.net.ports))
        total = self.world.total(port)
        units = self.chosen.choice([total, max(0, total - 1), total + 1, self.net.ports[port], self.net.ports[port], GREATEST_CAPACITY])
        return f"capacity {port} {self.spelled(units)}"

    def start(self, conn, course):
        later = self.chosen.choice([0, 0, 1, self.chosen.randrange(3 * SECOND)])
        now = max(course.clock(), self.net.beginning) + later
        if self.chosen.random() < 0.05:
            now = max(0, course.clock() - 1)
        return f"start {conn} {self.spelled(now)}"

    def ask(self, conn, course):
        code = self.chosen.choice(self.net.codes) if self.chosen.random() < 0.95 else self.chosen.randrange(2**16)
        plan = self.chosen.choice(PLANS) if self.chosen.random() < self.store_fails else ""
        return f"ask {conn} {self.chosen.choice([f'{code:04x}', f'{code:04X}'])}{plan}"

    def again(self, conn, course):
        return f"again {conn}"

    def crash(self, conn, course):
        return f"crash {conn}"

    def message(self, conn, course):
        """A message that was sent: mostly one of the last, which then goes on its way, or else any once more."""
        if course.facts and self.chosen.random() < self.repeats:
            return message_after(conn, course, self.chosen.choice(course.facts))
        for fact in reversed(course.facts):
            text = message_after(conn, course, fact)
            if text and self.chosen.random() < self.is_soon:
                return text
        return None

    def emit(self, conn, course):
        first = course.next_cell()
        match self.chosen.randrange(12):
            case 0:
                now = first - 1
            case 1:
                now = course.clock() - self.chosen.randrange(2)
            case 2 | 3:
                now = first + self.chosen.randrange(2 * SECOND)
            case 4:
                now = first + self.chosen.randrange(1000)
            case _:
                now = first
        return f"emit {conn} {self.spelled(max(0, now))}"

    def arrive(self, conn, course):
        """A cell on the line comes: mostly the oldest, after which those before it are lost."""
        fence, emitted = course.fence(), course.of("emitted")
        left = emitted[fence:] if self.chosen.random() < 0.95 else emitted
        if not left:
            return None
        _, cell, now, _ = left[0] if self.chosen.random() < 0.8 else self.chosen.choice(left)
        earliest, latest = now + course.delay, now + course.delay + course.tau
        least = max([earliest, *(fact[2] for fact in course.of("arrived"))])
        at = self.chosen.choice([least, least, latest, self.chosen.randint(least, max(least, latest))])
        if self.chosen.random() < 0.1:
            at = max(0, self.chosen.choice([earliest - 1, least - 1, least - 1, latest + 1]))
        return f"arrive {conn} {cell} {self.spelled(at)}"

    def odd_event(self):
        """An event of any kind with numbers of any kind, which can hardly happen."""
        pick = self.chosen.choice
        conn = pick([*range(min(8, len(self.world.courses))), *self.active, len(self.world.courses), *ODD_CONNECTIONS])
        hop, seq, moment = pick(ODD_HOPS), pick(ODD_NUMBERS), pick(ODD_MOMENTS)
        return pick([
            f"start {conn} {moment}",
            f"ask {conn} {self.chosen.randrange(2**16):04x}{pick(PLANS)}",
            f"again {conn}",
            f"crash {conn}" if self.chosen.random() < 0.1 else f"again {conn}",
            f"emit {conn} {moment}",
            f"arrive {conn} {pick([*ODD_NUMBERS, 10**19 - 1])} {moment}",
            f"request {conn} {hop} {seq}",
            f"turn {conn} {seq}",
            f"{pick(['yes', 'no'])} {conn} {hop} {seq}",
            f"{pick(['told-yes', 'told-no'])} {conn} {seq}",
            f"capacity {pick([*range(min(8, len(self.net.ports))), len(self.net.ports), 65535])} {pick(ODD_CAPACITIES)}",
        ])

    def spelled(self, moment):
        """A number as it stands in an event: zeros in front are allowed up to 19 digits."""
        return f"{moment:019}" if self.chosen.random() < 0.02 else str(moment)
