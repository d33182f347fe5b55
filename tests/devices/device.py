"""A port, a source and a net in Python, after docs/RULES.md alone: what `abt conform` is tried on. The variable FAULT plants one
fault."""
import os

SECOND, STRIDE, LAST_NUMBER = 10**12, 64, 2**32 - 1
LAST_EMISSION, GREATEST_CAPACITY = 2**61, 2**60
FAULT = os.environ.get("FAULT", "")
MARKS = {0x04: "request", 0x8C: "yes", 0xAC: "no"}


def spacing(units):
    return -(-512 * SECOND // units)


def units(code):
    return (512 + code % 512) << (code >> 9) % 32 if code >> 14 & 1 else 0


def code(rate):
    """The canonical code of so many units."""
    if rate == 0:
        return 0
    exponent = (rate // 512).bit_length() - 1
    return 0x4000 + exponent * 512 + (rate >> exponent) - 512


def remainder(bits):
    """What the generator of CRC-10 leaves of a payload with its check."""
    for place in reversed(range(10, 384)):
        if bits >> place & 1:
            bits ^= 0x633 << place - 10
    return bits


def read(text):
    """Channel, kind, number, floor and asked rate of a cell; or the name of the fault for which it is no message."""
    octets = bytes.fromhex(text)
    head, marks = int.from_bytes(octets[:4], "big"), octets[5]
    ask, floor = (units(int.from_bytes(octets[at : at + 2], "big")) for at in (6, 8))
    seq = int.from_bytes(octets[16:20], "big")
    faults = {
        "NotRm": head >> 1 & 7 != 6,
        "Crc": remainder(int.from_bytes(octets[4:], "big")) != 0,
        "Protocol": octets[4] != 2,
        "Maintenance": marks & 0x10 and FAULT != "maintenance_not_looked_at",
        "Elastic": not marks & 0x04,
        "Direction": marks >> 7 != marks >> 3 & 1,
        "SeqZero": seq == 0,
        "RateOrder": floor > ask,
    }
    for name, has in faults.items():
        if has:
            return name
    kind = "request" if not marks & 0x08 else "no" if marks & 0x20 else "yes"
    return (head >> 20, head >> 4 & 0xFFFF), kind, seq, floor, ask


def written(vc, kind, seq, floor, ask):
    head = (vc[0] << 20 | vc[1] << 4 | 12).to_bytes(4, "big")
    mark = next(mark for mark, name in MARKS.items() if name == kind)
    rates = code(ask).to_bytes(2, "big") + code(floor).to_bytes(2, "big")
    payload = bytes([2, mark]) + rates + bytes(6) + seq.to_bytes(4, "big") + b"\x6a" * 30 + bytes(2)
    bits = int.from_bytes(payload, "big")
    return (head + (bits | remainder(bits)).to_bytes(48, "big")).hex()


class Hold:
    """What a port keeps of one connection."""

    def __init__(self, tau=0):
        self.seq, self.terms, self.is_open, self.tau, self.tat, self.stuck = 0, (0, 0), False, tau, None, 0

    def held(self):
        return self.terms[1] if self.is_open else max(self.terms[0], self.stuck)


class Port:
    def __init__(self, capacity):
        self.capacity, self.holds = capacity, {}

    def total(self):
        return sum(hold.held() for hold in self.holds.values())

    def request(self, vc, seq, floor, ask, total=None):
        hold = self.holds.setdefault(vc, Hold())
        total = self.total() if total is None else total
        if seq < hold.seq and FAULT != "stale_accepted":
            return "drop Stale"
        if seq == hold.seq and FAULT != "repeat_decided_anew":
            if (floor, ask) != hold.terms:
                return "drop Conflict"
            return "pass" if hold.is_open else "refuse"
        if floor > hold.held() and FAULT != "floor_not_looked_at":
            return "drop FloorAbove"
        asked = total - hold.held() + ask
        fits = asked < self.capacity if FAULT == "less_for_at_most" else asked <= self.capacity
        hold.stuck = hold.held() if FAULT == "refusal_releases_nothing" else 0
        hold.seq, hold.terms, hold.is_open = seq, (floor, ask), fits
        return "pass" if fits else "refuse"

    def answer(self, vc, seq, floor, ask, granted):
        hold = self.holds.setdefault(vc, Hold())
        if seq < hold.seq:
            return "drop Stale"
        if seq > hold.seq or (floor, ask) != hold.terms or granted and not hold.is_open:
            return "drop Conflict"
        hold.is_open = hold.is_open and (granted or FAULT == "no_keeps_the_reservation")
        return "pass"

    def serve(self, text):
        """The answer to a cell, as `abt port` prints it."""
        cell = read(text)
        if isinstance(cell, str):
            return f"fault {cell}"
        vc, kind, seq, floor, ask = cell
        if kind == "request":
            reply = self.request(vc, seq, floor, ask)
        else:
            reply = self.answer(vc, seq, floor, ask, kind == "yes")
        match reply:
            case "pass":
                return f"pass {text if FAULT == 'codes_as_they_came' else written(*cell)}"
            case "refuse":
                return f"refuse {written(vc, 'no', seq, floor, ask)}"
        return reply

    def arrive(self, vc, at):
        hold = self.holds[vc]
        if hold.held() == 0:
            return "NoRate"
        tat = at if hold.tat is None else hold.tat
        if tat > at + hold.tau or FAULT == "window_off_by_one" and tat == at + hold.tau > at:
            return "TooEarly"
        hold.tat = max(at, tat) + spacing(hold.held())
        return "Conforming"

    def set_capacity(self, capacity):
        if capacity < self.total():
            return "refused BelowSum"
        if capacity > GREATEST_CAPACITY:
            return "refused AboveLimit"
        self.capacity = capacity
        return "set"


class Source:
    def __init__(self, vc=(1, 100)):
        self.vc, self.store, self.kept = vc, (0, SECOND), (0, SECOND)
        self.last = self.cells = self.ready = self.rate = self.gap = 0
        self.open, self.past = None, {}

    def start(self, now):
        if int(now) > LAST_EMISSION - SECOND:
            return "refused TimeRange"
        self.kept = self.store
        self.last, self.gap = (0 if FAULT == "numbers_forgotten" else self.store[0]), self.store[1]
        self.ready = int(now) + (0 if FAULT == "no_hold_off" else self.gap)
        self.rate, self.open = 0, None
        return "started"

    def need(self, ask):
        rates = [self.rate, self.open[2] if self.open else 0, ask]
        return max([self.gap] + [spacing(rate) for rate in rates if rate])

    def asked(self, rate, plan="works"):
        """The request of an ask, or why there is none."""
        ask, seq = units(int(rate, 16)), self.last + 1
        if seq > LAST_NUMBER:
            return "refused SeqExhausted"
        need = self.need(ask)
        if seq > self.kept[0] or need > self.kept[1]:
            record = min(seq + STRIDE - 1, LAST_NUMBER), need
            self.store = self.store if plan == "before" else record
            if plan != "works":
                return "refused Keep"
            self.kept = record
        floor = min(self.rate, ask)
        self.last, self.rate, self.open = seq, floor, (seq, floor, ask)
        self.past[seq] = floor, ask
        return self.open

    def ask(self, rate, plan="works"):
        found = self.asked(rate, plan)
        return found if isinstance(found, str) else f"asked {written(self.vc, 'request', *found)}"

    def again(self):
        return f"again {written(self.vc, 'request', *self.open)}"

    def crash(self):
        self.rate, self.open = 0, None
        return "crashed"

    def emit(self, now):
        now = int(now)
        if now > LAST_EMISSION:
            return "refused TimeRange"
        if self.rate == 0:
            return "refused Zero"
        if now < self.ready - (FAULT == "a_picosecond_early"):
            return f"refused TooSoon {self.ready}"
        self.gap = spacing(self.rate)
        self.cells, self.ready = self.cells + 1, now + self.gap
        return f"emitted {self.cells - 1} {self.ready}"

    def heard(self, seq, granted):
        if self.open is None or seq != self.open[0] and FAULT != "old_yes_accepted":
            return "told Ignored"
        _, floor, ask = self.open
        self.rate, self.open = (ask if granted else floor), None
        return "told Raised" if granted else "told Refused"

    def told(self, text):
        _, kind, seq, _, _ = read(text)
        return self.heard(seq, kind == "yes")


class Net:
    """A whole net: each event goes to its source or port."""

    WORDS = {"pass": "passed", "refuse": "refuses"}

    def __init__(self, scenario):
        self.ports = [Port(capacity) for capacity in scenario["ports"]]
        self.lines, self.sources = scenario.get("connection", []), []
        for line in self.lines:
            vc = line["vpi"], line["vci"]
            self.sources.append(Source(vc))
            for hop, port in enumerate(line["path"]):
                self.ports[port].holds[vc] = Hold(0 if hop else line["tau"])

    def step(self, verb, place, *words):
        if verb == "capacity":
            return self.ports[int(place)].set_capacity(int(words[0]))
        line, source = self.lines[int(place)], self.sources[int(place)]
        numbers = [int(word) for word in words] if verb != "ask" else []
        match verb:
            case "ask":
                found = source.asked(*words)
                return found if isinstance(found, str) else self.sent("asked", found)
            case "again":
                return self.sent("again", source.open)
            case "start" | "crash" | "emit":
                return getattr(source, verb)(*words)
            case "arrive":
                return f"arrived {self.ports[line['path'][0]].arrive(source.vc, numbers[1])}"
            case "turn":
                return "turned"
            case "told-yes" | "told-no":
                return source.heard(numbers[0], verb == "told-yes")
        port = self.ports[line["path"][numbers[0] - 1]]
        terms = source.vc, numbers[1], *source.past[numbers[1]]
        if verb != "request":
            reply = port.answer(*terms, verb == "yes")
        elif FAULT == "sum_of_another_port":
            reply = port.request(*terms, self.ports[line["path"][0]].total())
        else:
            reply = port.request(*terms)
        return self.WORDS.get(reply, reply.replace("drop ", "dropped "))

    @staticmethod
    def sent(verb, request):
        seq, floor, ask = request
        return f"{verb} {seq} {code(floor):04x} {code(ask):04x}"
