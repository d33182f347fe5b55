"""A slow play of a scenario's scripts over the slow model, written from docs/SCENARIOS.md, "Plays", alone: which events a seed draws."""
import harness  # noqa: F401 (the model's folder)
from model import World
from reading import event as event_of

WORD, STATE = 2**32 - 1, 2**64 - 1
STEP = 6364136223846793005
REPEATS = 3


def turned_right(word, count):
    return (word >> count | word << (-count & 31)) & WORD


def output(state):
    """The word of a state of PCG32: XSH-RR."""
    return turned_right(((state >> 18 ^ state) >> 27) & WORD, state >> 59)


class Words:
    """The words of a seed: PCG32, whose state and increment are four words that another PCG32 draws of the seed."""

    def __init__(self, seed):
        words = []
        for _ in range(4):
            seed = (seed * STEP + 11634580027462260723) & STATE
            words.append(output(seed))
        start, self.increment = words[0] | words[1] << 32, words[2] | words[3] << 32 | 1
        self.state = self.next_state(start + self.increment)

    def next_state(self, state):
        return (state * STEP + self.increment) & STATE

    def __next__(self):
        word = output(self.state)
        self.state = self.next_state(self.state)
        return word


def back(conn, hop, seq, granted):
    return ("answer", conn, hop - 1, seq, granted) if hop > 1 else ("told", conn, seq, granted)


class Play:
    def __init__(self, ports, conns, operations, seed, loss=0, repeat=0, delay=2**32 - 1):
        self.world, self.conns, self.words = World(ports, conns), conns, Words(seed)
        self.loss, self.repeat, self.delay = loss, repeat, delay
        # Sources with commands left, each with how often it has listened.
        self.hands = [[conn, list(line["script"]), 0] for conn, line in enumerate(conns) if line["script"]]
        self.operations = [("capacity", *one) for one in operations]
        self.parcels, self.answers, self.arrivals, self.events = [], [], [0] * len(conns), []
        # How many messages were under way at most.
        self.most = 0
        while self.turn():
            self.most = max(self.most, len(self.parcels))

    def attempt(self, event):
        outcome = self.world.step(event)
        if outcome.startswith("not-enabled"):
            return None
        self.events.append(event)
        return outcome

    def turn(self):
        parcels = min(len(self.parcels), self.delay + 1)
        choices = len(self.hands) + parcels + bool(self.operations)
        if choices == 0:
            return False
        choice = next(self.words) % choices
        if choice < len(self.hands):
            self.act(self.hands[choice])
        elif choice < len(self.hands) + parcels:
            self.bring(*self.parcels.pop(choice - len(self.hands)))
        else:
            self.attempt(self.operations.pop(0))
        return True

    def act(self, hand):
        conn, script, looks = hand
        verb, *words = script[0].split(" ")
        if verb == "listen" and looks < int(words[0]) and self.world.courses[conn].asking() and self.can_hear(conn):
            hand[2] += 1
            self.hear(conn)
            return
        script.pop(0)
        hand[2] = 0
        if not script:
            self.hands.remove(hand)
        if verb == "emit":
            self.emit(conn, *words)
        elif verb != "listen":
            event = event_of(" ".join([verb, str(conn), *words]))
            self.follow(event, self.attempt(event), REPEATS)

    def can_hear(self, conn):
        return any(one[1] == conn for one in self.answers) or any(event[1] == conn for event, _ in self.parcels)

    def hear(self, conn):
        for place, told in enumerate(self.answers):
            if told[1] == conn:
                self.attempt(self.answers.pop(place))
                return

    def emit(self, conn, now, jitter):
        outcome = self.attempt(("emit", conn, int(now)))
        if outcome and outcome.startswith("emitted") and jitter != "lost":
            self.arrivals[conn] = max(int(now) + self.conns[conn]["delay"] + int(jitter), self.arrivals[conn])
            self.attempt(("arrive", conn, int(outcome.split(" ")[1]), self.arrivals[conn]))

    def bring(self, event, repeats):
        if event[0] == "told":
            self.answers.append(event)
        else:
            self.follow(event, self.attempt(event), repeats)

    def follow(self, event, outcome, repeats):
        """Sends what follows an event."""
        kind, conn, *rest = event
        hops = len(self.conns[conn]["path"])
        match kind, (outcome or "").split(" ")[0]:
            case ("ask", "asked") | ("again", "again"):
                self.send(("request", conn, 1, int(outcome.split(" ")[1])), repeats)
            case "request", "refuses":
                self.send(back(conn, *rest, False), repeats)
            case "request", "passed" if rest[0] < hops:
                self.send(("request", conn, rest[0] + 1, rest[1]), repeats)
            case "request", "passed":
                if self.attempt(("turn", conn, rest[1])):
                    self.send(("answer", conn, hops, rest[1], True), repeats)
            case "answer", "passed":
                self.send(back(conn, *rest), repeats)

    def send(self, event, repeats):
        first, second = next(self.words), next(self.words)
        if first % 100 < self.loss:
            return
        if second % 100 < self.repeat and repeats > 0:
            self.parcels += [(event, repeats - 1)] * 2
        else:
            self.parcels.append((event, repeats))
