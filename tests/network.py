"""Three sources and two ports as processes over pipes (`abt source`, `abt switch`), and a network between them that loses, repeats and
reorders what they say, and kills sources with -9 at drawn instants.

A source that is killed begins again over its store and its journal. The network keeps a source's access line in order and in time, and lets
a switch live. Its choices are drawn from a seed, but when a kill comes while a command is served depends on the machine.
"""
import json
import random
import subprocess
import time
from collections import Counter

# The access lines' delay and the tolerance of policers, in picoseconds.
DELAY, TAU = 1000, 2_000_000_000
PORTS = [512000, 512000]
CONNECTIONS = [
    {"vpi": 1, "vci": 100 + number, "path": path, "delay": DELAY, "tau": TAU} for number, path in enumerate([[0, 1], [0], [1]])
]
CODES = ["5120", "5258", "53e8", "5000", "4e00", "0000", "5258"]
# How much may be on an access line, or on its way elsewhere, before some of it is delivered at each step.
MOST = 3
# How likely a kill is at a step, and again while a command is served.
KILLS = 0.003
# How long a process that is killed while it serves a command gets at most, in seconds.
LIVES = 0.004


class Live:
    """A process that answers lines, and cells too if it is asked to: then messages are handed to it, and heard, as cells behind an octet."""

    def __init__(self, words, binary=False):
        words = [str(word) for word in words]
        self.binary, self.is_source = binary, words[1] == "source"
        self.process = subprocess.Popen([*words, *(["--binary"] if binary else [])], stdin=subprocess.PIPE, stdout=subprocess.PIPE, bufsize=0)

    def tell(self, line):
        words = line.split(" ")
        if self.binary and len(words) < 3 and len(words[-1]) == 104:
            self.process.stdin.write(bytes([255 if self.is_source else 128 + int(words[0])]) + bytes.fromhex(words[-1]))
        else:
            self.process.stdin.write(line.encode() + b"\n")

    def hear(self):
        """The words of the next answer, or none if the process ended before it was whole."""
        mark = self.process.stdout.read(1)
        if self.binary and mark >= b"\x80":
            return self.heard(mark[0])
        said = mark + self.process.stdout.readline() if mark not in (b"", b"\n") else mark
        return said.decode().split() if said.endswith(b"\n") else []

    def heard(self, mark):
        """The words of a line for the cell behind an octet."""
        cell = b""
        while len(cell) < 52 and (more := self.process.stdout.read(52 - len(cell))):
            cell += more
        if len(cell) < 52:
            return []
        conn = next(conn for conn, known in enumerate(CONNECTIONS) if known["vci"] == int.from_bytes(cell[:4]) >> 4 & 0xFFFF)
        if self.is_source:
            assert mark == 128 + CONNECTIONS[conn]["path"][0], mark
            return ["rm", cell.hex()]
        return (["tell", str(conn)] if mark == 255 else ["send", str(mark - 128)]) + [cell.hex()]

    def ask(self, line):
        self.tell(line)
        return self.hear()

    def kill(self):
        self.process.kill()
        self.process.wait()

    def end(self):
        self.process.stdin.close()
        return self.process.wait()


def lines_of(journal):
    """The lines of a journal that are whole."""
    return [json.loads(line) for line in journal.read_bytes().split(b"\n")[:-1]] if journal.exists() else []


class Source:
    """The source of a connection: its process, its store and its journal."""

    def __init__(self, run, conn):
        self.run, self.conn = run, conn
        self.store, self.journal = run.folder / f"store{conn}", run.folder / f"source{conn}.jsonl"
        self.begin("--new")
        self.live.ask("again")
        self.oldest = self.store.read_bytes()

    def begin(self, *more):
        words = ["source", self.run.net, self.conn, "--store", self.store, "--journal", self.journal, *more]
        self.live = Live([self.run.program, *words], self.run.binary)

    def kill(self):
        self.live.kill()
        if self.run.puts_back:
            self.store.write_bytes(self.oldest)
        self.begin()
        self.run.count["kills"] += 1


class Run:
    """Sources, ports and the network between them."""

    def __init__(self, program, folder, seed, puts_back=False, overtakes=False, binary=False):
        self.binary, self.program, self.folder, self.rng = binary, program, folder, random.Random(seed)
        self.puts_back, self.overtakes, self.count = puts_back, overtakes, Counter()
        folder.mkdir()
        self.net = folder / "net.toml"
        tables = (
            f"[[connection]]\nvpi = {it['vpi']}\nvci = {it['vci']}\npath = {it['path']}\ndelay = {it['delay']}\ntau = {it['tau']}\n"
            for it in CONNECTIONS
        )
        self.net.write_text(f"ports = {PORTS}\n{''.join(tables)}")
        self.ports = [folder / f"port{number}.jsonl" for number in range(len(PORTS))]
        self.switches = [
            Live([program, "switch", self.net, "--journal", journal, "--port", number], binary) for number, journal in enumerate(self.ports)
        ]
        self.sources = [Source(self, conn) for conn in range(len(CONNECTIONS))]
        # What is on each access line, in order, and what is on its way elsewhere.
        self.access, self.flying, self.last_at = [[] for _ in CONNECTIONS], [], [0] * len(CONNECTIONS)
        self.now = 0

    def take(self, conn, said):
        """What a source gave out goes onto its access line."""
        if said[:1] == ["rm"]:
            self.count["requests"] += 1
            place = 0 if self.overtakes else len(self.access[conn])
            self.access[conn].insert(place, ("rm", said[1]))
        elif said[:1] == ["cell"]:
            self.count["cells"] += 1
            cell, sent = int(said[1]), int(said[2])
            at = max(sent + DELAY + self.rng.randrange(TAU + 1), self.last_at[conn])
            if at <= sent + DELAY + TAU:
                self.last_at[conn] = at
                self.access[conn].append(("cell", cell, at))
        elif said[:1]:
            self.count[said[0]] += 1

    def command(self, conn, line):
        """Gives a source a command, while which it may be killed."""
        source = self.sources[conn]
        if self.rng.random() >= KILLS:
            return self.take(conn, source.live.ask(line))
        source.live.tell(line)
        time.sleep(self.rng.random() * LIVES)
        source.live.process.kill()
        self.take(conn, source.live.hear())
        self.count["cut short"] += 1
        source.kill()

    def switch(self, port, line):
        said = self.switches[port].ask(line)
        if said[0] == "send":
            self.flying.append(("port", int(said[1]), said[2]))
        elif said[0] == "tell":
            self.flying.append(("source", int(said[1]), said[2]))
        else:
            self.count[said[0]] += 1

    def deliver_access(self, conn):
        """The access line delivers in order, loses, or repeats a request later."""
        thing, first = self.access[conn].pop(0), CONNECTIONS[conn]["path"][0]
        lot = self.rng.random()
        if lot < 0.12:
            self.count["lost"] += 1
        elif thing[0] == "cell":
            self.switch(first, f"{first} data {thing[1]} {CONNECTIONS[conn]['vpi']} {CONNECTIONS[conn]['vci']} {thing[2]}")
        else:
            self.switch(first, f"{first} {thing[1]}")
            if lot < 0.3:
                self.access[conn].append(thing)
                self.count["repeated"] += 1

    def deliver(self):
        """What is elsewhere comes in any order, is lost, or comes again."""
        thing = self.flying.pop(self.rng.randrange(len(self.flying)))
        lot = self.rng.random()
        if lot < 0.1:
            self.count["lost"] += 1
            return
        if lot < 0.25:
            self.flying.append(thing)
            self.count["repeated"] += 1
        if thing[0] == "port":
            self.switch(thing[1], f"{thing[1]} {thing[2]}")
        else:
            self.command(thing[1], thing[2])

    def step(self):
        self.now += self.rng.randrange(30_000_000_000)
        conn, lot = self.rng.randrange(len(CONNECTIONS)), self.rng.random()
        if lot < 0.07:
            self.command(conn, f"start {self.now}")
        elif lot < 0.22:
            self.command(conn, f"ask {self.rng.choice(CODES)}")
        elif lot < 0.26:
            self.command(conn, "again")
        elif lot < 0.55:
            for _ in range(3):
                self.command(conn, f"emit {self.now}")
                self.now += self.rng.randrange(2_500_000_000)
        elif lot < 0.55 + KILLS:
            self.sources[conn].kill()
        elif lot < 0.8 and self.access[conn]:
            self.deliver_access(conn)
        elif self.flying:
            self.deliver()
        # No answer stays so long on its way that its source has always asked again.
        for conn, line in enumerate(self.access):
            if len(line) > MOST:
                self.deliver_access(conn)
        if len(self.flying) > MOST:
            self.deliver()

    def end(self):
        return [live.end() for live in [*(source.live for source in self.sources), *self.switches]]


def played(program, folder, seed, steps, **how):
    run = Run(program, folder, seed, **how)
    for _ in range(steps):
        run.step()
    return run, run.end()
