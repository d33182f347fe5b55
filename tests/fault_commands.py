"""The commands in which something fails: those of tests/cases/faults.toml, every sample of scenarios/, and the help of every command."""
import shlex
from dataclasses import dataclass

from harness import ROOT, case_file, samples, scenario, section

CELL = "0010064c02045258000000000000000000000001" + "6a" * 30 + "038c"
WOVEN = '{"net":{"ports":[1],"connections":[]}}\n{"port":0,"place":0,"input":{"capacity":2},"reply":"set"}\n{"end":true}\n'
# The most connections of a net or a port, and hops of a path, by docs/RULES.md, "Limits".
CONNECTIONS = 1024
HOPS = 16
# Stands in the words of a command for a folder of its own, in which it may write.
ROOM = "ROOM"


@dataclass(frozen=True)
class Command:
    """The words of a command, and what it is given on the standard input."""

    words: tuple
    text: bytes = b""

    def __str__(self):
        shown = " ".join(map(ascii_of, self.words)) or "no words"
        return (shown if len(shown) <= 60 else f"{shown[:57]}..") + (f" <{len(self.text)} octets" if self.text else "")

    def words_in(self, folder):
        """The words, where files that are written stand in this folder."""
        return [word.replace(ROOM, str(folder)) for word in self.words]

    def shows_help(self):
        return "--help" in self.words

    def has_threads(self):
        return "--workers" in self.words and not self.shows_help()

    def tells_threads(self):
        """Whether the events of a run in threads are told, which are others each time."""
        return self.has_threads() and "--explain" in self.words

    def draws_journals(self):
        return "--draw" in self.words

    def answers_lines(self):
        """Whether each line of the standard input is answered before the next one is read."""
        return "--stdin" in self.words or self.words[:1] in (("police",), ("shape",), ("step",)) and not self.shows_help()


def ascii_of(word):
    return word.encode("ascii", "backslashreplace").decode()


def greatest_net():
    """A scenario with as many connections as a net may have, whose paths are as long as they may be."""
    paths = [[(conn + hop) % (2 * HOPS) for hop in range(HOPS)] for conn in range(CONNECTIONS)]
    words = ("start {} 0", "ask {} 5120", "request {} 1 1", "request {} 2 1")
    events = [word.format(conn) for conn in range(CONNECTIONS) for word in words]
    return scenario([10**9] * 2 * HOPS, events, [section(conn, path, script=["start 0"]) for conn, path in enumerate(paths)])


def commands(*kinds):
    """The commands of these lists of the case file."""
    full_port = [f"{(1 << 20) + (conn << 4) + 12:08x}{CELL[8:]}" for conn in range(CONNECTIONS + 1)]
    read = case_file(
        "faults", cell=CELL, woven=WOVEN, stuck=WOVEN.replace("set", "passed"), net=greatest_net(), cells=" ".join(full_port),
        second="0010065c02045120000000000000000000000002" + "6a" * 30 + "0214",
        no="0010065c02ac5258000000000000000000000001" + "6a" * 30 + "008b",
        moments="0\n800000000\nnone\n1500000000\n" + "7" * 5_000 + "\n5",
        events="start 0 0\n# none\nask 0 5120\nnone\nreset\nstart 0 0\n" + "7" * 5_000 + "\nrequest 0 1 1",
    )
    cases = [case for kind in kinds for case in read[kind]]
    return [Command(tuple(shlex.split(it["words"])), it.get("input", "").encode(errors="surrogateescape")) for it in cases]


def of_samples():
    """Each sample from its file and from the standard input, with the words that stand beside it; those that are run are explained
    too."""
    for sample in samples():
        beside = sample.with_name(f"{sample.name}.args")
        first, *more = beside.read_text().splitlines() if beside.is_file() else ["run"]
        yield Command((first, sample.name, *more))
        yield Command((first, *more), sample.read_bytes())
        if first == "run":
            yield Command(("explain", sample.name, *more))


def of_help():
    for file in sorted((ROOT / "man" / "help").glob("abt-*")):
        name = file.name.removeprefix("abt-")
        yield from (Command((name, "--help")), Command(("help", name)))


def all_commands():
    return [*commands("case", "more"), *of_help(), *of_samples()]
