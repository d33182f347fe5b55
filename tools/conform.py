#!/usr/bin/env python3
"""Compares an implementation of the protocol with abt in lock step: the same events go to both, one by one, and each answer has to be the
same.

COMMAND is started anew for every hundred events or so, with a word or two behind its own, and answers each line by one line
(`--list-roles`). Events are drawn by the seed: only those that can happen, most of them at the edges of the rules. At the first
difference the events are made as few as will do and written to a file, both answers are told with the reasons, and the status is 1. A
COMMAND that ends, prints nothing, prints too much or never ends differs there too. If it can't be started, the status is 1. It is 2 if
these words can't be read.

The first line of a scenario that it writes is a mark. Only a file with this mark is replaced, or removed where nothing differs or nothing
was compared. Any other file that is there, each file of cells among them, and a file that is a word of COMMAND are refused with status 2.
"""
import argparse
import contextlib
import os
import re
import subprocess
import sys
import tempfile
import time
from dataclasses import replace
from pathlib import Path
from random import Random

ROOT = Path(__file__).resolve().parent.parent
sys.path.insert(0, str(ROOT / "scenarios" / "model"))
from edges import Cells, Events, draw_net, possible, world_of  # noqa: E402
from model import code  # noqa: E402
from own_file import OwnFile  # noqa: E402
from port_story import said, told_cells  # noqa: E402
from reading import event as event_of  # noqa: E402
from rm_cells import cell  # noqa: E402
from scenario_text import Connection, Scenario  # noqa: E402
from shown import Reader, shown_lines  # noqa: E402
from shrink import shrunk  # noqa: E402
from side import MORE, SIGNALS, Broken, Side, Unfit  # noqa: E402

# How many events a command answers before it is started anew.
LENGTH = 120
# How often a difference is tried to be made smaller.
MOST_TRIES = 400
# How long a command of abt may take.
SECONDS = 60
DIFFERS = 1
# The status once whoever read the output went away.
LEFT = 141
# What stands for a line at the end of the input, and what a program that says nothing there does.
END, ENDS = "the end of the input", "ends"
# For how many seconds at least an answer is awaited while events are made few; and for how many times as long as the slowest one took.
LEAST_WAIT, TIMES = 1, 20

# What a COMMAND of each role has to read and to answer.
ROLES = ROOT / "tools" / "roles.txt"


class Left(Exception):
    """Whoever read the output went away."""


def put(text):
    """Prints a text and the end of its line, or says how the output failed."""
    try:
        sys.stdout.buffer.write(f"{shown_lines(text)}\n".encode())
        sys.stdout.buffer.flush()
    except BrokenPipeError:
        raise Left from None
    except (OSError, AttributeError):
        raise Unfit("write") from None


def let_go():
    """What is left of the output goes nowhere."""
    if sys.stdout is not None:
        os.dup2(os.open(os.devnull, os.O_WRONLY), sys.stdout.fileno())


def tell_fault(why):
    """Tells a fault. What can't be told changes nothing."""
    with contextlib.suppress(OSError, AttributeError):
        sys.stderr.buffer.write(f"fault: {shown_lines(str(why))}\n".encode())
        sys.stderr.buffer.flush()


class Difference(Exception):
    """The first line at which both differ: what was sent, what each answered, and all that was sent so far. In place of an answer there may
    be how the program broke."""

    def __init__(self, sent, wanted, given, before):
        super().__init__(sent)
        self.sent, self.wanted, self.given, self.before = sent, wanted, given, before

    def kind(self):
        """By what a smaller difference is the same."""
        return self.given.kind() if isinstance(self.given, Broken) else "answer"


def fewer(items, kept, until):
    """As few of these items as will do: whole halves are left out first, at last single ones. `kept` gives the items with which all is
    kept, or None."""
    size = max(1, len(items) // 2)
    while size and time.monotonic() < until:
        at = len(items)
        while at > 0 and time.monotonic() < until:
            at = max(0, min(at, len(items)) - size)
            shorter = items[:at] + items[at + size :]
            found = kept(shorter) if shorter else None
            items = items if found is None else found
        size //= 2
    return items


class Tester:
    """What all roles have: the words, and a folder for files that are handed over."""

    def __init__(self, words, room):
        self.words, self.room = words, Path(room)
        self.limit, self.slowest, self.looks, self.slow_from = words.timeout, 0, True, None
        self.is_cut = False

    def tested(self, *more):
        return Side([*self.words.command, *map(str, more)], self.limit, self.words.fifos)

    def compare(self, other, asked, before):
        """Hands the last line on to the program, END at the end of its input. `asked` has each line with the answer that is wanted and how
        many events there were by then, `before` gives what so many events are."""
        line, wanted, count = asked[-1]
        given = self.given(other, line, wanted, count)
        self.slowest = max(self.slowest, other.slowest)
        if given != wanted:
            raise Difference(line, wanted, given, before(count))

    def given(self, other, line, wanted, count):
        """What the program answers, or how it breaks."""
        try:
            if line != END:
                return other.answer(line, wanted if self.looks else None, self.slow_from is not None and count >= self.slow_from)
            text = other.end(None if wanted == ENDS else wanted)
            return ENDS if wanted == ENDS else text
        except Broken as how:
            return how

    def same(self, found, before):
        """The first difference of a run over this that is of the same kind as the one that was found, or None. A second line may have come
        late, for the line before: so behind the last two lines one is awaited."""
        if isinstance(found.given, Broken) and found.given.how.startswith(MORE):
            self.slow_from = self.count(before) - 1
        try:
            self.again(before)
        except Difference as other:
            return other if other.kind() == found.kind() else None
        return None

    def hurry(self, found):
        """While events are made few: nothing is waited for much longer than an answer took so far."""
        self.limit = min(self.limit, max(LEAST_WAIT, TIMES * self.slowest))
        self.looks = isinstance(found.given, Broken)

    def read(self, text):
        """A text, and below it what its cells say."""
        cells = re.findall(r"\b[0-9a-f]{104}\b", text)
        lines = self.abt("cell", "--stdin", text="".join(f"{it}\n" for it in cells)).stdout.splitlines() if cells else []
        return "".join([text, *(f"\n        {said(line)}" for line in lines)])

    def both(self, found):
        """What each answered; of a program that broke how, and what it told."""
        given = found.given
        if isinstance(given, Broken):
            given = "".join([given.how, *(f"\n        {line}" for line in given.told.splitlines())])
        return f"  abt   {self.read(found.wanted)}\n  yours {self.read(given)}"

    def abt(self, *words, text=None):
        done = subprocess.run([self.words.abt, *map(str, words)], input=text, capture_output=True, text=True, timeout=SECONDS)
        if done.returncode not in (0, 1):
            raise Unfit(f"{self.words.abt} {words[0]} ended with status {done.returncode}: {done.stderr[-300:]}")
        return done


class Ports(Tester):
    """A port, and what it answers to cells."""

    def sequence(self, chosen, count):
        capacity = chosen.choice([512_000, 409_600, 307_200, 512_001, 511_999])
        cells, asked = Cells(chosen, capacity), []
        before = lambda so_many: (capacity, [it[0] for it in asked[:so_many]])  # noqa: E731
        with Side([self.words.abt, "port", str(capacity), "--stdin"], SECONDS) as oracle, self.tested(capacity) as other:
            for number in range(1, count + 1):
                line = cells.draw()
                asked.append((line, oracle.answer(line), number))
                self.compare(other, asked, before)
                cells.heard(asked[-1][1])
            asked.append((END, oracle.end(), count))
            self.compare(other, asked, before)

    def answers(self, capacity, cells):
        return self.abt("port", capacity, "--stdin", text="".join(f"{it}\n" for it in cells)).stdout.splitlines()

    def count(self, before):
        return len(before[1])

    def again(self, before):
        """Compares over these cells."""
        capacity, cells = before
        wanted, asked = self.answers(capacity, cells), []
        with self.tested(capacity) as other:
            for place, line in enumerate([*cells, END]):
                asked.append((line, wanted[place], min(place + 1, len(cells))))
                self.compare(other, asked, lambda so_many: (capacity, cells[:so_many]))

    def smallest(self, found):
        capacity, best = found.before[0], [found]
        self.hurry(found)

        def kept(cells):
            other = self.same(found, (capacity, cells))
            if other is None:
                return None
            best[0] = other
            return other.before[1]

        until = time.monotonic() + self.words.shrink
        fewer(found.before[1], kept, until)
        self.is_cut = time.monotonic() > until
        return best[0]

    def written(self, found, to):
        """Writes the events of a difference into a file. Gives how many these are, what runs them, and what each came to."""
        capacity, cells = found.before
        text = to.write("".join(f"{it}\n" for it in cells))
        read = self.abt("cell", "--stdin", text=text).stdout.splitlines()
        return len(cells), f"abt port {capacity} --stdin <{to.shown}", told_cells(capacity, read, self.answers(capacity, cells))


class Nets(Tester):
    """A net, and the outcomes of its events."""

    most = (3, 4)

    def net(self, chosen):
        return draw_net(chosen, *self.most)

    def hand_over(self, net):
        file = self.room / "net.toml"
        file.write_bytes(net.octets())
        return (file,)

    def line(self, text, outcome, world):
        """The line of an event for the implementation, and the answer that is wanted; None if it isn't told of it."""
        return text, outcome

    def sequence(self, chosen, count):
        net = self.net(chosen)
        drawn, sent, asked = Events(chosen, net), [], []
        before = lambda so_many: Scenario(net.ports, net.connections, tuple(sent[:so_many]))  # noqa: E731
        with self.oracle(net) as oracle, self.tested(*self.hand_over(net)) as other:
            for _ in range(count):
                text, outcome = drawn.draw()
                sent.append(text)
                if (answer := oracle.answer(text).split(" ", 1)[-1]) != outcome:
                    told = f"`{text}`: {answer}, and {outcome} by the model"
                    raise Unfit(f"abt and its slow model differ, which is a fault of theirs: {told}")
                if line := self.line(text, outcome, drawn.world):
                    asked.append((*line, len(sent)))
                    self.compare(other, asked, before)
            oracle.end()
            self.compare(other, [*asked, (END, ENDS, len(sent))], before)

    def oracle(self, net):
        file = self.room / "oracle.toml"
        file.write_bytes(net.octets())
        return Side([self.words.abt, "step", str(file)], SECONDS)

    def count(self, before):
        return len(before.events)

    def again(self, scenario):
        """Compares over a scenario, of whose events those are taken that can happen."""
        scenario, outcomes = possible(scenario)
        world, asked = world_of(scenario), []
        before = lambda so_many: replace(scenario, events=scenario.events[:so_many])  # noqa: E731
        with self.tested(*self.hand_over(scenario)) as other:
            for number, (text, outcome) in enumerate(zip(scenario.events, outcomes), 1):
                world.step(event_of(text))
                if line := self.line(text, outcome, world):
                    asked.append((*line, number))
                    self.compare(other, asked, before)
            self.compare(other, [*asked, (END, ENDS, len(scenario.events))], before)

    def smallest(self, found):
        until, best = time.monotonic() + self.words.shrink, [found]
        self.hurry(found)

        def differs(scenario):
            if time.monotonic() > until or not self.fits(scenario):
                return False
            other = self.same(found, scenario)
            if other is not None:
                best[0] = other
            return other is not None

        def kept(events):
            return best[0].before.events if differs(replace(found.before, events=events)) else None

        fewer(found.before.events, kept, until)
        shrunk(best[0].before, differs, MOST_TRIES)
        self.is_cut = time.monotonic() > until
        return best[0]

    def fits(self, scenario):
        return bool(scenario.ports and scenario.connections and all(it.path for it in scenario.connections))

    def written(self, found, to):
        text = to.write(found.before.octets().decode())
        told = self.abt("explain", text=text).stdout.splitlines()
        number = len(found.before.events)
        return number, f"abt explain {to.shown}", [it for it in told if it.split(" ")[0].isdecimal()]


class Sources(Nets):
    """A source; the tool draws what becomes of its messages."""

    most = (1, 1)

    def net(self, chosen):
        return Scenario((chosen.choice([512_000, 409_600, 819_200]),), (Connection(1, 100, (0,), 1000, 200),), ())

    def hand_over(self, net):
        return ()

    def fits(self, scenario):
        return super().fits(scenario) and len(scenario.connections) == 1

    def line(self, text, outcome, world):
        verb, _, *words = text.split(" ")
        if verb not in ("start", "ask", "again", "crash", "emit", "told-yes", "told-no"):
            return None
        if verb.startswith("told"):
            floor, ask, _ = world.courses[0].request(int(words[0]))
            return f"told {cell((1, 100), verb[5:], int(words[0]), int(code(floor), 16), int(code(ask), 16))}", outcome
        answer = outcome.split(" ")
        if answer[0] in ("asked", "again"):
            seq, floor, ask = answer[1:]
            outcome = f"{answer[0]} {cell((1, 100), 'request', int(seq), int(floor, 16), int(ask, 16))}"
        return " ".join([verb, *words]), outcome


def compare(tester, words):
    """Draws sequences until so many events were sent."""
    done = number = 0
    while done < words.events:
        count = min(LENGTH, words.events - done)
        tester.sequence(Random(f"{words.seed} {number}"), count)
        done, number = done + count, number + 1
    return done


def tell(tester, words, found):
    """Tells a difference, and the smallest that was found."""
    found = tester.same(found, found.before) or found
    put(tester.read(f"differs, seed {words.seed}: `{found.sent}`") + f"\n{tester.both(found)}")
    try:
        found = found if words.whole else tester.smallest(found)
    except Unfit as why:
        put(f"not made smaller: {why}")
    count, again, lines = tester.written(found, words.file)
    what = ("cell" if words.role == "port" else "event") + "s" * (count != 1)
    size = "all" if words.whole else f"smallest within {words.shrink:g} s" if tester.is_cut else "smallest"
    put(f"{size}: {words.file.shown}, {count} {what}; {again}")
    put("\n".join([*(f"  {line}" for line in lines), *[END] * (found.sent == END), tester.both(found)]))


def words_of():
    reader = Reader(prog="abt conform", description=__doc__, formatter_class=argparse.RawDescriptionHelpFormatter)
    reader.add_argument("--abt", default=str(ROOT / "abt"), help=argparse.SUPPRESS)
    reader.add_argument("--role", choices=["port", "source", "net"], help="what COMMAND is")
    reader.add_argument("--seed", type=int, default=1, metavar="N", help="what events are drawn by; without it, 1")
    reader.add_argument("--events", type=int, default=10_000, metavar="N", help="how many events; without it, 10000")
    reader.add_argument("--timeout", type=float, default=10, metavar="S", help="for how many seconds an answer is awaited; without it, 10")
    reader.add_argument("--shrink", type=float, default=60, metavar="S", help="for how many seconds events are made fewer; without it, 60")
    reader.add_argument("--to", metavar="FILE", help="the file for the smallest events; without it, conform.toml or conform.cells")
    reader.add_argument("--whole", action="store_true", help="leave the events as they were drawn, up to the difference")
    reader.add_argument("--fifos", action="store_true", help="join COMMAND by two FIFOs, whose names stand behind its words")
    reader.add_argument("--list-roles", action="store_true", help="print what COMMAND has to read and to answer")
    reader.add_argument("command", nargs="*", metavar="COMMAND", help="the implementation, behind `--`")
    words = reader.parse_args()
    if words.list_roles:
        return words
    if not words.role or not words.command:
        reader.error("name a --role, and behind -- a COMMAND (--list-roles says what it has to answer)")
    if words.events < 1 or not 0 < words.timeout <= 3600 or not 0 <= words.shrink <= 3600:
        reader.error("--events is at least 1, --timeout more than 0 and at most 3600 seconds, and --shrink at most 3600")
    is_scenario = words.role != "port"
    words.file = OwnFile(words.to or ("conform.toml" if is_scenario else "conform.cells"), is_scenario)
    if why := words.file.refusal(words.command):
        reader.error(why)
    return words


def main():
    words = words_of()
    if sys.stdout is None:
        raise Unfit("write")
    if words.list_roles:
        put(ROLES.read_text().rstrip("\n"))
        return 0

    # The script compiles the program first, if that wasn't done yet.
    made = subprocess.run([words.abt, "rate", "0000"], stdin=subprocess.DEVNULL, stdout=subprocess.DEVNULL)
    if made.returncode != 0:
        return made.returncode
    SIGNALS.take()
    with tempfile.TemporaryDirectory(prefix="conform-") as room:
        tester = {"port": Ports, "source": Sources, "net": Nets}[words.role](words, room)
        try:
            done = compare(tester, words)
        except Difference as found:
            tell(tester, words, found)
            return DIFFERS
        except Unfit:
            words.file.remove()
            raise
        words.file.remove()
        put(f"conforms: {done} events, seed {words.seed}")
        return 0


if __name__ == "__main__":
    try:
        sys.exit(main())
    except Left:
        let_go()
        sys.exit(LEFT)
    except Unfit as why:
        let_go()
        tell_fault(why)
        sys.exit(DIFFERS)
    finally:
        for left in list(Side.living):
            left.clear()
