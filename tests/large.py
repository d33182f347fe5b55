"""Gives the program inputs that are large, and wants the whole answer: no clause says that a call doesn't tell want of memory though
there is enough, or begins to do so from some size on. The slow model says what is wanted, but for the reasons, of which the numbers are.

usage: large.py PROGRAM..
"""
from harness import Trial, main, scenario, section
from audits import WHOLE, text_of
from journals import entries, journals, texts_of
from model import run as model_run
from open_writes import CONNS, opened
from reading import rate

CHANGES, TEXTS, CONNECTIONS, FAILURES = 70_000, 70, 1_024, 20


def changes():
    """A scenario that sets one capacity many times."""
    return scenario([512000], [f"capacity 0 {units}" for units in range(CHANGES)])


def connections():
    """A scenario in which each connection of a full port is started, and asks for a cell each second."""
    events = [f"{word} {conn} {rest}" for conn in range(CONNECTIONS) for word, rest in (("start", "0"), ("ask", "4000"))]
    return scenario([1048576], events, [section(32 + conn) for conn in range(CONNECTIONS)])


def stores():
    """The journals of a source that asks over a store that fails, now behind writing and now before, and asks once more behind a crash;
    and the same that say that the store failed and no more."""
    asked, events = ("ask", 0, rate("5120")), []
    for number in range(FAILURES):
        began, again = 2 * number * 10**13, (2 * number + 1) * 10**13
        events += [("start", 0, began), (*asked, "before" if number % 2 else "after"), ("crash", 0)]
        events += [("start", 0, again), (*asked, "works"), ("crash", 0)]
    lines = entries([512_000], CONNS, events)
    return texts_of(lines), texts_of(opened(lines)[0])


class Giver(Trial):
    def lines(self, what, wanted, given):
        """An end without a fault, and so many lines."""
        status, out, told = given
        self.wants(what, (0, wanted, ""), (status, out.count("\n"), told))


def give_scenarios(giver):
    for name, text in (("changes", changes()), ("connections", connections())):
        (giver.folder / name).write_text(text)
        events = text.count('  "')
        status, report, _ = model_run(text.encode())
        giver.wants(f"a run of {name}", (status, report, ""), giver.run("run", name))
        # The first line, which counts the events, is of the report alone.
        ends = report.count("\n") - events - 1
        giver.lines(f"a run of {name} as JSON", events + ends, giver.run("run", name, "--json"))
        status, out, told = given = giver.run("explain", name)
        giver.lines(f"{name}, explained", events + ends, given)
        for number, line in enumerate(out.splitlines()[:events], 1):
            if not line.startswith(f"{number} line {number + 2} "):
                giver.fail(f"{name}, explained: event {number} is told as {line}")
                break
        giver.lines(f"{name}, explained as JSON", events + ends, giver.run("explain", name, "--json"))
        giver.wants(f"a check of {name}", (0, "faults: 0, warnings: 0\n", ""), giver.run("check", name))


def give_journals(giver):
    text = changes().encode()
    net, *lines, end = journals(text)
    (giver.folder / "whole").write_bytes(text_of([net, *lines, end]))
    giver.wants("many entries in one text", WHOLE, giver.run("audit", "whole", "--events", "again"))
    giver.wants("their events, run", model_run(text), giver.run("run", "again"))
    names = [f"part{number}" for number in range(TEXTS)]
    for number, name in enumerate(names):
        part = lines[number * len(lines) // TEXTS : (number + 1) * len(lines) // TEXTS]
        (giver.folder / name).write_bytes(text_of([*([] if number else [net]), *part, end]))
    giver.wants("many texts", WHOLE, giver.run("audit", *names))
    for name, lines in zip(("told", "untold"), stores()):
        (giver.folder / name).write_bytes(text_of(lines))
        giver.wants(f"many writes that failed, {name}", WHOLE, giver.run("audit", name, "--events", f"{name}.toml"))
    giver.wants("their events", (giver.folder / "told.toml").read_text(), (giver.folder / "untold.toml").read_text())


def look(giver):
    give_scenarios(giver)
    give_journals(giver)
    return f"{CHANGES:,} changes, {CONNECTIONS:,} connections, {FAILURES} writes that failed"


main(look, Giver)
