"""Audits logs as devices write them: the journals of the samples, as the slow model writes them and as `abt threads` does, without what a device
can't know. Each subset of that is left out, and all are woven; so they are if the last line is cut. The journals of plays, over a grid of
losses, repeats and delays, are woven whole, without each kind of it, and without all.

Of journals without any of it, and with one entry changed, missing, there twice or elsewhere, those are woven of which a slow search finds events
once they are completed (`completing.py`); where entries are in no order, the lines that are told are just those at which it ends, each with
what it waits for (`waits.py`). The adapters of docs/JOURNALS.md make its run of the logs of lines there. Of each kind of entry that waits
a log was worked out by hand (`tests/cases/stuck.toml`).

usage: loose_audits.py PROGRAM..
"""
import itertools
import random

from harness import main, run as run_text, sample_runs, samples, scenario, section, worked
from audits import WHOLE, Auditor, text_of, worked_run
from completing import KINDS, dumps, stripped
from damage import damaged
from journals import entries, journals, texts_of
from waits import Waits

SUBSETS = [kinds for count in range(1, len(KINDS) + 1) for kinds in itertools.combinations(KINDS, count)]
# The search takes a store that isn't told for one that works.
SEARCHED = [kind for kind in KINDS if kind != "store"]
# Of a log with more lines only some subsets are tried.
LONG = 200
# The chances of plays, each with each: how many of a hundred messages are lost and come twice, and how many may overtake one.
LOSSES, REPEATS, DELAYS = (0, 15, 50), (0, 40, 100), (0, 2, 100)
# What is left out of the journals of plays.
LEFT_OUT = [(), *((kind,) for kind in KINDS), ("sent", "arrived"), KINDS]
# A source whose cells can come in many ways, as some are lost and each may come later than others leave; its store fails twice.
CROWDED = [
    "start 0", "ask 53e9 before", "ask 53e8", "listen 50", "emit 1000000000000 lost", "emit 1001000000000 2000000000",
    "emit 1002000000000 lost", "emit 1003000000000 3000000000", "again", "ask 5258", "listen 50", "emit 1005000000000 lost",
    "emit 1007000000000 0", "crash", "start 1008000000000", "ask 53e8 after", "crash", "start 1008000000000", "ask 5120", "again", "listen 50",
    "emit 2010500000000 1",
]


def try_subsets(auditor, name, lines):
    for kinds in SUBSETS if len(lines) <= LONG else random.Random(name).sample(SUBSETS, 6):
        auditor.wants(f"{name} without {' '.join(kinds)}", WHOLE, auditor.audit(text_of(stripped(lines, kinds))))


def try_cut(auditor, name, lines):
    """The last line is cut somewhere: it is left out, and told."""
    loose = stripped(lines, KINDS)
    cut = random.Random(name).randrange(1, len(loose[-1]) + 1)
    text = text_of(loose[:-1]) + loose[-1][:cut].encode()
    status, out, told = auditor.audit(text)
    note = f"note: text 1 ends in the middle of line {len(loose)}\n"
    if not (out if status == 0 else told).endswith(note):
        auditor.fail(f"{name}, cut: {(status, out, told)} has no {note}")
    whole = auditor.audit(text_of(loose[:-1]))
    auditor.wants(f"{name}, cut", whole, (status, out.removesuffix(note), told.removesuffix(note)))


def try_damaged(auditor, name, lines):
    for what, left in damaged(lines, random.Random(f"{name} loose"), 2):
        auditor.damaged += 1
        loose = stripped(left, SEARCHED)
        waits = Waits(loose)
        stuck = waits.lines()
        status, out, told = auditor.audit(text_of(loose))
        fault, *found = told.splitlines() or [""]
        spots = [int(one.split(":")[1]) for one in found if one.startswith("0:")]
        if not stuck:
            right = (status, out, told) == WHOLE
        elif fault == "fault: Mismatch":
            right = (status, out) == (1, "") and len(spots) == 1 and spots[0] in stuck
        else:
            right = (status, out, fault) == (1, "", "fault: NoOrder") and waits.are(found)
            auditor.waits += len(stuck)
        if not right:
            auditor.fail(f"{name}, {what}: {(status, out, told)}, and the slow search ends at the lines {stuck}")


def stuck_pieces():
    """The pieces of the logs of tests/cases/stuck.toml: a net, and how far a source comes in it."""
    ends = {"delay": 1000, "tau": 200}, {"delay": 3000, "tau": 400}
    conns = [{"vpi": 1, "vci": 100 + number, "path": path, **ends[number]} for number, path in enumerate(([0, 1], [1]))]
    first, second = ({"vpi": 1, "vci": 100 + number, "seq": 1, "floor": "0000", "ask": "5120"} for number in (0, 1))

    def asks(source, cell):
        yield {"source": source, "did": {"start": 0}, "outcome": "started"}
        yield {"source": source, "did": {"ask": "5120"}, "outcome": {"asked": cell}}

    def serves(port, **came):
        return {"port": port, "input": came, "reply": "passed"}

    hears = {"source": 1, "did": {"told": 1, "granted": True}, "outcome": {"told": "Raised"}}
    pieces = {
        "net": [{"net": {"ports": [512000, 512000], "connections": conns}}],
        "up": asks(0, first),
        "served": [serves(0, request=first)],
        "raised": [*asks(1, second), serves(1, request=second), serves(1, answer={**second, "granted": True}), hears],
    }
    return {name: text_of(map(dumps, lines)).decode() for name, lines in pieces.items()}


def try_adapters(auditor, run):
    """The logs of lines of docs/JOURNALS.md, as the adapters there turn them into journals."""
    shown = r"^### Logs of lines$" + r".*?^```$\n(.*?)^```$" * 4
    switch, source, *adapters = worked("JOURNALS.md", shown)[0]
    made = [run_text("sed", ["-E", "-n", adapter], log).output for adapter, log in zip(adapters, (switch, source))]
    wanted = {line for line in stripped(run, KINDS) if '"net"' not in line}
    if {line for text in made for line in text.splitlines()} != wanted:
        auditor.fail(f"the adapters make {made}, and not {wanted}")
    auditor.wants("logs of lines", WHOLE, auditor.audit(text_of(run[:1]), *(text.encode() for text in made)))


def threads_journals(auditor):
    """The journals of each sample for threads that can run, by its name."""
    out = auditor.folder / "journals"
    for sample in samples("threads_*"):
        if auditor.run("threads", sample, "--workers", 4, "--journals", out).status == 0:
            yield f"{sample.name} in threads", out.read_text().splitlines()


def played(auditor):
    """Plays of the samples with scripts, and of a crowded source, over all chances: the name of each, and its journals by the slow model."""
    crowded, out = auditor.folder / "crowded.toml", auditor.folder / "played.toml"
    crowded.write_text(scenario([512000], [], [section(100, tau=4_000_000_000, script=CROWDED), section(101, script=CROWDED[:4])]))
    scripted = [sample for sample in samples("threads_*") if "fault" not in sample.name]
    for sample in [*scripted, crowded]:
        for seed, (loss, repeat, delay) in enumerate(itertools.product(LOSSES, REPEATS, DELAYS)):
            words = "--seed", seed, "--loss", loss, "--repeat", repeat, "--delay", delay
            given = auditor.run("play", sample, *words, "--events", out)
            auditor.wants(f"a play of {sample.name}, {words}", (0, ""), (given.status, given.told))
            yield f"{sample.name} played, {words}", journals(out.read_bytes())


def try_plays(auditor):
    """How many plays there are. Of each kind that may be left out many have some."""
    plays = list(played(auditor))
    for name, lines in plays:
        for kinds in LEFT_OUT:
            auditor.wants(f"{name} without {' '.join(kinds) or 'nothing'}", WHOLE, auditor.audit(text_of(stripped(lines, kinds))))
    for kind in KINDS:
        lacking = sum(stripped(lines, [kind]) != lines for _, lines in plays)
        auditor.wants(f"plays with some {kind}", (True,), (lacking > len(plays) // 8,))
    return len(plays)


def look(auditor):
    every = [("docs/JOURNALS.md", worked_run()), *((name, texts_of(entries(*run))) for name, *run in sample_runs()), *threads_journals(auditor)]
    for name, lines in every:
        try_subsets(auditor, name, lines)
        if len(lines) > 2:
            try_cut(auditor, name, lines)
        try_damaged(auditor, name, lines)
    try_adapters(auditor, worked_run())
    plays = try_plays(auditor)
    by_hand = auditor.cases("stuck", **stuck_pieces())
    slow = f"{auditor.damaged} damaged ones beside a slow search, which has {auditor.waits} entries in no order"
    return f"{len(every)} runs and {plays} plays without what may be left out, {slow}, {by_hand} stuck logs worked out by hand"


if __name__ == "__main__":
    main(look, Auditor)
