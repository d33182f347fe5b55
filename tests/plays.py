"""Plays of scenarios: case files, and every sample with scripts over two hundred seeds, with losses, repeats and delays.

The same seed has to give the same octets, and seeds have to differ. The events of each play have to be right as those of a run in threads
(tests/woven.py), and what is told is what has to be told of them. The events of a source have to be those of its script, in its order.
They have to be those that a slow play draws with the same seed (tests/slow_play.py).
Where all is lost nothing comes; where nothing is lost each request is answered. Some plays are drawn: what is printed stays the same, and the
picture has to be that of the slow model's run of the play's events.

usage: plays.py PROGRAM..
"""
import re
import tomllib
from collections import Counter

from harness import End, main, samples
from picture import Page, Picture, Run
from reading import read as read_scenario
from slow_play import Play
from woven import telling_of

SEEDS = 200
# Each so many seeds a play is drawn.
DRAWN = 20
# How many connections a crowd has, and how many messages under way the program keeps beside one another.
CROWD, MOST_IN_ONE_BLOCK = 150, 256
# The chances that are tried, one after the other.
CHANCES = [(), ("--loss", 10), ("--repeat", 30), ("--delay", 0), ("--loss", 20, "--repeat", 50, "--delay", 2), ("--repeat", 100)]
OWN = ("start", "ask", "again", "crash", "emit")
# How many copies of a message there are at most.
COPIES = 8


def scripted():
    """The samples whose scripts can be played, with what they say."""
    for sample in samples("threads_*"):
        if "fault" not in sample.name:
            yield sample, tomllib.loads(sample.read_text())


def played(trial, sample, seed, *chances):
    """What a play tells, and the scenario of its events."""
    out = trial.folder / "out.toml"
    given = trial.run("play", sample, "--seed", seed, *chances, "--events", out)
    if given.status != 0 or given.told:
        trial.fail(f"{sample.name}, seed {seed}, {chances}: {given}")
        return "", b""
    return given.output, out.read_bytes()


def named(chances):
    return {name.removeprefix("--"): value for name, value in zip(chances[::2], chances[1::2])}


def is_in_order(few, many):
    """Whether some stand among others, in their order."""
    rest = iter(many)
    return all(it in rest for it in few)


def try_events(trial, sample, read, seed, chances):
    told, scenario = played(trial, sample, seed, *chances)
    what = f"{sample.name}, seed {seed}, {chances}"
    if not scenario:
        return None
    telling, events = telling_of(trial, what, trial.folder / "out.toml"), tomllib.loads(scenario.decode())["events"]
    trial.wants(f"what is told of {what}", (telling, False), (told[: len(telling)], "\nevent " in told[len(telling) :]))
    ports, conns, drawn, _ = read_scenario(scenario)
    _, scripted_conns, _, operations = read_scenario(sample.read_bytes())
    slow = Play(ports, scripted_conns, operations, seed, **named(chances))
    trial.wants(f"the events of {what}", slow.events, drawn)
    for conn, line in enumerate(read.get("connection", ())):
        words = [it.split(" ") for it in events]
        own = [[verb, *more[: 1 if verb == "emit" else 2]] for verb, place, *more in words if verb in OWN and place == str(conn)]
        script = [it.split(" ") for it in line.get("script", ()) if not it.startswith("listen")]
        script = [words[: 2 if words[0] == "emit" else 3] for words in script]
        trial.wants(f"the order of connection {conn} in {what}", (True,), (is_in_order(own, script),))
    sent = Counter(it for it in events if it.split(" ")[0] in ("request", "yes", "no"))
    repeats = sum(it.count("again") for it in map(str, read.get("connection", ())))
    trial.wants(f"the copies in {what}", (True,), (max(sent.values(), default=0) <= COPIES * (1 + repeats),))
    return told


def try_pictures(trial, sample, seed, chances):
    """A play that is drawn, as a picture, as a page and in part."""
    told, octets = played(trial, sample, seed, *chances)
    ports, conns, events, _ = read_scenario(octets)
    explained, run = trial.explained(trial.folder / "out.toml"), Run(ports, conns, events)

    def drawn(name, *words):
        given = trial.run("play", sample, "--seed", seed, *chances, "--draw", name, *words)
        trial.wants(f"what is printed of {sample.name}, seed {seed}, that is drawn", End(0, told), given)
        return (trial.folder / name).read_text()

    Page(drawn("drawn.html")).check(explained)
    parts = [((), 0, len(events), ())]
    if len(events) > 4:
        parts.append((("--from", 3, "--to", len(events) - 1, "--only", 0), 2, len(events) - 1, (0,)))
    for words, first, last, only in parts:
        picture = Picture(drawn("drawn.svg", *words), run, first, last, only)
        picture.check()
        trial.wants(f"the words of a picture of {sample.name}", explained, picture.words)


def crowd():
    """A scenario with more messages under way at once than there are in a sample: hundreds, of many connections."""
    script = '["start 0", "ask 5120", "again", "again", "again", "again", "listen 9"]'
    conns = (f"[[connection]]\nvpi = 1\nvci = {conn}\npath = [{conn % 2}]\ndelay = 0\ntau = 0\nscript = {script}\n" for conn in range(CROWD))
    return "ports = [1000000000, 1000000000]\n" + "".join(conns)


def try_crowd(trial):
    sample = trial.folder / "crowd.toml"
    sample.write_text(crowd())
    ports, conns, _, operations = read_scenario(sample.read_bytes())
    for seed, chances in enumerate([(), ("--repeat", 20, "--loss", 5), ("--delay", 300)]):
        _, scenario = played(trial, sample, seed, *chances)
        slow = Play(ports, conns, operations, seed, **named(chances))
        trial.wants(f"the events of a crowd, {chances}", slow.events, read_scenario(scenario)[2])
        trial.wants(f"the crowd, {chances}", (True,), (slow.most > MOST_IN_ONE_BLOCK,))


def try_sample(trial, sample, read):
    for seed in range(0, SEEDS, DRAWN):
        trial.checks(f"a picture of {sample.name}, seed {seed}", try_pictures, trial, sample, seed, CHANCES[seed // DRAWN % len(CHANCES)])
    tellings = {try_events(trial, sample, read, seed, CHANCES[seed % len(CHANCES)]) for seed in range(SEEDS)}
    again = [played(trial, sample, 7, "--loss", 20, "--repeat", 50) for _ in range(2)]
    trial.wants(f"one seed of {sample.name} twice", again[0], again[1])
    if len(read.get("connection", ())) > 1:
        trial.wants(f"the seeds of {sample.name}", (True,), (len(tellings) > SEEDS // 4,))
    _, scenario = played(trial, sample, 1, "--loss", 100)
    verbs = {it.split(" ")[0] for it in tomllib.loads(scenario.decode())["events"]}
    trial.wants(f"what comes of {sample.name} where all is lost", set(), verbs & {"request", "turn", "yes", "no", "told-yes", "told-no"})
    told, _ = played(trial, sample, 1)
    asked, answered = re.findall(r"^\d+ ask \d+ .*: asked", told, re.M), re.findall(r"^event \d+: connection ", told, re.M)
    trial.wants(f"who is answered in {sample.name} where nothing is lost", (True,), (bool(answered) == bool(asked),))


def look(trial):
    cases, count = trial.cases("plays"), 0
    for count, (sample, read) in enumerate(scripted(), 1):
        try_sample(trial, sample, read)
    trial.wants("the samples with scripts", (True,), (count >= 3,))
    try_crowd(trial)
    trial.wants("octets that are no text", End(1, "", "fault: NotUtf8\n"), trial.run("play", "--seed", 1, text=b"ports = [\xff]"))
    return f"{cases} cases, {count} samples over {SEEDS} seeds"


main(look)
