"""Lets events happen to nets, a line each: case files, every sample, a pipe whose lines are written one by one, octets that are no text,
outputs that are closed, and many events.

Each sample is stepped with its events on lines, over its net alone, and with the first half of them in the file. The answers have to be
the lines that `abt run` has for these events, and a report that is asked for its last lines. With `--state`, `--possible` and `--json` they
have to say the same, in objects that are as docs/abt.schema.json says. What is told as possible behind each event of a short sample is tried: each event has to be enabled, and so has a cell
at both edges of its window, and at no moment beside them.

usage: steps.py PROGRAM..
"""
import json
import os
import subprocess
import tomllib

from harness import End, main, samples
from json_schema import Kinds

KEYS = ("vpi", "vci", "path", "delay", "tau")
MANY = 100_000
# What an object has of the state, and of what is possible.
STATE, POSSIBLE = ("rates", "held", "totals", "capacities"), ("messages", "cells")
# How many events a sample has at most for what is possible behind each to be tried.
SHORT = 30
KINDS = Kinds("step")


def texts_of(sample):
    """The text of a sample's net, and the texts of its events; None if it is no scenario, or has no events."""
    try:
        read = tomllib.loads(sample.read_text())
    except ValueError:
        return None
    if not all(isinstance(it, str) for it in read.get("events", ())) or "ports" not in read or not read.get("events"):
        return None
    lines = [f"ports = {read['ports']}\n"]
    for conn in read.get("connection", ()):
        lines += ["[[connection]]\n", *(f"{key} = {conn[key]}\n" for key in KEYS if key in conn)]
    return "".join(lines), read["events"]


def lines_of(events):
    return "".join(f"{event}\n" for event in events)


def answers_in(report, count, skipped=0):
    """The answers that a report has for its last events, and its last line."""
    lines = report.splitlines(keepends=True)
    return "".join([*lines[1 + skipped : 1 + count], lines[-1]])


def try_sample(trial, sample, net, events):
    """The events of a sample on lines, over its net alone and behind its first half."""
    wanted = trial.run("run", sample)
    file = trial.folder / "net.toml"
    if wanted.status != 0:
        file.write_text(f"events = {events}\n{net}")
        trial.wants(f"the fault of {sample.name}", wanted, trial.run("step", file, text=lines_of(events)))
        return
    half = len(events) // 2
    for first in (0, half, len(events)):
        file.write_text(f"events = {events[:first]}\n{net}")
        given = trial.run("step", file, text=lines_of(events[first:]))
        trial.wants(f"{sample.name} from event {first + 1}", End(0, answers_in(wanted.output, len(events), first)), given)
    given = trial.run("step", sample, text="? report\n")
    lines = wanted.output.splitlines(keepends=True)
    trial.wants(f"the report of {sample.name}", End(0, "".join(lines[1 + len(events) :]) + lines[-1]), given)
    given = trial.run("step", sample, text="# none\nreset\nreset\n")
    trial.wants(f"{sample.name} begun anew", End(0, "reset\nreset\nsafe\n"), given)


def said(members):
    """What an object says in words."""
    if members["kind"] == "event":
        beside = ("kind", "text", "words", "why", "lies_at", "comes_next", *STATE, *POSSIBLE)
        return " ".join(str(value) for key, value in members.items() if key not in beside and not key.endswith("_text"))
    return {"reset": "reset", "end": "safe", "fault": f"fault {members.get('fault')}"}[members["kind"]]


def objects_in(output):
    """The objects of an output, one a line, each of a kind of `abt step`."""
    objects = [json.loads(line) for line in output.splitlines()]
    KINDS.look("step", objects)
    return objects


def try_forms(trial, sample, net, events):
    """Answers with the state, or with what is possible, are those to lines that ask so behind each event; those as JSON say what those in
    words say."""
    file = trial.folder / "net.toml"
    file.write_text(net)
    lines = [*events, "none", "reset"]
    in_words = trial.run("step", file, text=lines_of(lines))
    if in_words.status:
        return
    for option, query in (("--state", "? state"), ("--possible", "? possible")):
        asked = [
            line if answer.startswith("fault ") else f"{line}\n{query}" for line, answer in zip(lines, in_words.output.splitlines())
        ]
        wanted = trial.run("step", file, text=lines_of(asked))
        trial.wants(f"{sample.name} {option}", wanted, trial.run("step", file, option, text=lines_of(lines)))
    for options in ((), ("--state",), ("--possible",), ("--state", "--possible")):
        given = trial.run("step", file, "--json", *options, text=lines_of(lines))
        objects = objects_in(given.output)
        trial.wants(f"{sample.name} --json {options}", in_words, given._replace(output=lines_of(map(said, objects))))
        for option, members in (("--state", STATE), ("--possible", POSSIBLE)):
            have = {it in each for each in objects if each["kind"] in ("event", "reset") for it in members}
            trial.wants(f"{sample.name} --json {options}, what {option} adds", {option in options}, have)
    queries = {"state": "? state", "report": "? report", "possible": "? possible"}
    given = trial.run("step", file, "--json", text=lines_of(queries.values()))
    trial.wants(f"{sample.name}, what is asked", [*queries, "end"], [each["kind"] for each in objects_in(given.output)])


def trials_of(told):
    """The events to try of a line of what is possible, each with whether it has to be enabled."""
    for part in told.split("; ")[1:]:
        first, _, last = part.partition(" to ")
        yield first, True
        if last:
            arrival, _, start = first.rpartition(" ")
            yield f"{arrival} {last}", True
            yield f"{arrival} {int(last) + 1}", False
            if int(start) > 0:
                yield f"{arrival} {int(start) - 1}", False


def try_possible(trial, sample, net, events):
    """What is possible behind each event of a short sample."""
    file = trial.folder / "net.toml"
    file.write_text(net)
    given = trial.run("step", file, text="".join(f"{event}\n? possible\n" for event in events))
    told = given.output.splitlines()[1::2]
    tried = [(events[: index + 1], *it) for index, line in enumerate(told) for it in trials_of(line)]
    given = trial.run("step", file, text="".join(f"reset\n{lines_of(before)}{event}\n" for before, event, _ in tried))
    answers = [answer.splitlines()[-1] for answer in given.output.removesuffix("safe\n").split("reset\n")[1:]]
    found = [(event, not answer.split()[1] == "not-enabled") for (_, event, _), answer in zip(tried, answers)]
    trial.wants(f"what is possible in {sample.name}", [(event, is_enabled) for _, event, is_enabled in tried], found)
    return len(tried)


def try_octets(trial, net):
    """Octets that are no text, the carriage return, and a last line without its end."""
    given = trial.run("step", net, text=b"\xff\nstart 0 0\r\nstart 0\xff 0\n#\xff\n\r\n\x00\ncrash 0")
    wanted = ["fault event", "1 started", *["fault event"] * 4, "2 crashed", "safe"]
    trial.wants("octets that are no text", End(0, lines_of(wanted)), given)


def try_closed(trial, net):
    """Outputs that take nothing, an input that can't be read, and standard error that is closed."""
    trial.to_full("step", net, text=b"start 0 0\n")
    folder = os.open(trial.folder, os.O_RDONLY)
    done = subprocess.run([trial.program, "step", net], stdin=folder, capture_output=True, timeout=300)
    os.close(folder)
    trial.wants("a folder as the input", (1, b"", b"fault: read\n"), (done.returncode, done.stdout, done.stderr))
    with open("/dev/full", "wb") as full:
        done = subprocess.run([trial.program, "step", "none.toml"], stdout=subprocess.PIPE, stderr=full, timeout=300)
    trial.wants("a fault that can't be told", (1, b""), (done.returncode, done.stdout))


def try_many(trial, net):
    """Asks and their requests, one after the other, and the number of the last event."""
    events = ["start 0 0", *(event for seq in range(1, MANY // 2) for event in ("ask 0 5120", f"request 0 1 {seq}"))]
    given = trial.run("step", net, text=lines_of(events))
    last = f"{len(events) - 1} asked {MANY // 2 - 1} 0000 5120\n{len(events)} passed\nsafe\n"
    trial.wants(f"{len(events)} events", (0, len(events) + 1, last), (given.status, given.output.count("\n"), given.output[-len(last) :]))


def look(trial):
    count, tried, possible = trial.cases("steps", long="0" * 4097), 0, 0
    for sample in samples():
        if texts := texts_of(sample):
            tried += 1
            try_sample(trial, sample, *texts)
            trial.checks(f"{sample.name} in each form", try_forms, trial, sample, *texts)
            if len(texts[1]) <= SHORT:
                possible += try_possible(trial, sample, *texts)
    trial.wants("kinds of objects that nothing printed", [], KINDS.missing())
    net = trial.folder / "one.toml"
    net.write_text(texts_of(samples("one_source")[0])[0])
    try_octets(trial, net)
    lines = [("start 0 0", "1 started"), ("ask 0 5120", "2 asked 1 0000 5120"), ("none", "fault event")]
    lines += [("# a comment, which isn't answered\nrequest 0 1 1", "3 passed"), ("reset", "reset"), ("start 0 0", "1 started")]
    trial.pipe(["step", net], lines, "safe\n")
    try_closed(trial, net)
    try_many(trial, net)
    return f"{tried} samples with events, {possible} events that are possible or just not, {count} cases"


main(look)
