"""Holds `abt check --expect` to what `abt run` prints: each sample expects its own outcomes, then one that is another, then too few, and
too many. An outcome is another one by one word, and stands at the first event, in the middle, or at the last. Each kind of outcome that
docs/FORMATS.md names has to be taken as an expectation, and each that is spoilt by one character has to be refused, unless it is written as
another outcome is.

usage: expected.py PROGRAM..
"""
import re

from harness import End, main, samples, worked

# An event over a net of no connection, whose outcome is known, and outcomes in each of their forms.
HEAD = "ports = [1]\nevents = ['start 0 0']\n"
CAUSES = "Down Running NotSent Fenced Delay ClockBack Unknown NotAsking"
NAMES = {
    "refused": "Keep TimeRange SeqExhausted ClockBack Zero BelowSum AboveLimit",
    "arrived": "Conforming TooEarly NoRate",
    "dropped": "UnknownVc Stale Conflict FloorAbove",
    "told": "Raised Refused Ignored",
    "not-enabled": CAUSES,
}
OUTCOMES = [
    *"started crashed turned set passed refuses".split(),
    *(f"{word} {name}" for word, names in NAMES.items() for name in names.split()),
    "asked 1 0000 5120", "again 4294967295 53e8 ffff", "emitted 0 1002500000000", "refused TooSoon 18446744073709551615",
]
# What no event is ever answered by.
OTHERS = [
    " ", "start", "Started", "started ", " started", "started started", "refused", "refused Stale", "refused TooSoon", "refused TooSoon x",
    "refused TooSoon 1 2", "dropped Keep", "told", "told Raised Raised", "not-enabled", "asked", "asked 1", "asked 1 0000", "asked 1 0000 512",
    "asked 1 0000 5120 5120", "asked x 0000 5120", "asked 1  0000", "asked -1 0000 5120", "emitted", "emitted 0", "emitted 0 x",
    "emitted 0 1 2", "emitted  0", "safe", "events 1", "1 started", "started\n",
]


def array(texts):
    return "expect = [" + ", ".join('"' + text.replace("\n", "\\n") + '"' for text in texts) + "]\n"


def tap(*tests):
    """What is printed of tests: whether each is as expected, its name, and its lines."""
    lines = ["TAP version 13", f"1..{len(tests)}"]
    for number, (holds, name, told) in enumerate(tests, 1):
        lines += [f"{'ok' if holds else 'not ok'} {number} - {name}", *(f"# {line}" for line in told)]
    return "".join(f"{line}\n" for line in lines)


def wants(trial, what, text, holds, *told):
    given = trial.run("check", "--expect", text=text)
    trial.wants(what, End(0 if holds else 1, tap((holds, "-", told))), given)


def try_sample(trial, sample):
    """A sample with its own outcomes, and with others."""
    text = sample.read_text()
    report = trial.run("run", text=text)
    outcomes = re.findall(r"^\d+ (.*)$", report.output, re.M)
    trial.wants(f"{sample.name}, run with what it expects", report, trial.run("run", text=array(outcomes) + text))
    wants(trial, f"{sample.name} as it is", array(outcomes) + text, True)
    wants(trial, f"{sample.name}, any outcome", array([""] * len(outcomes)) + text, True)
    for place in {0, len(outcomes) // 2, len(outcomes) - 1} if outcomes else ():
        other = "crashed" if outcomes[place] != "crashed" else "turned"
        changed = [*outcomes[:place], other, *outcomes[place + 1 :]]
        told = f"event {place + 1}: expected {other}, got {outcomes[place]}"
        wants(trial, f"{sample.name}, another outcome of event {place + 1}", array(changed) + text, False, told)
        few = f"-:1:1: fault: ExpectCount: {len(outcomes) - 1} texts stand there for {len(outcomes)} events"
        wants(trial, f"{sample.name}, too few", array(outcomes[1:]) + text, False, few)
    many = f"-:1:1: fault: ExpectCount: {len(outcomes) + 1} texts stand there for {len(outcomes)} events"
    wants(trial, f"{sample.name}, too many", array(["", *outcomes]) + text, False, many)


def try_words(trial):
    """Each outcome may be expected, and nothing else."""
    for outcome in OUTCOMES:
        got = "not-enabled Unknown"
        told = [] if outcome == got else [f"event 1: expected {outcome}, got {got}"]
        wants(trial, f"{outcome!r}, expected", HEAD + array([outcome]), outcome == got, *told)
    for other in OTHERS:
        told = "-:3:11: fault: ExpectText 1: no outcome is written so"
        wants(trial, f"{other!r}, which is no outcome", HEAD + array([other]), False, told)


def try_table(trial):
    """The outcomes that are tried here are those of the table of reports."""
    (table,) = worked("FORMATS.md", r"^\| outcome \| text \|\n\|---\|---\|\n(.*?)\n\n")
    words = {word.split(" ")[0] for text in re.findall(r"`([^`]*)`", table) for word in [text] if text[0].islower()}
    trial.wants("first words of outcomes", sorted(words), sorted({outcome.split(" ")[0] for outcome in OUTCOMES}))


def look(trial):
    trial.cases("check_files", bidi="\u202e")
    ones = [it for it in samples() if not it.name.startswith(("fault_", "threads_", "expected"))]
    for sample in ones:
        try_sample(trial, sample)
    try_words(trial)
    try_table(trial)
    return f"{len(ones)} samples, {len(OUTCOMES)} outcomes, {len(OTHERS)} other texts"


main(look)
