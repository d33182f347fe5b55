"""Runs `abt check` and `abt explain` over scenarios in many layouts, and compares lines and places with those that were written by hand
(tests/cases/check.toml, tests/cases/layouts.toml): where a key or an item stands in a text is told by no clause of the TOML reader.

usage: check_texts.py PROGRAM..
"""
import re
import tomllib

from harness import End, case_file, main, samples, section

# As many faults and warnings as are told, and one fewer.
MOST = 100
LIMITS = ((256, "ports"), (1024, "connections"))
# What is told of a word that no event begins with, and that is near none.
WORDS = "`start`, `ask`, `again`, `crash`, `emit`, `arrive`, `request`, `turn`, `yes`, `no`, `told-yes`, `told-no` or `capacity`"
WANTED = f"; one of {WORDS} is wanted"
# A connection over one port, from whose beginning on another one could follow.
ONE = "[[connection]]\nvpi = 1\nvci = 1\npath = [0]\ndelay = 0\ntau = 5\n"


def try_many(trial):
    """Texts with more faults or warnings than are told, and with one fewer."""
    for count in (MOST + 1, MOST - 1):
        told, number = min(count, MOST), f"{MOST} or more" if count > MOST else count
        faults = [f"line 2, column {11 + 4 * i}: fault EventText {i + 1}: no event begins with `z`{WANTED}\n" for i in range(told)]
        wanted = End(1, "".join([*faults, f"faults: {number}, warnings: 0\n"]))
        trial.wants(f"{count} faults", wanted, trial.run("check", text="ports = []\nevents = [" + "'z'," * count + "]\n"))
        keys = "".join(f"k{i} = 1\n" for i in range(count))
        warnings = [f"line {i + 3}, column 1: warning: nothing reads the key `k{i}`\n" for i in range(told)]
        wanted = End(0, "".join([*warnings, f"faults: 0, warnings: {number}\n"]))
        trial.wants(f"{count} warnings", wanted, trial.run("check", text="ports = [1]\nevents = ['start 0 0']\n" + keys + ONE))
        try_not_enabled(trial, count, number)


def try_not_enabled(trial, count, number):
    """So many events that aren't enabled, beside one key that nothing reads, and events that are enabled between them."""
    told = min(count, MOST) - 1
    warnings = [f"line {2 * i + 5}, column 1: warning: event {2 * i + 2} is not-enabled Running: the source is up\n" for i in range(told)]
    wanted = End(0, "".join(["line 1, column 1: warning: nothing reads the key `k`\n", *warnings, f"faults: 0, warnings: {number}\n"]))
    events = "'start 0 0',\n" + "'start 0 0',\n'ask 0 53e8',\n" * (count - 1)
    text = f"k = 1\nports = [1]\nevents = [\n{events}]\n{ONE}"
    trial.wants(f"{count} events that aren't enabled", wanted, trial.run("check", text=text))


def try_limits(trial):
    """As many ports and connections as are allowed, beside another fault, and one too many."""
    other = f"line 2, column 11: fault EventText 1: no event begins with `x`{WANTED}"
    ports, lines = (f"fault Net Limit: the net has {most + 1} {what}; at most {most} are allowed" for most, what in LIMITS)
    for text, told in [
        (f"ports = {[1] * 256}\nevents = ['x']\n", other),
        (f"ports = {[1] * 257}\n", f"line 1, column {10 + 3 * 256}: {ports}"),
        ("ports = [1]\nevents = ['x']\n" + "".join(map(section, range(1024))), other),
        ("ports = [1]\n" + "".join(map(section, range(1025))), f"line {2 + 6 * 1024}, column 1: {lines}"),
    ]:
        trial.wants(told, End(1, f"{told}\nfaults: 1, warnings: 0\n"), trial.run("check", text=text))


def try_lines(trial, name, text, wanted):
    """`abt explain` tells so many events, each in its line."""
    given = trial.run("explain", text=text)
    lines = [(int(number), int(line)) for number, line in re.findall(r"^(\d+) line (\d+) ", given.output, flags=re.M)]
    count = len(re.findall(r"^\d+ ", given.output, flags=re.M))
    trial.wants(f"{name}, explained", (0, "", len(wanted), list(enumerate(wanted, 1))), (given.status, given.told, count, lines))


def lines_of(text):
    """The lines in which the events of a sample stand: their texts are found one behind the other."""
    at, lines = re.search(r"^events\b|\Z", text, flags=re.M).end(), []
    for event in tomllib.loads(text).get("events", []):
        at = text.index(f'"{event}"', at)
        lines.append(text.count("\n", 0, at) + 1)
        at += len(event) + 2
    return lines


def try_first_fault(trial, sample, text):
    """The first fault of `abt check` is the one that `abt run` tells."""
    run, check = trial.run("run", text=text), trial.run("check", text=text)
    if check.told:
        trial.wants(f"{sample.name}, checked", (run.status, run.told), (check.status, check.told))
        return
    faults = re.findall(r"^(?:.*?: )?fault ([^:\n]*)", check.output, re.M)
    wanted = [run.told.removeprefix("fault: ").rstrip("\n")] if run.status == 1 else []
    trial.wants(f"{sample.name}, its first fault", (run.status, wanted), (check.status, faults[:1]))


def advice_of(command, text):
    """What is told behind the check of a scenario that has nothing to run for a command."""
    read = tomllib.loads(text.decode())
    has_script = read.get("operator") or any(conn.get("script") for conn in read.get("connection", []))
    if command == "run":
        return "this scenario has only scripts: use abt threads, or abt play\n" if has_script and not read.get("events") else ""
    return "this scenario has only events: use abt run\n" if read.get("events") and not has_script else ""


def try_explained(trial, sample, text):
    """`run --explain` and `threads --explain` print what they print without it, and the lines of `abt check` and advice; before these a
    run in threads tells its events, at which tests/woven.py looks."""
    check = trial.run("check", text=text)
    for words in (["run"], ["threads", "--workers", "2"]):
        lines = check.output + ("" if check.status else advice_of(words[0], text))
        plain, given = trial.run(*words, text=text), trial.run(*words, "--explain", text=text)
        tells = words[0] == "threads" and not plain.status
        told = lines if tells and given.told.endswith(lines) else given.told
        wanted = lines if tells else plain.told + lines
        trial.wants(f"{sample.name}, {words} --explain", (plain.status, plain.output, wanted), (given.status, given.output, told))


def look(trial):
    layouts = case_file("layouts")["case"]
    count = trial.cases("check")
    try_many(trial)
    try_limits(trial)
    for layout in layouts:
        try_lines(trial, layout["what"], layout["input"], layout["lines"])
    for sample in samples():
        text = sample.read_bytes()
        try_first_fault(trial, sample, text)
        try_explained(trial, sample, text)
        if not trial.run("run", text=text).status:
            try_lines(trial, sample.name, text, lines_of(text.decode()))
    return f"{count + 6 + len(layouts)} texts and {len(samples())} samples"


main(look)
