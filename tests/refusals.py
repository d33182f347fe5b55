"""Lets allocations of the program fail in turn, and wants want of memory told as just that; with --all, calls of each kind and more
commands.

Which ends are right says tests/fault_trials.py. Calls fail by the preloaded library tools/faults.c, which needs a C compiler. The
allocations of `abt threads` come in no fixed order, so of these only some are tried. It is tried once more with each later allocation
refused too, and has to end then as well. Behind `gathered` its journals are written whatever is refused. With --stack nothing fails, but the stack is so small, also for the largest nets.

usage: refusals.py PROGRAM..                                         (the program itself: `./abt` is a script, whose shell would be refused)
       refusals.py PROGRAM.. --all [--faults KIND,..] [--every N]    (KIND: one of tests/fault_trials.py; N: the first of each N calls)
       refusals.py PROGRAM.. --stack KIB
"""
import argparse
import os
import subprocess
import sys
from itertools import count

from fault_commands import Command, all_commands, commands
from fault_trials import KINDS, SECONDS, Sweep, run
from harness import SCENARIOS, main, samples
from preload import Faults

THREADS = ("threads", "threads_one_source.toml", "--workers", "1")
# The last line of a text of journals.
LAST = '{"end":true}\n'
AT_ONCE = 2
SOME, ALL = 400, 5_000


def trials():
    """Each command with what is refused, and at how many places at most."""
    names = [sample.name for sample in samples() if not sample.name.startswith("threads_")]
    for command in [*commands("case"), *(Command(("run", name)) for name in names)]:
        yield command, "allocation", ALL
    yield Command(THREADS), "allocation", SOME
    # What is told comes last, so of that run all are tried.
    yield Command((*THREADS, "--explain")), "allocation", ALL
    yield Command(("draw", *THREADS[1:], "-o", "ROOM/picture.svg")), "allocation", SOME
    yield Command(THREADS), "memory", SOME


def keeps_journals(trial, faults):
    """Refuses each allocation of a run whose journals are written: once it is gathered, their file is whole and is audited as woven and
    safe, unless memory is refused for that text, behind all lines."""
    file = trial.folder / "journals.jsonl"
    words = (trial.program, *THREADS[:1], SCENARIOS / THREADS[1], *THREADS[2:], "--journals", file)
    gathered = kept = 0
    for number in count(1):
        file.unlink(missing_ok=True)
        end, refused = faults.during({"FAULTS_ALLOCATION": str(number)}, lambda environment: ended(words, environment))
        if refused is None:
            break
        status, lines = end
        text = file.read_text() if file.exists() else ""
        if status == 0 or lines == "" or lines == "gathered\nwoven\nsafe\n":
            continue
        gathered += 1
        if text.endswith(LAST) and trial.run("audit", file) == (0, "woven\nsafe\n", ""):
            kept += 1
        else:
            trial.fail(f"threads --journals, allocation {number}: printed {lines!r}, and the file ends with {text[-80:]!r}")
    if not gathered:
        trial.fail("threads --journals: no allocation was refused behind gathered")
    return f"{kept} of {gathered} runs refused memory behind `gathered` left their journals"


def ended(words, environment):
    done = subprocess.run(words, env={**os.environ, **environment}, stdin=subprocess.DEVNULL, capture_output=True, text=True, timeout=SECONDS)
    return done.returncode, done.stdout


def on_small_stack(trial, kibibytes):
    tried = [*all_commands(), *commands("large")]
    for command in tried:
        trial.wants(command, run(trial.program, command), run(trial.program, command, kibibytes=kibibytes))
    return f"{len(tried)} commands on a stack of {kibibytes} KiB"


def look(trial, words):
    if words.stack:
        return on_small_stack(trial, words.stack)
    faults = Faults(trial.folder)
    if not faults.library:
        return "not run, as there is no C compiler"
    sweep = Sweep(trial.program, faults, AT_ONCE, words.every)
    for command, kind, most in ((it, kind, None) for kind in words.faults for it in all_commands()) if words.all else trials():
        told = sweep.told[kind]
        for _, number, end, plain in sweep.sweep(command, kind, most):
            trial.fail(f"{command}, {kind} {number}: {end!r}, and without {plain!r}")
        if not words.all and sweep.told[kind] == told:
            trial.fail(f"{command}: no refusal is told")
    return f"{dict(sweep.tried)} tried, {sweep.told.total()} told; {keeps_journals(trial, faults)}"


if __name__ == "__main__":
    reader = argparse.ArgumentParser(description=__doc__, formatter_class=argparse.RawDescriptionHelpFormatter)
    reader.add_argument("programs", nargs="+")
    reader.add_argument("--all", action="store_true")
    reader.add_argument("--faults", type=lambda text: text.split(","), default=list(KINDS))
    reader.add_argument("--every", type=int, default=1)
    reader.add_argument("--stack", type=int)
    given = reader.parse_args()
    if {*given.faults} - {*KINDS}:
        reader.error(f"the kinds of faults are {', '.join(KINDS)}")
    sys.argv[1:] = given.programs
    main(lambda trial: look(trial, given))
