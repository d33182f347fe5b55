"""Has `abt threads` tell and write the events that it wove, and looks at both by other means.

The scenario that is written has to be read by the slow model of scenarios/model, whose report has to be that of `abt run`, and safe. What
is told has to be as many events as that scenario has, then what `abt explain` tells of it without its lines, then the answers that
sources heard, which are worked out from the outcomes here; and then what `abt check` says of the sample.

usage: woven.py PROGRAM..
"""
import re
from pathlib import Path

from harness import ROOT, SCENARIOS, Trial, main, samples, worked
from model import run as model_run

SHOWN = "gathered\nwoven\nsafe\n"
HEAD = re.compile(r"events: (\d+), granted: (\d+), refused: (\d+)\n")
ASKED = re.compile(r"(?:ask|again) (\d+)\b[^:]*: asked (\d+) [0-9a-f]{4} [0-9a-f]{4}: asks for (\S+) cells/s")
# An event in a scenario that the program writes.
EVENT = b'\n  "'
TOLD = re.compile(r"told-(?:yes|no) (\d+) (\d+): told (Raised|Refused)$")
# How often the worked telling is tried: its source may look for its yes in vain, if its thread comes much too early.
TRIES = 20


class Teller(Trial):
    def threads(self, sample, workers, *options):
        return self.run("threads", sample, "--workers", workers, *options)


def answers_in(explanation):
    """The answers that sources heard, worked out from the lines of events."""
    rates, answers = {}, []
    for line in explanation.splitlines():
        number, _, said = line.partition(" ")
        if found := ASKED.match(said):
            rates[found[1], found[2]] = found[3]
        elif found := TOLD.match(said):
            heard = {"Raised": "granted", "Refused": "refused"}[found[3]]
            answers.append(f"event {number}: connection {found[1]} is {heard} {rates[found[1], found[2]]} cells/s by request {found[2]}\n")
    return answers


def telling_of(trial, what, written):
    """What has to be told of the events that stand in this scenario, all of which can happen."""
    octets, report = written.read_bytes(), trial.run("run", written)
    trial.wants(f"{what}, the report of the slow model", model_run(octets), report)
    if "not-enabled" in report.output or not report.output.endswith("\nsafe\n"):
        trial.fail(f"{what}: what is written isn't safe, or can't happen: {report!r}")
    explanation = trial.explained(written)
    answers = answers_in(explanation)
    granted, refused = (sum(f" is {heard} " in one for one in answers) for heard in ("granted", "refused"))
    return f"events: {octets.count(EVENT)}, granted: {granted}, refused: {refused}\n{explanation}{''.join(answers)}"


def try_sample(teller, sample, workers):
    what, out = f"{sample.name} with {workers} link workers", teller.folder / "events.toml"
    check = teller.run("check", sample)[1]
    out.unlink(missing_ok=True)
    status, shown, told = teller.threads(sample, workers, "--explain", "--events", out)
    teller.wants(f"{what}, the lines", (0, SHOWN), (status, shown))
    if out.is_file():
        teller.wants(f"{what}, the telling", telling_of(teller, what, out) + check, told)
    out.unlink(missing_ok=True)
    teller.wants(f"{what}, the events alone", (0, SHOWN, ""), teller.threads(sample, workers, "--events", out))
    telling_of(teller, f"{what}, the events alone", out)
    status, shown, told = teller.threads(sample, workers, "--explain")
    if (status, shown) != (0, SHOWN) or not HEAD.match(told) or not told.endswith(check):
        teller.fail(f"{what}, the telling alone: {(status, shown, told)!r}")


def try_unfit(teller, sample):
    """A scenario that can't run: the fault and the check are told, and no file is made."""
    out = teller.folder / "unmade"
    check = teller.run("check", sample)[1]
    status, shown, told = teller.threads(sample, 4)
    teller.wants(f"{sample.name}, explained", (status, shown, told + check), teller.threads(sample, 4, "--explain"))
    teller.wants(f"{sample.name}, both", (status, shown, told + check), teller.threads(sample, 4, "--explain", "--events", out))
    teller.wants(f"{sample.name}, its events", (status, shown, told), teller.threads(sample, 4, "--events", out))
    if out.exists():
        teller.fail(f"{sample.name}: the file of its events is made")


def try_files(teller):
    """Files that can't be made or written, with the events told behind that."""
    sample = SCENARIOS / "threads_crossing.toml"
    teller.cases("woven", crossing=sample)
    check = teller.run("check", sample)[1]
    none, full = teller.folder / "none" / "events.toml", Path("/dev/full")
    for out, line in [
        (none, f"fault: events open\n{none}: its folder isn't there\n"),
        (full, f"fault: events write\n{full}: there is no room on its disk\n"),
    ]:
        status, shown, told = teller.threads(sample, 4, "--explain", "--events", out)
        is_told = told.startswith(line) and HEAD.match(told.removeprefix(line)) and told.endswith(check)
        if (status, shown) != (1, SHOWN) or not is_told:
            teller.fail(f"events to {out.name}, and told: {(status, shown, told)!r}")


def try_worked(teller):
    """The telling that docs/EXPLAIN.md shows."""
    ((sample, wanted),) = worked("EXPLAIN.md", r"^\$ abt threads (\S+) --workers 1 --explain\n(.*?)^```$")
    for _ in range(TRIES):
        status, shown, told = teller.threads(ROOT / sample, 1, "--explain")
        if status == 0 and shown + told == wanted:
            return
    teller.fail(f"the worked telling: {shown + told!r} in place of {wanted!r}")


def look(teller):
    for sample in samples("threads_*"):
        if Path(f"{sample}.stdout").read_text() != SHOWN:
            try_unfit(teller, sample)
            continue
        for workers in (1, 4, 64):
            try_sample(teller, sample, workers)
    try_files(teller)
    try_worked(teller)
    return f"{len(samples('threads_*'))} samples"


if __name__ == "__main__":
    main(look, Teller)
