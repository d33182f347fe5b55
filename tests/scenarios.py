"""Runs each sample of scenarios/, and compares what it prints and its exit status with what is written beside it.

NAME.toml is run by `abt run NAME.toml` in the folder scenarios/, and from the standard input too. NAME.toml.args has other words for it,
one a line, such as those of `abt threads NAME.toml --workers 4`: the file's name comes behind the first. NAME.toml.stdout is what it has
to print, NAME.toml.stderr what it has to tell (without it, nothing), NAME.toml.status the exit status (0). The model of scenarios/model
has to say the same of each sample. What no file can show is made here.

usage: scenarios.py PROGRAM..
"""
import os
import re
import shlex
import sys

from harness import ROOT, SCENARIOS, End, main, run, samples, worked

LONGEST = 16_777_216
LONG_NAME = "n" * 5000
REFUSAL = r"error: an output can't be a file that is read or written already, nor - where lines are printed\n\nFor more information, try '--help'.\n"


def beside(sample, suffix, default):
    file = sample.with_name(sample.name + suffix)
    return file.read_text() if file.is_file() else default


def try_sample(trial, sample):
    wanted = End(int(beside(sample, ".status", "0")), beside(sample, ".stdout", None), beside(sample, ".stderr", ""))
    command, *options = beside(sample, ".args", "run\n").splitlines()
    trial.wants(sample.name, wanted, trial.run(command, sample.name, *options, folder=SCENARIOS))
    trial.wants(f"{sample.name} from standard input", wanted, trial.run(command, *options, text=sample.read_bytes()))
    if command == "run" and not options and not wanted.status:
        try_strict(trial, sample, wanted)


def try_strict(trial, sample, report):
    """A strict run says the same, and is refused by the first event that isn't enabled: it is told as an explanation has it."""
    explained = trial.explained(sample)
    unable = [re.sub(r"^(\d+) .*?: (not-enabled)", r"event \1 is \2", line) for line in explained.splitlines() if ": not-enabled " in line]
    wanted = report._replace(status=1, told=f"fault: strict\n{unable[0]}\n") if unable else report
    trial.wants(f"{sample.name}, strict", wanted, trial.run("run", sample.name, "--strict", folder=SCENARIOS))


def try_lengths(trial):
    trial.wants("a text that is too long", End(1, "", "fault: TooLong\n"), trial.run("run", text=b"\n" * (LONGEST + 1)))
    trial.wants("the longest text", End(1, "", "fault: MissingKey ports\n"), trial.run("run", text=b"\n" * LONGEST))


def try_rights(trial):
    """A file that may not be read (but by a user who may read all), and an output that takes nothing."""
    file = trial.folder / "locked.toml"
    file.touch(mode=0)
    if not os.access(file, os.R_OK):
        for words in (["explain"], ["check", "--json"], ["run", "--explain"], ["threads", "--workers", "1", "--explain"]):
            wanted = End(1, "", "fault: open\nlocked.toml: it may not be read\n")
            trial.wants(f"a file that may not be read for {words}", wanted, trial.run(*words, file.name))
    for words in (["run", "one_source.toml"], ["explain", "one_source.toml"], ["rate", "53e8"], ["--help"], ["help", "port"]):
        trial.to_full(*words)


def try_explanation(trial):
    """The worked explanation, of its scenario as a file and from standard input, where a file that is named is the one that is
    explained."""
    ((scenario, explanation),) = worked("EXPLAIN.md", r"\A.*?^```\n(.*?)^```$.*?^```\n(.*?)^```$")
    file = trial.folder / "worked.toml"
    file.write_text(scenario)
    trial.wants("the worked explanation", End(0, explanation), trial.run("explain", file, text="ports = []"))
    trial.wants("the worked explanation from standard input", End(0, explanation), trial.run("explain", text=scenario))


def try_shown(trial):
    """What documents show of commands over samples, or over none, is what they print."""
    texts = [(ROOT / name).read_text() for name in ("README.md", "docs/FORMATS.md", "docs/SCENARIOS.md")]
    pattern = r"^\$ (?:\./)?abt ((?!threads|audit|conform|draw).*[^\\\n])\n((?:(?!\$|```|\.\.).*\n)+)(?=\$|```)"
    shown = re.findall(pattern, "\n".join(texts), re.M)
    for words, output in shown:
        given = trial.run(*shlex.split(words), folder=ROOT)
        trial.wants(f"abt {words}, which a document shows", [output], [given.output + given.told])
    trial.wants("commands that documents show", (True,), (len(shown) >= 5,))


def try_model(trial):
    for name in ("rows.py", "samples.py"):
        done = run(sys.executable, ["-B", SCENARIOS / "model" / name])
        if done.status:
            trial.fail(f"model/{name}: {done.output}{done.told}")


def look(trial):
    index = (ROOT / "docs" / "SCENARIOS.md").read_text()
    for sample in samples():
        if f"scenarios/{sample.name}" not in index:
            trial.fail(f"docs/SCENARIOS.md doesn't name {sample.name}")
        try_sample(trial, sample)
    for part in (try_shown, try_model, try_lengths, try_rights, try_explanation):
        part(trial)
    cases = trial.cases("files_and_words", long=LONG_NAME)
    cases += trial.cases("strict")
    cases += trial.cases("one_file", refusal=REFUSAL, scenario=(SCENARIOS / "threads_one_source.toml").read_text())
    return f"{len(samples())} samples, {cases} cases"


main(look)
