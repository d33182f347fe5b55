"""What scripts of tests/ do alike: they run a program in a folder of its own, compare how it ends with how it has to, and tell what
differs.

A case file, tests/cases/NAME.toml, has a list `case` of commands, each with how it has to end. Each is run in a folder of its own, in
which the texts of the table `files` stand, and has to leave that folder as it was:

    { words = "shape --rate 53e8",        as a shell cuts them
      what = "no cell",                   what the case is called; without it, its words
      input = "x\\n",                      standard input; without it, empty
      status = 1,                         without it, 0
      output = "1 fault number\\n",        all of standard output; without it, empty
      told = "fault: memory\\n",           all of standard error; without it, empty; or tells, its beginning
      makes = ["a.svg"] }                 the files that it makes or changes; without it, none

In all of these texts {NAME} stands for a value that the script gives, {octet} for one that is no UTF-8. A file whose name ends in a
stroke is a folder.
"""
import contextlib
import os
import re
import shlex
import shutil
import signal
import subprocess
import sys
import tempfile
import time
import tomllib
from pathlib import Path
from typing import NamedTuple

ROOT = Path(__file__).resolve().parent.parent
CASES, SCENARIOS = ROOT / "tests" / "cases", ROOT / "scenarios"
for folder in (ROOT / "tools", SCENARIOS / "model"):
    sys.path.insert(0, str(folder))
# How many characters of a text are shown that is other than wanted.
SHOWN = 2000


class End(NamedTuple):
    status: int
    output: str = ""
    told: str = ""


def run(program, words, text=b"", folder=SCENARIOS, **more):
    """How a command ends, with its words and its standard input."""
    text = text.encode(errors="surrogateescape") if isinstance(text, str) else text
    words = [word if isinstance(word, bytes) else str(word) for word in words]
    done = subprocess.run([program, *words], cwd=folder, input=text, capture_output=True, **{"timeout": 300, **more})
    return End(done.returncode, done.stdout.decode(), done.stderr.decode())


def interrupted(words, number, has_begun, **more):
    """How a command ends that is interrupted once it has begun: as by Ctrl-C, with all that it started, or by another signal alone."""
    streams = {"stdin": subprocess.DEVNULL, "stdout": subprocess.PIPE, "stderr": subprocess.STDOUT}
    started = subprocess.Popen(words, **streams, start_new_session=True, **more)
    until = time.time() + 20
    while not has_begun() and time.time() < until:
        time.sleep(0.05)
    time.sleep(0.3)
    (os.killpg if number == signal.SIGINT else os.kill)(started.pid, number)
    told = started.communicate(timeout=30)[0].decode()
    return started.returncode, told


def is_at_work(words):
    """Whether a process with these words is still there."""
    return subprocess.run(["pgrep", "-f", words], capture_output=True).returncode == 0


def case_file(name, **values):
    """What a case file has, with values in place of their names."""
    text = (CASES / f"{name}.toml").read_text()
    return tomllib.loads(re.sub(r"\{(\w+)\}", lambda at: str({"octet": "\udcff", **values}.get(at[1], at[0])), text))


def put(folder, files):
    """Puts texts into a folder, by their names there."""
    for name, text in files.items():
        place = folder / name
        (place if name.endswith("/") else place.parent).mkdir(parents=True, exist_ok=True)
        if not name.endswith("/"):
            place.write_text(text)


def files_in(folder):
    """What a folder has: the octets of each file, and each folder, by name."""
    return {str(it.relative_to(folder)): it.read_bytes() if it.is_file() else "a folder" for it in Path(folder).rglob("*")}


def copy_parts(folder, *names):
    """Copies files and folders of the repository into another one. All there is older then than what is made of it, also where a file
    system counts whole seconds."""
    folder.mkdir(parents=True, exist_ok=True)
    for name in names:
        if (ROOT / name).is_dir():
            shutil.copytree(ROOT / name, folder / name, ignore=shutil.ignore_patterns("__pycache__", "target", "build"))
        else:
            shutil.copy2(ROOT / name, folder / name)
    for file in folder.rglob("*"):
        os.utime(file, (time.time() - 60,) * 2)


def worked(document, pattern, count=1):
    """What a document shows, found by a pattern; it has to be there so often."""
    found = re.findall(pattern, (ROOT / "docs" / document).read_text(), re.M | re.S)
    if len(found) != count:
        raise SystemExit(f"docs/{document} has {len(found)} of the {count} texts that are looked at: {pattern}")
    return found


def samples(kind="*"):
    return sorted(SCENARIOS.glob(f"{kind}.toml"))


def sample_runs():
    """The samples without a fault: the name, the ports, the connections and the events of each."""
    from reading import Fault, read

    for sample in samples():
        with contextlib.suppress(Fault):
            yield (sample.name, *read(sample.read_bytes())[:3])


def section(vci, path=(0,), delay=1000, tau=200, **more):
    """The section of a connection, as it stands in the text of a scenario."""
    keys = {"vpi": 1, "vci": vci, "path": list(path), "delay": delay, "tau": tau, **more}
    return "[[connection]]\n" + "".join(f"{key} = {value}\n" for key, value in keys.items())


def scenario(ports, events, sections=()):
    """The text of a scenario, an event a line."""
    return f"ports = {ports}\nevents = [\n" + "".join(f'  "{event}",\n' for event in events) + "]\n" + "".join(sections)


class Trial:
    """One program that is tried in a folder, and what it gave otherwise than wanted."""

    def __init__(self, program, folder):
        self.program, self.folder, self.runs, self.found = program, Path(folder), 0, []

    def run(self, *words, text=b"", folder=None, **more):
        self.runs += 1
        return run(self.program, words, text, folder or self.folder, **more)

    def fail(self, told):
        self.found.append(str(told)[: 2 * SHOWN])

    def wants(self, what, wanted, given):
        if tuple(wanted) != tuple(given):
            self.fail(f"{what}: {str(tuple(given))[:SHOWN]} in place of {str(tuple(wanted))[:SHOWN]}")

    def checks(self, what, check, *given):
        """Has a check look at something by assertions, and gives what it gives; the first one that fails, or what can't be read, is
        told."""
        try:
            return check(*given)
        except (AssertionError, ValueError, TypeError, LookupError) as error:
            self.fail(f"{what}: {type(error).__name__} {error}")
            return None

    def pipe(self, words, lines, last):
        """Writes each line once the one before was answered, and wants its answer; the last lines come when the input has ended."""
        self.runs += 1
        process = subprocess.Popen([self.program, *words], stdin=subprocess.PIPE, stdout=subprocess.PIPE, cwd=self.folder)
        for line, wanted in lines:
            process.stdin.write(f"{line}\n".encode())
            process.stdin.flush()
            self.wants(f"{line!r} through a pipe to {words}", [f"{wanted}\n"], [process.stdout.readline().decode()])
        process.stdin.close()
        self.wants(f"the end of a pipe to {words}", (last, 0), (process.stdout.read().decode(), process.wait(timeout=300)))

    def to_full(self, *words, text=b""):
        """Runs a command whose output takes nothing, where the system has such a file."""
        self.runs += 1
        with contextlib.suppress(FileNotFoundError), open("/dev/full", "r+b", buffering=0) as full:
            done = subprocess.run([self.program, *words], cwd=SCENARIOS, input=text, stdout=full, stderr=subprocess.PIPE, timeout=300)
            self.wants(f"{words} to an output that takes nothing", (1, b"fault: write\n"), (done.returncode, done.stderr))

    def explained(self, file):
        """An explanation of events without the lines in which they stand."""
        return re.sub(r"^(\d+) line \d+ ", r"\1 ", self.run("explain", file).output, flags=re.M)

    def cases(self, name, **values):
        """Tries the cases of a file, and gives how many they are."""
        read = case_file(name, **values)
        for case in read["case"]:
            with tempfile.TemporaryDirectory(prefix="case-") as room:
                put(Path(room), read.get("files", {}))
                self.case(case, Path(room))
        return len(read["case"])

    def case(self, case, room):
        what, before = case.get("what", case["words"]), files_in(room)
        given = self.run(*shlex.split(case["words"]), text=case.get("input", ""), folder=room)
        wanted = End(case.get("status", 0), case.get("output", ""), case.get("told", ""))
        if "tells" in case:
            wanted = wanted._replace(told=case["tells"])
            given = given._replace(told=given.told[: len(case["tells"])])
        self.wants(what, wanted, given)
        after = files_in(room)
        changed = sorted(it for it in before.keys() | after.keys() if before.get(it) != after.get(it))
        self.wants(f"{what}, the files that differ", case.get("makes", []), changed)


def report(looked, found):
    """Tells what a script found, and at what it looked, and ends it."""
    name = Path(sys.argv[0]).stem
    for difference in found:
        print(f"{name}: {difference}")
    print(f"{name}: {looked}, {len(found)} differences")
    sys.exit(1 if found else 0)


def main(look, kind=Trial):
    """Tries each program that is named, and tells what was found. `look` takes a trial, and says at what it looked."""
    if not sys.argv[1:]:
        sys.exit(f"usage: {Path(sys.argv[0]).name} PROGRAM..")
    looked, found = [], []
    for program in sys.argv[1:]:
        with tempfile.TemporaryDirectory(prefix="tests-") as folder:
            trial = kind(Path(program).resolve(), folder)
            looked.append(f"{look(trial)}, {trial.runs} commands of {program}")
            found += trial.found
    report("; ".join(looked), found)


def claims(*tests):
    """Tells which claims don't hold. Each test is given a new folder, and yields claims, each with whether it holds."""
    looked, found = 0, []
    for test in tests:
        with tempfile.TemporaryDirectory(prefix="tests-") as folder:
            for what, holds in test(Path(folder) / "copy"):
                looked += 1
                found += [] if holds else [f"{test.__name__}: not so: {what}"]
    report(f"{looked} looked at", found)
