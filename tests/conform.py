"""`abt conform` over the adapters of docs/ORACLE.md: a right implementation conforms, each planted fault is found, and no bad program
holds it up.

The implementation is tests/devices/device.py, in which one fault at a time can be planted. Each has to be found within 10,000 events at
each seed, and the smallest events of one of each role have to differ again. A program that breaks (that ends, prints nothing, prints too
much or never ends) has to be told as a difference, and made small like any other; one that isn't there is a fault. Nothing of them and no
FIFO may be left. A file that the tool didn't write stays as it is, and what it can't print is a fault.

usage: conform.py PROGRAM.. [--seeds N]      (N: at how many seeds each fault has to be found; without it, 1)
"""
import os
import re
import shlex
import shutil
import signal
import subprocess
import sys
import tempfile
import time
import tomllib
from concurrent.futures import ThreadPoolExecutor
from pathlib import Path

from harness import ROOT, End, case_file, files_in, main, put, run, worked

TOOL = ROOT / "tools" / "conform.py"
CASES = case_file("conform")
FAULTS, SMALL, BAD, BREAKS = CASES["faults"], CASES["small"], CASES["bad"], CASES["breaks"]
# For how many seconds events may be made fewer: on a loaded machine as few have to be left.
LONGEST = 600
NEVER_ENDS = """import sys, time
for line in sys.stdin: print('started' if line.startswith('start') else '?', flush=True)
time.sleep(1000)"""
# A program that differs at the first event.
ENDS = [sys.executable, "-c", "raise SystemExit(3)"]
# One that clears a screen at each event.
CLEARS = "import sys\nfor _ in sys.stdin: print('\\x1b[2J', flush=True)"
UNSTARTED = "can't be started: No such file or directory\n"
# A port that breaks behind its answer to a stale cell.
BREAKING = """import sys, time
from device import Port
port = Port(int(sys.argv[1]))
for number, line in enumerate(sys.stdin, 1):
    answer = port.serve(line.strip())
    if answer == "drop Stale":
        BREAK
    print(number, answer, flush=True)
print("total", port.total())"""
# How the least story of a port that takes less for at most ends: its last cell just fits.
JUST_FITS = r"^  \d+ request \d+ of \S+, floor \d+, ask (\d+): pass: asks \1, holds 0, others hold (\d+) of (\d+)$"


def adapters():
    """The adapters that docs/ORACLE.md shows, one for each role, and its driver, by their names."""
    return dict(worked("ORACLE.md", r"^```python\n# (\w+\.py)\n(.*?)^```$", len(FAULTS) + 1))


def alive(mark):
    """The processes with this mark among their words, once those that are just being killed had time to go."""
    until = time.time() + 20
    while (found := with_mark(mark)) and time.time() < until:
        time.sleep(0.05)
    return found


def with_mark(mark):
    found = []
    for folder in Path("/proc").iterdir():
        try:
            if folder.name.isdecimal() and mark.encode() in (folder / "cmdline").read_bytes() and int(folder.name) != os.getpid():
                found.append(folder.name)
        except OSError:
            continue
    return found


class Conforms:
    def __init__(self, trial, seeds):
        # The gate runs this script over two programs at once, so what one starts bears a mark of its own.
        self.trial, self.seeds, self.mark = trial, seeds, trial.folder.name
        for name, text in {"device.py": (ROOT / "tests" / "devices" / "device.py").read_text(), **adapters()}.items():
            (trial.folder / name).write_text(text)

    def conform(self, *words, fault="", command=(), folder=None):
        self.trial.runs += 1
        environment = {**os.environ, "FAULT": fault, "TMPDIR": str(self.trial.folder)}
        words = ["-B", TOOL, "--abt", self.trial.program, "--shrink", LONGEST, *words, "--", *command]
        return run(sys.executable, words, folder=folder or self.trial.folder, env=environment, timeout=900)

    def adapter(self, role):
        return [sys.executable, "-B", f"{role}.py"]

    def right(self, role):
        """It conforms, over FIFOs too, which a shell makes its standard streams."""
        joined = ["sh", "-c", f'exec {" ".join(self.adapter(role))} <"$1" >"$2"', "adapter"]
        for more, command in [((), self.adapter(role)), *([(("--fifos",), joined)] if role == "source" else [])]:
            given = self.conform("--role", role, "--events", "600", "--seed", "11", *more, command=command)
            self.trial.wants(f"a right {role} {more}", End(0, "conforms: 600 events, seed 11\n"), given)

    def found(self, role, fault, seed):
        small = fault in SMALL and seed == 1
        to = self.trial.folder / f"{role}-{fault}-{seed}"
        more = () if small else ("--whole",)
        given = self.conform("--role", role, "--seed", seed, "--to", to, *more, fault=fault, command=self.adapter(role))
        if given.status != 1 or not given.output.startswith(f"differs, seed {seed}: ") or given.told:
            self.trial.fail(f"{fault} of a {role}, seed {seed}: {given}")
        elif small:
            self.trial.checks(f"{fault} of a {role}, made small", self.small, role, fault, to, given.output)

    def small(self, role, fault, to, output):
        count = int(re.search(r"^smallest: \S+, (\d+) (?:cell|event)s?; abt ", output, re.M)[1])
        assert count <= SMALL[fault], f"{count} are left"
        left = to.read_text().splitlines() if role == "port" else tomllib.loads(to.read_text())["events"]
        assert len(left) == count, "the file has others"
        assert role == "port" or self.trial.run("run", to).status == 0, "it isn't run"
        if fault == "less_for_at_most":
            ask, others, capacity = map(int, re.findall(JUST_FITS, output, re.M)[-1])
            assert others + ask == capacity, "the reason isn't that it just fits"
            assert f"; total {capacity} of {capacity}\n" in output, "what is held then isn't told"

    def drives(self, name, fault=""):
        """What the driver tells of a sample, over port 0."""
        self.trial.runs += 1
        path = f"{self.trial.folder}/bin:{os.environ['PATH']}"
        words = ["-B", "drive.py", ROOT / "scenarios" / name, 0]
        given = run(sys.executable, words, folder=self.trial.folder, env={**os.environ, "FAULT": fault, "PATH": path})
        assert given.status == 0 and not given.told, given.told
        return given.output

    def driver(self):
        """By the driver of docs/ORACLE.md a right port differs at no sample, and one that releases nothing by a refusal where the page
        shows it."""
        (self.trial.folder / "bin").mkdir()
        (self.trial.folder / "bin" / "abt").symlink_to(self.trial.program)
        for name in ("refusal_releases.toml", "reordered.toml", "shrinking_link.toml"):
            told = self.trial.checks(name, self.drives, name) or ""
            self.trial.wants(f"a right port over {name}", (True, False), (": pass\n" in told, "differs" in told))
        shown = worked("ORACLE.md", r"^\$ python3 drive\.py scenarios/refusal_releases\.toml 0\n(.*?)^\.\.$")[0]
        told = self.drives("refusal_releases.toml", "refusal_releases_nothing")
        self.trial.wants("a port that releases nothing", (shown, 2), (told[: len(shown)], told.count("differs: passed")))
        shutil.rmtree(self.trial.folder / "bin")

    def bad(self, name):
        body, how = BAD[name]
        mark, to = f"{self.mark}-{name.replace(' ', '-')}", self.trial.folder / f"{name}.toml"
        seconds = "0.5" if name == "prints nothing" else "60"
        given = self.conform("--role", "net", "--timeout", seconds, "--to", to, command=[sys.executable, "-c", body, mark])
        told = f"  yours {how}\n"
        is_told = given.output.startswith("differs, seed 1: `") and given.output.count(told) == 2 and ", 1 event; " in given.output
        self.trial.wants(f"a program that {name}", (1, "", True), (given.status, given.told, is_told))
        if name == "tells":
            self.trial.wants("its standard error", (True,), ("\n        ValueError: lost its table\n" in given.output,))
        self.trial.wants(f"what is left of a program that {name}", (), alive(mark))

    def breaks(self, name):
        """A port that breaks only at a stale cell: that cell, and the one before it which makes it stale, are left."""
        body, how = BREAKS[name]
        mark, to = f"{self.mark}-{name.replace(' ', '-')}", self.trial.folder / f"{name}.cells"
        (self.trial.folder / f"{mark}.py").write_text(BREAKING.replace("BREAK", body))
        given = self.conform("--role", "port", "--timeout", "3", "--to", to, command=[sys.executable, "-B", f"{mark}.py"])
        cells = to.read_text().split() if to.exists() else []
        lines = re.sub(r"\d+ late", "{number} late", re.sub(r"for [\d.]+ s$", "for {limit} s", given.output, flags=re.M)).splitlines()
        is_told = lines.count(f"  yours {how}") == 2 and any(re.search(r"^  2 .*: drop Stale: \d+ is the newest here$", it) for it in lines)
        if (given.status, given.told, len(cells), is_told) != (1, "", 2, True):
            self.trial.fail(f"a port that {name}: {given}")
        self.trial.wants(f"what is left of a port that {name}", (), alive(mark))

    def never_ends(self):
        words, mark = ["--role", "source", "--timeout", "15", "--events", "1"], f"{self.mark}-never-ends"
        words += ["--whole", "--to", self.trial.folder / "never-ends.toml"]
        given = self.conform(*words, command=[sys.executable, "-c", NEVER_ENDS, mark])
        wanted = "differs, seed 1: `the end of the input`\n  abt   ends\n  yours hasn't ended 15 s after its input did\n"
        self.trial.wants("one that never ends", (1, "", wanted), (given.status, given.told, given.output[: len(wanted)]))
        self.trial.wants("what is left of one that never ends", (), alive(mark))
        given = self.conform("--role", "net", command=["./no-such-program"])
        self.trial.wants("one that isn't there", End(1, "", f"fault: ./no-such-program {UNSTARTED}"), given)

    def refused_files(self):
        """A file that isn't the tool's own is refused before anything starts, and stays as it is."""
        with tempfile.TemporaryDirectory(dir=self.trial.folder) as name:
            folder = Path(name)
            put(folder, CASES["files"])
            (folder / "link.toml").symlink_to("mine.toml")
            (folder / "dev.sh").chmod(0o755)
            before = files_in(folder)
            for words, told in CASES["refused"].items():
                options, _, command = words.partition(" -- ")
                given = self.conform(*shlex.split(options), command=shlex.split(command), folder=folder)
                said = given.told.split("abt conform: error: ")[-1]
                self.trial.wants(f"the file of {words}", (2, "", f"{told}\n"), (given.status, given.output, said))
            self.trial.wants("the files that were refused", (before, True), (files_in(folder), (folder / "link.toml").is_symlink()))

    def own_files(self):
        """A file of a run before is replaced by a new one, and removed where nothing differs or nothing was compared."""
        with tempfile.TemporaryDirectory(dir=self.trial.folder) as name:
            own = Path(name) / "own.toml"
            words = ["--role", "net", "--whole", "--events", "60", "--to", own]
            made = []
            for seed in (1, 2):
                given = self.conform("--seed", seed, *words, command=ENDS)
                self.trial.wants(f"a file of seed {seed}", (1, ""), (given.status, given.told))
                made.append((own.open("rb"), own.read_text()))
            (old, text), (_, other) = made
            replaced = (os.fstat(old.fileno()).st_nlink, old.read().decode() == text, text != other)
            self.trial.wants("a file that is replaced", (0, True, True), replaced)
            self.trial.wants("the marks", [True] * 2, [it.startswith("# abt conform wrote this file") for it in (text, other)])
            given = self.conform(*words, command=["cat", own])
            self.trial.wants("its own file as a word of COMMAND", (2, other), (given.status, own.read_text()))
            for what, status, command in (("can't be started", 1, ["./none"]), ("conforms", 0, self.adapter("net"))):
                own.write_text(other)
                given = self.conform(*words, command=command)
                self.trial.wants(f"a file before a program that {what}", (status, []), (given.status, os.listdir(name)))
            for file, _ in made:
                file.close()

    def outputs(self):
        """An output that takes nothing is a fault, and nothing in a name is obeyed by a terminal."""
        with tempfile.TemporaryDirectory(dir=self.trial.folder) as name:
            words = [sys.executable, "-B", TOOL, "--abt", self.trial.program, "--role", "net", "--events", "20", "--to", f"{name}/out.toml"]
            for to in ("&-", "/dev/full"):
                for command in (ENDS, [sys.executable, "-B", self.trial.folder / "net.py"]):
                    given = run("sh", ["-c", f'exec "$@" >{to}', "", *words, "--", *command], timeout=300)
                    self.trial.wants(f"an output to {to} of {command[-1]}", End(1, "", "fault: write\n"), given)
                given = run("sh", ["-c", f'exec "$@" >{to}', "", sys.executable, "-B", TOOL, "--list-roles"], timeout=300)
                self.trial.wants(f"a list of roles to {to}", End(1, "", "fault: write\n"), given)
            odd = Path(name) / "a\x1b[2J\n\u202eb\udcff.toml"
            given = self.conform("--role", "net", "--whole", "--to", odd, command=ENDS)
            shown = f"{name}/a?[2J??b?.toml"
            last = re.findall(r"^all: (.*), \d+ events?; abt explain (.*)$", given.output, re.M)
            self.trial.wants("an odd name that is written", (1, [(shown, shown)], ""), (given.status, last, given.told))
            odd.write_text("mine")
            given = self.conform("--role", "net", "--to", odd, command=ENDS)
            told = f"{shown} wasn't written by abt conform: move it away, or name another file by --to\n"
            self.trial.wants("an odd name that is refused", (2, told), (given.status, given.told.split("error: ")[-1]))
            given = self.conform("--role", "net", command=["./no\x1b[2J\nprogram"])
            self.trial.wants("an odd name of a program", End(1, "", f"fault: ./no?[2J?program {UNSTARTED}"), given)
            given = self.conform("--role", "net", "--whole", "--to", f"{name}/told.toml", command=[sys.executable, "-c", CLEARS])
            self.trial.wants("an odd answer", (1, True, False), (given.status, "yours ?[2J" in given.output, "\x1b" in given.output))

    def stopped(self):
        """A signal ends the tool, the program that it tests and what that started."""
        mark = f"{self.mark}-stopped"
        begun = f"import subprocess, sys, time; subprocess.Popen([sys.executable, '-c', 'import time; time.sleep(1000)', '{mark}-child'])"
        body = f"{begun}; time.sleep(1000)"
        words = [sys.executable, "-B", TOOL, "--abt", self.trial.program, "--role", "net", "--fifos", "--timeout", "100", "--"]
        words, environment = [*words, sys.executable, "-c", body, mark], {**os.environ, "TMPDIR": str(self.trial.folder)}
        started = subprocess.Popen(words, env=environment, stderr=subprocess.DEVNULL)
        until = time.time() + 60
        while not with_mark(f"\0{mark}-child") and time.time() < until:
            time.sleep(0.1)
        started.send_signal(signal.SIGTERM)
        self.trial.wants("the status of one that is stopped", (128 + signal.SIGTERM,), (started.wait(60),))
        self.trial.wants("what is left of one that is stopped", (), alive(mark))

    def cut(self):
        """Where the time to make events fewer ran out, that is told."""
        for role in ("port", "net"):
            to = self.trial.folder / f"{role}-cut"
            given = self.conform("--role", role, "--seed", "1", "--shrink", "0", "--to", to, fault=FAULTS[role][0], command=self.adapter(role))
            told = re.findall(r"^smallest within 0 s: \S+, \d+ (?:cell|event)s?; abt ", given.output, re.M)
            self.trial.wants(f"no time for a smaller {role}", (1, 1), (given.status, len(told)))

    def words(self):
        for words in ([], ["--role", "net"], ["--role", "switch", "--", "true"], ["--role", "net", "--events", "0", "--", "true"]):
            given = run(sys.executable, ["-B", TOOL, *words])
            self.trial.wants(f"the words {words}", (2, "", True), (given.status, given.output, "abt conform: error: " in given.told))
        listed = run(sys.executable, ["-B", TOOL, "--list-roles"])
        lines = listed.output.splitlines()
        fits = len(lines) <= 40 and all(len(line) <= 80 for line in lines)
        self.trial.wants("the list of roles, on one screen", (0, True), (listed.status, fits))


def look(trial, seeds):
    over = Conforms(trial, seeds)
    faults = [(role, fault, seed) for seed in range(1, seeds + 1) for role in FAULTS for fault in FAULTS[role]]
    parts = [*((over.right, role) for role in FAULTS), *((over.bad, name) for name in BAD)]
    parts += [*((over.breaks, name) for name in BREAKS), (over.driver,), (over.never_ends,), (over.stopped,), (over.cut,), (over.words,)]
    parts += [(over.refused_files,), (over.own_files,), (over.outputs,)]
    with ThreadPoolExecutor(max(2, os.cpu_count() or 2)) as pool:
        done = [pool.submit(*part) for part in parts + [(over.found, *fault) for fault in faults]]
        for one in done:
            one.result()
    trial.wants("folders that are left", (), sorted(it.name for it in trial.folder.iterdir() if it.is_dir()))
    return f"{len(FAULTS)} adapters, {len(faults)} faults, {len(BAD) + len(BREAKS) + 2} bad programs"


if __name__ == "__main__":
    SEEDS = 1
    if "--seeds" in sys.argv:
        at = sys.argv.index("--seeds")
        SEEDS = int(sys.argv[at + 1])
        del sys.argv[at : at + 2]
    main(lambda trial: look(trial, SEEDS))
