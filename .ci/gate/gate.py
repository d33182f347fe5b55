"""The gate: the tests without a proof, the proof of everything from nothing, the program as each compiler built it, and the evidence.

CONTRIBUTING.md, "The gate", says what each part is. It works on a copy of the checkout, so a run that is interrupted changes nothing
here. After a run without a failure the proved program stands in crates/abt/out. The last line is `N passed, M failed`.

usage: .ci/run                     tries what the evidence doesn't know, and what is drawn
       .ci/run --all [K/N]         tries all edits and proves all tests, or the K-th of N shares of them
       .ci/run --deep [K/N]        the same with each edit in a check of its own
       .ci/run --write             (with any of these) writes the evidence of this run into .ci/evidence
"""
import argparse
import os
import random
import re
import resource
import shutil
import subprocess
import sys
import threading
import time
from concurrent.futures import ThreadPoolExecutor
from pathlib import Path

TOP = Path(__file__).resolve().parents[2]
sys.path.insert(0, str(TOP / "tools"))
import processes  # noqa: E402
from crates import below, of_tests  # noqa: E402
from edits import share  # noqa: E402
from ledger import Ledger  # noqa: E402

# How many known edits are drawn, at least.
DRAWN = 150
# So many seconds after the gate's beginning no more crates of drawn edits are begun: a machine that is so slow wouldn't end in time.
DRAWN_WITHIN = 120 * 60
# How many of the last lines of a part that failed are told once more at the end.
TOLD = 10
COUNTS = re.compile(r"(\d+) passed, (\d+) failed")
FAILURE = re.compile(r"FAILED|NOT PROVED|NOT REFUSED|BAD EDIT")
SCRIPT = [sys.executable, "-B"]


class Failed(Exception):
    """The gate ends here: what comes next has nothing to stand on."""


class Gate:
    def __init__(self, words, room):
        self.words, self.room, self.copy = words, Path(room), Path(room, "copy")
        self.jobs = len(os.sched_getaffinity(0))
        self.passed, self.failed, self.failures = 0, 0, []
        self.began, self.lock = time.time(), threading.Lock()

    def say(self, text):
        with self.lock:
            print(f"gate: {text}", flush=True)

    def fail(self, what):
        with self.lock:
            self.failed += 1
            self.failures.append(what)
        self.say(f"FAILED: {what}")

    def run(self, name, words, is_counted=False):
        """Runs a command in the copy and shows what it printed when it has ended; where it fails, that counts. A command that is counted
        ends with a line `N passed, M failed`, whose numbers count. Gives whether all is well."""
        began, told = time.time(), ""
        started = processes.start(words, self.copy, subprocess.PIPE)
        for line in started.stdout:
            told += (line := line.decode(errors="replace"))
            if is_counted and not COUNTS.fullmatch(line.strip()):
                with self.lock:
                    print(line, end="", flush=True)
        processes.ended(started)
        counts = COUNTS.fullmatch(told.rstrip("\n").split("\n")[-1]) if is_counted else None
        passed, failed = map(int, counts.groups()) if counts else (0, 0)
        with self.lock:
            print("" if is_counted else told, end="", flush=True)
            self.passed, self.failed = self.passed + passed, self.failed + failed
            self.failures += [line for line in told.split("\n") if is_counted and FAILURE.search(line)]
        is_well = started.returncode == 0 and bool(counts) == is_counted
        if not is_well and not failed:
            how = f"{name} ended with status {started.returncode}" + ", without its counts" * (is_counted and not counts)
            self.fail("\n".join([how, *told.rstrip("\n").split("\n")[-TOLD:]]))
        used = resource.getrusage(resource.RUSAGE_CHILDREN)
        minutes = [spent / 60 for spent in (time.time() - began, time.time() - self.began, used.ru_utime + used.ru_stime)]
        self.say("{}: {:.1f} minutes; in all {:.1f}, of processors {:.1f}".format(name, *minutes))
        return is_well

    def script(self, file, *more, is_counted=False):
        return self.run(" ".join((Path(file).stem, *(Path(word).name for word in more))), [*SCRIPT, file, *more], is_counted)

    def make_copy(self):
        """A copy of the checkout, without what was built."""

        def left_out(at, names):
            return {".git", "__pycache__", *(["out"] if Path(at).parent.name == "crates" else [])}.intersection(names)

        shutil.copytree(TOP, self.copy, ignore=left_out, symlinks=True)

    def test(self):
        """The tests without a proof. What they left in out/ is no concern of the proof."""
        if not self.run("abt --test", ["./abt", "--test"], is_counted=True):
            raise Failed
        shutil.rmtree(self.copy / "crates" / "abt" / "out")

    def chosen_tests(self, ledger):
        """The crates of tests that this run proves, and those that it doesn't, with those that only these stand on."""
        crates, tests = ledger.crates, ledger.with_tests()
        if self.words.all:
            first, every = self.words.all
            chosen = tests[first - 1 :: every]
        else:
            chosen = sorted({*tests} - {*ledger.known_tests()} | {*ledger.drawn_tests(self.words.seed)})
        self.say(f"of {len(tests)} crates of tests these are proved: {' '.join(chosen) or 'none'}")
        return chosen, of_tests(crates).difference(chosen, *(below(crates, top) for top in chosen))

    def prove(self):
        """Proves every crate from nothing, with the chosen crates of tests; without must-fail edits."""
        ledger = Ledger(self.copy)
        chosen, left_out = self.chosen_tests(ledger)
        aside = [crate.folder / "must-fail" for crate in ledger.crates.values() if (crate.folder / "must-fail").is_dir()]
        aside += [ledger.crates[name].folder for name in left_out]
        file = self.copy / "crates.txt"
        listed = file.read_text()
        kept = [line for line in listed.split("\n") if not {*line.partition(":")[0].split()[:1]} & left_out]
        for number, folder in enumerate(aside):
            shutil.move(folder, self.room / f"aside{number}")
        file.write_text("\n".join(kept))
        is_well = self.run("rt ci", ["rt", "ci"], is_counted=True)
        file.write_text(listed)
        for number, folder in reversed([*enumerate(aside)]):
            shutil.move(self.room / f"aside{number}", folder)
        if not is_well:
            raise Failed
        if self.words.write:
            ledger = Ledger(self.copy)
            for name in chosen:
                ledger.write(name, {}, tests=True)

    def programs(self):
        built = self.copy / "crates" / "abt" / "out"
        return [str(file) for file in (built / "abt", built / "abt.by-rattle") if os.access(file, os.X_OK)]

    def edits(self):
        more = ["--jobs", str(self.jobs), *["--write"] * self.words.write, *["--alone"] * self.words.deep]
        if self.words.all:
            more += ["--share", "/".join(map(str, self.words.all))]
        else:
            more += ["--new", "--draw", str(DRAWN), "--seed", self.words.seed, "--until", str(self.began + DRAWN_WITHIN)]
        self.script(".ci/gate/edits.py", *more, is_counted=True)

    def beside(self):
        """All that needs the proof, but for the edits: one after the other, or two where there are four processors."""
        tasks = [(".ci/gate/c_library.py", "--as-built"), ("tools/sweeps", "--every", "7"), (".ci/gate/must_not_compile.py",)]
        tasks += [(".ci/gate/test_edits.py",), (".ci/gate/test_ledger.py",)]
        asking = [file for file in (self.copy / "tests").glob("*.py") if re.search(r"^usage: \S+ \[?PROGRAM", file.read_text(), re.M)]
        tasks += [(str(file.relative_to(self.copy)), program) for file in sorted(asking) for program in self.programs()]
        with ThreadPoolExecutor(max(1, self.jobs // 2)) as pool:
            list(pool.map(lambda task: self.script(*task), tasks))

    def check(self):
        """The parts in order; those behind the proof side by side."""
        version = subprocess.run(["rt", "version"], capture_output=True, text=True).stdout.strip()
        self.say(f"{version}, {self.jobs} processors, drawn by {self.words.seed}")
        self.make_copy()
        self.test()
        self.prove()
        with ThreadPoolExecutor(2) as pool:
            list(pool.map(lambda part: part(), (self.edits, self.beside)))

    def hand_over(self):
        """Puts the proved program and the proved library for C into the checkout."""
        out, library = TOP / "crates" / "abt" / "out", Path("crates", "abt_c", "out", "libabt_c.a")
        out.mkdir(exist_ok=True)
        shutil.copy2(self.programs()[0], out / "abt")
        if (self.copy / library).is_file():
            (TOP / library).parent.mkdir(exist_ok=True)
            shutil.copyfile(self.copy / library, TOP / library)
        (out / "abt.built").touch()
        os.utime(out / "abt.built", (self.began, self.began))

    def hand_over_evidence(self):
        made, kept = (top / ".ci" / "evidence" for top in (self.copy, TOP))
        if self.words.write and made.is_dir():
            shutil.rmtree(kept, ignore_errors=True)
            shutil.copytree(made, kept)


def seed_of(top):
    """The name of the commit, by which what is drawn is drawn; of a tree without one a word of chance."""
    git = subprocess.run(["git", "-C", str(top), "rev-parse", "HEAD"], capture_output=True, text=True)
    return git.stdout.strip() if git.returncode == 0 else f"{random.SystemRandom().getrandbits(64):016x}"


def arguments():
    reader = argparse.ArgumentParser(prog=".ci/run", description=__doc__, formatter_class=argparse.RawDescriptionHelpFormatter)
    for name, told in (("--all", "all edits and all tests' proofs"), ("--deep", "the same, with each edit in a check of its own")):
        reader.add_argument(name, nargs="?", type=share, const=(1, 1), metavar="K/N", help=told)
    reader.add_argument("--write", action="store_true", help="write the evidence of this run")
    words = reader.parse_args()
    words.all, words.deep = words.all or words.deep, bool(words.deep)
    words.seed = seed_of(TOP)
    return words


def main():
    words = arguments()
    if not shutil.which("rt"):
        sys.exit("gate: the command rt of the Rattle kit isn't on PATH")
    processes.end_on_signals("gate")
    gate = Gate(words, processes.room(None, "gate-"))
    try:
        gate.check()
        if not gate.failed:
            gate.hand_over()
    except Failed:
        pass
    finally:
        gate.hand_over_evidence()
        processes.clear_rooms()
    # Once more what failed, so that it stands where a log is read first.
    if gate.failed:
        print("gate: what failed:", *(failure[:2000] for failure in gate.failures), sep="\n")
    print(f"{gate.passed} passed, {gate.failed} failed")
    sys.exit(1 if gate.failed else 0)


if __name__ == "__main__":
    main()
