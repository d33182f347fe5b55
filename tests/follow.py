"""`abt audit --follow` over files that are written while it runs: by this script, line by line, and by live processes (tests/network.py).

What is told, and what it ends by, has to be as tests/cases/follow.toml says; it ends by a line, by signals and by itself, and nothing of it
is left when it is killed. Journals of live processes whose sources are killed with -9 never give another answer than that they are woven so
far, or wait, and at the end they are woven and safe; with a store that is put back they aren't. One of their logs that is judged alone
obeys as it grows.

usage: follow.py PROGRAM..
"""
import contextlib
import json
import os
import re
import select
import shlex
import signal
import subprocess
import sys
import tempfile
import time
from concurrent.futures import ThreadPoolExecutor
from pathlib import Path

from harness import ROOT, End, case_file, files_in, main, run, scenario, section, worked
from network import CONNECTIONS, PORTS, Run

TOOL = ROOT / "tools" / "follow.py"
# How long anything is waited for, in seconds, and for how long the files of a case stay still.
LIMIT, IDLE = 60, 2
# The journals of tests/network.py, below its folder.
NAMES = [*(f"run/port{it}.jsonl" for it in range(len(PORTS))), *(f"run/source{it}.jsonl" for it in range(len(CONNECTIONS)))]


class Follow:
    """A run of the tool."""

    def __init__(self, program, words, folder):
        words = [sys.executable, "-B", TOOL, "--abt", program, "--follow", *map(str, words)]
        streams = {name: subprocess.PIPE for name in ("stdin", "stdout", "stderr")}
        self.process, self.told = subprocess.Popen(words, cwd=folder, bufsize=0, **streams), ""

    def hears(self, wanted):
        """Whether this is told next."""
        until = time.monotonic() + LIMIT
        while len(self.told) < len(wanted) and time.monotonic() < until:
            if select.select([self.process.stderr], [], [], 1)[0]:
                octets = os.read(self.process.stderr.fileno(), 65536)
                if not octets:
                    break
                self.told += octets.decode()
        given, self.told = self.told[: len(wanted)], self.told[len(wanted) :]
        return given == wanted or given

    def say(self, text):
        self.process.stdin.write(text.encode())

    def end(self, number=None):
        """How it ends, by itself or by a signal."""
        if number is not None:
            self.process.send_signal(number)
        output, told = self.process.communicate(timeout=LIMIT)
        return End(self.process.returncode, output.decode(), self.told + told.decode())


class Followed:
    def __init__(self, trial):
        self.trial, self.cases = trial, case_file("follow")
        self.lines = self.cases["lines"]

    def room(self):
        return Path(tempfile.mkdtemp(dir=self.trial.folder))

    def begin(self, folder, *words, program=None):
        self.trial.runs += 1
        return Follow(program or self.trial.program, words, folder)

    def put(self, folder, name, line):
        with open(folder / name, "a") as file:
            file.write(f"{self.lines[line]}\n" if line in self.lines else line)

    def case(self, case):
        folder = self.room()
        words = shlex.split(case["files"])
        (first, line, told), *steps = case["steps"]
        self.put(folder, first, line)
        follow = self.begin(folder, *([] if "--idle" in words else ["--idle", IDLE]), *words)
        absent = [name for name in words if name.endswith(".jsonl") and name != first]
        note = '{"kind":"note","note":"absent","file":"%s"}\n' if "--json" in words else "%s: it isn't there yet\n"
        absent = [note % name for name in absent]
        self.trial.wants(f"{case['what']}, {line}", [True], [follow.hears("".join(absent) + told)])
        for name, line, told in steps:
            self.put(folder, name, line)
            self.trial.wants(f"{case['what']}, {line}", [True], [follow.hears(told)])
        written = {name for name, *_ in case["steps"]}
        wanted = End(case.get("status", 0), case.get("output", ""), case.get("told", "").removeprefix("\n"))
        self.trial.wants(case["what"], wanted, follow.end())
        self.trial.wants(f"{case['what']}, the files", sorted(case.get("makes", [])), sorted(files_in(folder).keys() - written))

    def ends(self):
        """A line `end`, or a signal, has it give its last answer, whatever else the input has, and also if the input has ended."""
        for how in ("end\n", "go on\nend\n", signal.SIGINT, signal.SIGTERM, signal.SIGHUP):
            folder = self.room()
            self.put(folder, "log.jsonl", "net")
            self.put(folder, "log.jsonl", "told")
            follow = self.begin(folder, "--idle", 600, "log.jsonl")
            waits = "waits for yes 1 of connection 0 at its source: no message with number 1 lies at any hop"
            entry = f"log.jsonl:2: {self.lines['told']}\nwhy: {waits}\n"
            self.trial.wants(f"before {how!r}", [True], [follow.hears(f"waits\n{entry}")])
            if isinstance(how, str):
                follow.say(how)
            else:
                follow.process.stdin.close()
                follow.process.stdin = None
            given = follow.end(None if isinstance(how, str) else how)
            self.trial.wants(f"ended by {how!r}", End(1, "", f"fault: NoOrder\n{entry}"), given)

    def changed(self):
        """A file that shrinks, is replaced or goes away can't be followed further."""
        for what, change, why in [
            ("shrinks", lambda log: os.truncate(log, 10), "it shrank from 148 octets to 10"),
            ("is replaced", lambda log: os.replace(log.with_name("other.jsonl"), log), "another file has taken its place"),
            ("is removed", os.unlink, "it isn't there any more"),
        ]:
            folder = self.room()
            for name, line in [("log.jsonl", "net"), ("log.jsonl", "start"), ("other.jsonl", "net")]:
                self.put(folder, name, line)
            follow = self.begin(folder, "--idle", 600, "log.jsonl")
            self.trial.wants(f"before a file {what}", [True], [follow.hears("woven 1 events\n")])
            change(folder / "log.jsonl")
            self.trial.wants(f"a file that {what}", End(1, "", f"fault: log.jsonl: {why}\n"), follow.end())

    def no_file(self):
        """What is no regular file isn't followed, and doesn't hold it up."""
        folder = self.room()
        os.mkfifo(folder / "fifo")
        for name in (".", "fifo"):
            given = self.begin(folder, "--idle", 600, name).end()
            self.trial.wants(f"no regular file, {name}", End(1, "", f"fault: {name}: it is no regular file\n"), given)

    def odd_names(self):
        """What a terminal would obey in a name is shown as a question mark."""
        folder = self.room()
        self.put(folder, "log.jsonl", "net")
        odd = "a\x1b[2J\n\u202eb"
        follow = self.begin(folder, "--idle", 600, "log.jsonl", f"{odd}.jsonl")
        wanted = "a?[2J??b.jsonl: it isn't there yet\nwoven 0 events\n"
        self.trial.wants("an odd name that isn't there", [True], [follow.hears(wanted)])
        os.mkfifo(folder / f"{odd}.jsonl")
        self.trial.wants("an odd name", End(1, "", "fault: a?[2J??b.jsonl: it is no regular file\n"), follow.end())
        given = self.begin(folder, f"{odd}.toml", "log.jsonl").end()
        self.trial.wants("an odd net", End(1, "", "fault: a?[2J??b.toml: it can't be read: No such file or directory\n"), given)

    def taken_back(self):
        """A source that starts again takes a last line away that was cut, and goes on."""
        folder = self.room()
        for line in ("net", "start", "about"):
            self.put(folder, "log.jsonl", line)
        size = (folder / "log.jsonl").stat().st_size
        follow = self.begin(folder, "--idle", IDLE, "log.jsonl")
        self.trial.wants("before a line is cut", [True], [follow.hears("woven 1 events\n")])
        self.put(folder, "log.jsonl", self.lines["ask"][:50])
        time.sleep(0.5)
        os.truncate(folder / "log.jsonl", size)
        self.put(folder, "log.jsonl", "ask")
        self.trial.wants("a line that is taken back", [True], [follow.hears("woven 2 events\n")])
        self.trial.wants("the end behind a line that is taken back", End(0, "woven\nsafe\n"), follow.end())

    def fake(self, folder, body):
        """A program that is asked for an audit and behaves badly, with the name of the trial's folder in its own."""
        fake = folder / "abt"
        fake.write_text(f"#!{sys.executable}\nimport os, sys, time\nif sys.argv[1] == 'audit' and sys.argv[-1] != 'audit': {body}\n")
        fake.chmod(0o755)
        self.put(folder, "log.jsonl", "net")
        return fake

    def scenario(self):
        """A scenario stands in place of the net's line, whatever else it has; what is none is a fault. And the net's line of a scenario
        is had as the pages say."""
        folder = self.room()
        text = scenario([512000], ["start 0 0"], [section(100, script=["start 0"])])
        (folder / "net.toml").write_text(text)
        for line in ("start", "about", "ask", "request"):
            self.put(folder, "log.jsonl", line)
        follow = self.begin(folder, "--idle", IDLE, "net.toml", "log.jsonl")
        self.trial.wants("a scenario's net", [True], [follow.hears("woven 3 events\n")])
        self.trial.wants("a scenario's net, at the end", End(0, "woven\nsafe\n"), follow.end())
        for what, why in self.cases["scenarios"].items():
            (folder / "net.toml").write_text(what)
            given = self.begin(folder, "--idle", 600, "net.toml", "log.jsonl").end()
            self.trial.wants(f"a net of {what!r}", End(1, "", f"fault: {why}\n"), given)
        (folder / "NET.toml").write_text(text)
        for page in ("ORACLE.md", "LIVE.md", "JOURNALS.md"):
            [words] = worked(page, r"^\$ (?:\./)?abt (threads NET\.toml .*? && head -n 1 run\.jsonl >net\.jsonl)$")
            self.trial.runs += 1
            done = subprocess.run(["sh", "-c", f'"$0" {words}', self.trial.program], cwd=folder, capture_output=True, timeout=LIMIT)
            given = (folder / "net.jsonl").read_text() if done.returncode == 0 else done.stderr
            self.trial.wants(f"the net's line as {page} has it", [f"{self.lines['net']}\n"], [given])
            (folder / "net.jsonl").unlink()

    def dies(self):
        for body, told in {"os.kill(os.getpid(), 9)": "fault: abt audit was ended by SIGKILL\n", "sys.exit('lost')": "lost\n"}.items():
            folder = self.room()
            given = self.begin(folder, "--idle", 600, "log.jsonl", program=self.fake(folder, body)).end()
            self.trial.wants(f"a program that does {body}", End(1, "", told), given)
        folder = self.room()
        self.fake(folder, "pass").write_text("#!/bin/sh\necho none >&2\nexit 70\n")
        self.trial.wants("no program", End(70, "", "none\n"), self.begin(folder, "log.jsonl", program=folder / "abt").end())

    def killed(self):
        """Whatever kills it while a program audits, nothing of it is left."""
        for numbers, status in [((signal.SIGKILL,), -signal.SIGKILL), ((signal.SIGTERM, signal.SIGINT), 128 + signal.SIGINT)]:
            folder = self.room()
            follow = self.begin(folder, "log.jsonl", program=self.fake(folder, "time.sleep(1000)"))
            mark = f"{folder}/abt\0audit\0--events"
            self.trial.wants("a program at work", [True], [waited(lambda: with_mark(mark))])
            for number in numbers:
                follow.process.send_signal(number)
                time.sleep(0.5)
            self.trial.wants(f"killed by {numbers}", [status], [follow.end().status])
            self.trial.wants(f"what {numbers} leave", [True], [waited(lambda: not with_mark(mark))])
            self.trial.wants(f"the files that {numbers} leave", ["abt", "log.jsonl"], sorted(files_in(folder)))

    def live(self, seed, steps, names=NAMES, alone=(), **control):
        """Live processes at work, whose sources are killed, and which are all killed at the end."""
        folder = self.room()
        (folder / "net.jsonl").write_text(json.dumps({"net": {"ports": PORTS, "connections": CONNECTIONS}}) + "\n")
        follow = self.begin(folder, "--idle", 600, *alone, "net.jsonl", *names)
        at_work = Run(self.trial.program, folder / "run", seed, **control)
        for _ in range(steps):
            at_work.step()
        for live in [*(source.live for source in at_work.sources), *at_work.switches]:
            live.kill()
        # Of one that is wrong it has ended by itself, perhaps.
        with contextlib.suppress(BrokenPipeError):
            follow.say("end\n")
        return at_work, follow.end()

    def live_right(self):
        at_work, given = self.live(7, 8000)
        # What a kill cut is told behind the answer.
        output = re.sub(r"^note: text \d ends in the middle of line \d+\n", "", given.output, flags=re.M)
        woven = [int(it) for it in re.findall(r"^woven (\d+) events$", given.told, re.M)]
        rest = re.sub(r"^(woven \d+ events|waits|why: .*|run/\w+\.jsonl:(\d+: \{.*\}| it isn't there yet))\n", "", given.told, flags=re.M)
        self.trial.wants("live processes", (0, "woven\nsafe\n", ""), (given.status, output, rest))
        looks = len(re.findall("^(?:woven|waits)", given.told, re.M))
        # How many looks there are depends on the machine: one while they run, and one behind them, are wanted.
        self.trial.wants("live processes, what is woven", [sorted(set(woven)), True], [woven, looks > 1])
        return f"{looks} looks at live processes with {at_work.count['kills']} kills"

    def live_wrong(self):
        _, given = self.live(100, 3000, puts_back=True)
        self.trial.wants("a store that is put back", (1, ""), (given.status, given.output))

    def live_alone(self, log, *alone):
        """The log of a live port or source by itself: no other log is needed, and what is judged rises to the last."""
        _, given = self.live(7, 2000, [f"run/{log}.jsonl"], alone)
        whose = alone[0][2:]
        last = re.match(rf"{whose} 0 obeys: entries (\d+)\n(?:note: text 2 ends in the middle of line \d+\n)?$", given.output)
        rest = re.sub(rf"^({whose} 0 obeys: entries \d+|run/{log}.jsonl: it isn't there yet)\n", "", given.told, flags=re.M)
        judged = [int(it) for it in re.findall(r" entries (\d+)$", given.told, re.M)]
        self.trial.wants(f"a live {whose} alone", (0, True, ""), (given.status, last is not None, rest))
        rises = judged == sorted(set(judged)) and last is not None and int(last[1]) > 0
        self.trial.wants(f"a live {whose} alone, what is judged: {judged}", [True], [rises])

    def words(self):
        for words, told in self.cases["refused"].items():
            given = run(sys.executable, ["-B", TOOL, "--abt", self.trial.program, *shlex.split(words)], folder=self.trial.folder)
            self.trial.wants(f"the words {words}", (2, "", told), (given.status, given.output, given.told.rstrip("\n").split("\n")[-1]))
        given = run(ROOT / "abt", ["audit", "log.jsonl", "--follow", "--help"])
        self.trial.wants("the script's help", (0, True), (given.status, given.output.startswith("usage: abt audit --follow NET")))


def with_mark(mark):
    """Whether a process with this among its words is there."""
    for folder in Path("/proc").iterdir():
        with contextlib.suppress(OSError):
            if folder.name.isdecimal() and mark.encode() in (folder / "cmdline").read_bytes():
                return True
    return False


def waited(holds):
    until = time.monotonic() + LIMIT
    while not holds() and time.monotonic() < until:
        time.sleep(0.05)
    return holds()


def look(trial):
    over = Followed(trial)
    parts = [*((over.case, case) for case in over.cases["case"]), (over.ends,), (over.changed,), (over.no_file,), (over.taken_back,)]
    parts += [(over.odd_names,), (over.live_alone, "port0", "--port", 0), (over.live_alone, "source0", "--source", 0)]
    parts += [(over.scenario,), (over.dies,), (over.killed,), (over.words,), (over.live_wrong,)]
    with ThreadPoolExecutor(4) as pool:
        live = pool.submit(over.live_right)
        for part in [pool.submit(*part) for part in parts]:
            part.result()
    return f"{len(over.cases['case'])} cases, {live.result()}"


if __name__ == "__main__":
    main(look)
