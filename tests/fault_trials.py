"""Runs of a command in which something fails, and whether they end as docs/FORMATS.md, "The program", has it."""
import re
import resource
import subprocess
import tempfile
from collections import Counter
from concurrent.futures import ThreadPoolExecutor
from dataclasses import dataclass, field
from itertools import count, islice
from pathlib import Path
from typing import NamedTuple

from harness import SCENARIOS

# A run in threads is long where a source waits for answers that can't come, and longer on a machine with much other work.
SECONDS = 120
MEMORY, READ, WRITE, THREAD = (f"fault: {name}\n" for name in ("memory", "read", "write", "Thread"))
# What `abt threads` prints, as far as it came.
LINES = ("", "gathered\n", "gathered\nwoven\n")
# The events of a run in threads that are told: how many, a line for each, and more lines that are no fault's and not a check's last one.
EVENTS = re.compile(r"events: (\d+), granted: \d+, refused: \d+\n((?:\d+ .*\n)*)(?:(?!faults?:).*\n)*")
TOLD = "events\n"
# An audit that couldn't read its input, as JSON.
OBJECT = re.compile(r'\{"kind":"text","file":"[^"]+","line":[1-9]\d*,"fault":"read"\}\n')


class End(NamedTuple):
    """How a run ended: what it printed, what it told on standard error, its status (that of a crash is below 0), and the files it
    left."""

    output: str
    told: str
    status: int
    files: dict = {}


HANG = End("", f"no end after {SECONDS} seconds", -99)


def may_be_out(command, plain, end):
    """Whether what was printed may have gone out before a fault: nothing, some lines of a run in threads, or the first answers to
    lines."""
    if command.answers_lines():
        return plain.output.startswith(end.output) and end.output[-1:] in ("", "\n")
    return end.output in (LINES if command.words[:1] == ("threads",) else LINES[:1])


def is_of_memory(command, plain, end, descriptor):
    allowed = [plain]
    if command.has_threads():
        allowed.append(End("", THREAD, 1))
    if command.draws_journals():
        # The picture comes behind what is printed; and it is drawn though the words of a fault were refused memory.
        allowed += [End(plain.output, told, 1) for told in (MEMORY, plain.told + MEMORY)] + [End("", MEMORY, 1, plain.files)]
    if command.tells_threads():
        check = plain.told.removeprefix(TOLD)
        allowed += [End(lines, fault + check, 1) for lines in LINES for fault in (MEMORY, THREAD)]
        allowed += [End(plain.output, told, 0) for told in (MEMORY + check, TOLD + MEMORY)]
    has_all_answers = command.answers_lines() and end.output == plain.output != ""
    return end in allowed or may_be_out(command, plain, end) and not has_all_answers and end[1:] == (MEMORY, 1, {})


def is_unread(command, plain, end, descriptor):
    """An audit names the text and the line (docs/JOURNALS.md, "Faults")."""
    if command.words[:1] == ("audit",) and "--json" in command.words:
        return OBJECT.fullmatch(end.output) is not None and end[1:] == ("", 1, {})
    told = re.sub(r"^fault: \S+:[1-9]\d*: read$", "fault: read", end.told) if command.words[:1] == ("audit",) else end.told
    return may_be_out(command, plain, end) and (told, *end[2:]) == (READ, 1, {})


def lacks_some(text, whole):
    """Whether a text is another one but for some octets that are missing at one place: what is told in pieces goes on behind one."""
    return len(text) < len(whole) and any(whole.startswith(text[:at]) and whole.endswith(text[at:]) for at in range(len(text) + 1))


def is_unwritten(command, plain, end, descriptor):
    """A fault that can't be told changes no status. That a file can't be written is told behind all else."""
    if end.files not in ({}, plain.files):
        return False
    if descriptor > 2:
        return end[:3] == (plain.output, plain.told + WRITE, 1)
    if descriptor == 2:
        return end.output == plain.output and lacks_some(end.told, plain.told) and end.status == plain.status
    return plain.output.startswith(end.output) and end.output != plain.output and end[1:3] == (WRITE, 1)


def is_untold(command, plain, end, descriptor):
    """Nothing more can be written, so that the failed write can't be told either."""
    if descriptor > 2:
        return end[:3] == (plain.output, plain.told, 1) and end.files in ({}, plain.files)
    return is_unwritten(command, plain, end._replace(told=WRITE) if descriptor == 1 and not end.told else end, descriptor)


def is_unstarted(command, plain, end, descriptor):
    return end == End("", THREAD, 1)


def is_plain(command, plain, end, descriptor):
    return end == plain


@dataclass(frozen=True)
class Kind:
    """What fails: the right ends, and by which variables of tools/faults.c; `numbered` says which call."""

    is_right: callable
    numbered: str = ""
    more: dict = field(default_factory=dict)


LASTING, SHORT, INTERRUPTED = ({f"FAULTS_{name}": "1"} for name in ("LASTING", "SHORT", "INTERRUPTED"))
# One call fails, and with LASTING each one after it; reads and writes take one octet each; every other one is interrupted.
KINDS = {
    "allocation": Kind(is_of_memory, "FAULTS_ALLOCATION"),
    "memory": Kind(is_of_memory, "FAULTS_ALLOCATION", LASTING),
    "read": Kind(is_unread, "FAULTS_READ"),
    "octet-read": Kind(is_unread, "FAULTS_READ", SHORT),
    "write": Kind(is_unwritten, "FAULTS_WRITE"),
    "octet-write": Kind(is_unwritten, "FAULTS_WRITE", SHORT),
    "closed": Kind(is_untold, "FAULTS_WRITE", LASTING),
    "thread": Kind(is_unstarted, "FAULTS_THREAD"),
    "short": Kind(is_plain, "", SHORT),
    "interrupted": Kind(is_plain, "", INTERRUPTED),
    "short-interrupted": Kind(is_plain, "", SHORT | INTERRUPTED),
}


def in_short(told):
    """What is told of a run in threads, with one word for its events where they are told whole."""
    events = EVENTS.match(told)
    return TOLD + told[events.end() :] if events and int(events[1]) == events[2].count("\n") > 0 else told


def run(program, command, environment=None, kibibytes=None):
    """How a command ends, with this environment and, if it is given, on a stack of so many kibibytes. Runs in threads go otherwise each
    time: that what they tell and draw is whole must do."""
    limit = kibibytes and (lambda: resource.setrlimit(resource.RLIMIT_STACK, (kibibytes * 1024, resource.RLIM_INFINITY)))
    how = {"cwd": SCENARIOS, "capture_output": True, "timeout": SECONDS, "env": environment or {}, "preexec_fn": limit}
    with tempfile.TemporaryDirectory(prefix="faults.") as folder:
        try:
            done = subprocess.run([program, *command.words_in(folder)], input=command.text, **how)
        except subprocess.TimeoutExpired:
            return HANG
        files = {file.name: file.read_text() for file in Path(folder).iterdir()}
    output, told = (text.decode(errors="backslashreplace") for text in (done.stdout, done.stderr))
    if command.has_threads():
        files = {name: text.endswith(("</svg>\n", "</html>\n")) for name, text in files.items()}
    return End(output, in_short(told) if command.tells_threads() else told, done.returncode, files)


class Sweep:
    """The trials of one program, so many at a time, and what they came to; of the places of a fault only the first of each `every`."""

    def __init__(self, program, faults, jobs, every=1):
        self.program, self.faults, self.jobs, self.every = program, faults, jobs, every
        self.pool, self.tried, self.told = ThreadPoolExecutor(jobs), Counter(), Counter()

    def trial(self, command, kind, number):
        """How a command ends, and the descriptor of the call that failed, or None where it hasn't so many."""
        variables = {**kind.more, **({kind.numbered: str(number)} if kind.numbered else {})}
        end, descriptor = self.faults.during(variables, lambda environment: run(self.program, command, environment))
        return number, end, descriptor if kind.numbered else 0

    def sweep(self, command, name, most=None):
        """Tries a kind of fault at each of its places, or at a share of them, up to the first at which the run doesn't end. Gives the
        runs that fall short: the command, the place, how it ended, and how it ends without a fault."""
        kind, (plain, _) = KINDS[name], self.faults.during({}, lambda environment: run(self.program, command, environment))
        places = islice(count(1, self.every), most) if kind.numbered else iter([0])
        while batch := list(islice(places, self.jobs)):
            for number, end, descriptor in self.pool.map(lambda number: self.trial(command, kind, number), batch):
                if descriptor is None:
                    # There are no further places, and nothing failed.
                    if end != plain:
                        yield command, number, end, plain
                    return
                self.tried[name] += 1
                self.told[name] += end != plain
                if not kind.is_right(command, plain, end, descriptor):
                    yield command, number, end, plain
                if end == HANG:
                    return
