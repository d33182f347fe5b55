#!/usr/bin/env python3
"""Audits journals while they grow: `abt audit` is asked again once a file has got further lines, after a pause that is longer the longer
an audit takes.

Standard error has `woven N events` as more of them are woven, and `waits` while no order is found, with the entries at which the journals
are stuck, each time these are others. A fault that no further line can mend, as a mismatch, ends it at once. Else it ends once no file has
changed for so many seconds, or by a line `end` on the standard input, SIGINT or SIGTERM; a second signal ends it without an answer. At the
end the answer of `abt audit` to all that was read is printed as it is, with its status.

With `--port P` or `--source C` each audit judges that log alone: `port P obeys: entries N` is told as it grows, and only a mismatch of that
log ends it. With `--json` what is new is told as the objects that the program has for it, and so is the answer.

NET is a text that begins with the net's line, or a scenario, if its name ends in .toml; that has to be there, and is read once. All other
options of `abt audit` are handed on to the last audit alone. The lines `about` of a source are left out. The status is 1 if a file can't be
followed or the program dies, and 2 if these words can't be read.
"""
import argparse
import contextlib
import ctypes
import json
import math
import os
import re
import select
import signal
import subprocess
import sys
import time
from pathlib import Path
from typing import NamedTuple

from growing import Fault, Journal, Net, name_of, unnamed
from shown import Reader, shown

ROOT = Path(__file__).resolve().parent.parent
# How long files are left alone at least, in seconds, and how many times as long as an audit took.
PAUSE, SHARE = 0.2, 2
# After how many seconds signals and files are looked at again.
LOOK = 0.1
FAULT, WRONG_WORDS = 1, 2
# The status once whoever read the output went away.
LEFT = 141
# Options whose value is a file that is written.
WRITTEN = ("--events", "--draw")
# Options by which one log is judged alone.
ALONE = ("--port", "--source")
SET_PDEATHSIG = 1


class Answer(NamedTuple):
    status: int
    output: str
    told: str


def say(text):
    """Tells something. What can't be told changes nothing."""
    with contextlib.suppress(OSError, AttributeError):
        sys.stderr.buffer.write(os.fsencode(text))
        sys.stderr.buffer.flush()


def show(text):
    try:
        sys.stdout.buffer.write(os.fsencode(text))
        sys.stdout.buffer.flush()
    except BrokenPipeError:
        os.dup2(os.open(os.devnull, os.O_WRONLY), sys.stdout.fileno())
        sys.exit(LEFT)
    except (OSError, AttributeError):
        raise Fault("write") from None


def end_with_parent():
    ctypes.CDLL(None).prctl(SET_PDEATHSIG, signal.SIGKILL)


class Following:
    """Journals that are followed, and audits of what was read of them."""

    def __init__(self, words, options, names):
        self.abt, self.idle, self.options = words.abt, words.idle, options
        self.form, self.alone = ["--json"] if "--json" in options else [], alone(options)
        self.journals = [(Net if place == 0 and name.endswith(".toml") else Journal)(name) for place, name in enumerate(names)]
        self.events = unnamed()
        self.child, self.signals, self.listens = None, 0, sys.stdin is not None
        # What was told last, and when and how often the files are looked at.
        self.told, self.pause = "", PAUSE
        for number in (signal.SIGINT, signal.SIGTERM, signal.SIGHUP):
            signal.signal(number, self.on_signal)
        # In the background a terminal isn't read, and doesn't stop this process.
        signal.signal(signal.SIGTTIN, signal.SIG_IGN)

    def on_signal(self, number, _):
        self.signals += 1
        if self.signals > 1:
            self.clear()
            raise SystemExit(128 + number)

    def clear(self):
        if self.child is not None and self.child.poll() is None:
            self.child.kill()

    def follow(self):
        """Follows the files to the end, and gives the last answer."""
        changed, due, is_new = time.monotonic(), 0, self.take()
        say("".join(self.absent(journal.name) for journal in self.journals if journal.file is None))
        while True:
            if self.take():
                changed, is_new = time.monotonic(), True
            now = time.monotonic()
            if now - changed >= self.idle or self.is_ended():
                return self.last(self.journals)
            if is_new and now >= due and self.journals[0].lines:
                is_new, there = False, [journal for journal in self.journals if journal.lines]
                if self.look(there):
                    return self.last(there)
                due = time.monotonic() + self.pause

    def absent(self, name):
        return f"{compact({'kind': 'note', 'note': 'absent', 'file': name})}\n" if self.form else f"{shown(name)}: it isn't there yet\n"

    def take(self):
        """Reads all files on, and gives whether one has changed."""
        return any([journal.take() for journal in self.journals])

    def is_ended(self):
        """Waits a moment for what ends it: a signal, or a line `end`."""
        if not self.listens:
            time.sleep(LOOK)
        elif not self.signals and select.select([0], [], [], LOOK)[0]:
            try:
                line = os.read(0, 4096)
            except OSError:
                line = b""
            self.listens = bool(line)
            return b"end" in line.split() or self.signals > 0
        return self.signals > 0

    def look(self, journals):
        """Has what was read audited, and tells what is new. Gives whether that is final."""
        began = time.monotonic()
        self.events.truncate(0)
        answer = self.ask([*self.form, *(self.alone or ["--events", name_of(self.events)])], journals)
        self.pause = max(PAUSE, SHARE * (time.monotonic() - began))
        if self.form:
            return self.look_at_objects(answer.output)
        if answer.output.startswith("woven\n"):
            self.events.seek(0)
            count = sum(line.startswith(b'  "') for line in self.events)
            # A scenario can't say all events; then they aren't counted.
            self.tell(f"woven {count} events\n" if answer.status == 0 else "woven\n")
        elif self.alone and answer.status == 0:
            self.tell(answer.output)
        elif answer.told.startswith("fault: NoOrder\n"):
            self.tell("waits\n" + answer.told.partition("\n")[2])
        else:
            return True
        return False

    def look_at_objects(self, output):
        """The same of an answer as objects."""
        first = output.partition("\n")[0]
        kind = json.loads(first)["kind"] if first else ""
        if kind not in ("woven", "obeys", "stuck"):
            return True
        self.tell(output if kind == "stuck" else f"{first}\n")
        return False

    def tell(self, text):
        if text != self.told:
            say(text)
        self.told = text

    def last(self, journals):
        """The answer to all that was read, with what stands behind the last whole lines, and with all options."""
        for journal in journals:
            journal.end()
        return self.ask(self.options, journals)

    def ask(self, options, journals):
        names = [journal.name if journal.file is None else name_of(journal.copy) for journal in journals]
        fds = [file.fileno() for file in (self.events, *(journal.copy for journal in journals))]
        streams = {"stdin": subprocess.DEVNULL, "stdout": subprocess.PIPE, "stderr": subprocess.PIPE}
        words = [self.abt, "audit", *options, "--", *names]
        self.child = subprocess.Popen(words, **streams, pass_fds=fds, start_new_session=True, preexec_fn=end_with_parent)
        output, told = map(os.fsdecode, self.child.communicate())
        if self.child.returncode < 0:
            raise Fault(f"abt audit was ended by {signal.Signals(-self.child.returncode).name}")
        named = Named(journals)
        return Answer(self.child.returncode, (named.objects if self.form else named.words)(output), named.words(told))


def compact(value):
    return json.dumps(value, separators=(",", ":"), ensure_ascii=False)


class Named:
    """What is told of copies, told of the files that they are copies of."""

    def __init__(self, journals):
        self.journals, self.by_name = journals, {name_of(journal.copy): journal for journal in journals}

    def words(self, told):
        def noted(found):
            return f"{found[1]}{found[2]}{found[3]}{self.journals[int(found[2]) - 1].line(int(found[4]))}"

        return re.sub(r"^(note: text )(\d+)( ends in the middle of line )(\d+)$", noted, self.text(told), flags=re.M)

    def text(self, told):
        def placed(found):
            journal = self.by_name.get(found[1])
            if journal is None:
                return found[0]
            return journal.name + (f":{journal.line(int(found[2]))}" if found[2] else "")

        return re.sub(r"(/proc/self/fd/\d+)(?::(\d+))?", placed, told)

    def objects(self, output):
        return "".join(f"{compact(self.object(json.loads(line)))}\n" for line in output.split("\n")[:-1])

    def object(self, found):
        """An object, and where its line stands, and since which line something is so, in the files themselves."""
        journal = self.journals[found["text"] - 1] if "text" in found else self.by_name.get(found.get("file"))
        if journal is not None:
            found |= {"line": journal.line(found["line"])} | ({"file": journal.name} if "file" in found else {})
        if "since" in found:
            found["since"] = self.object(found["since"])
        if "why" in found:
            found["why"] = self.text(found["why"])
        return found


def valued():
    """The options of `abt audit` that have a value, as its help says."""
    help_text = (ROOT / "man" / "help" / "abt-audit").read_text()
    return set(re.findall(r"^ +(?:-\w, )?(--[\w-]+) <", help_text, re.M))


def cut(words):
    """The options and the files among words."""
    options, names, with_value = [], [], valued()
    words = iter(words)
    for word in words:
        if word == "--":
            names += words
        elif word.startswith("-") and word != "-":
            options += [word, *([next(words)] if word in with_value else [])]
        else:
            names.append(word)
    return options, names


def alone(options):
    """The options by which one log is judged alone, with their values."""
    found = []
    for at, option in enumerate(options):
        name, equals, _ = option.partition("=")
        if name in ALONE:
            found += options[at : at + (1 if equals else 2)]
    return found


def is_written(options, names):
    """Whether one of the files is to be written, too."""
    for at, option in enumerate(options):
        option, _, value = option.partition("=")
        to = value or (options[at + 1] if option in WRITTEN else "")
        if option in WRITTEN and os.path.realpath(to) in map(os.path.realpath, names):
            return True
    return False


def words_of():
    reader = Reader(
        prog="abt audit --follow",
        usage="abt audit --follow NET JOURNAL.. [--idle SECONDS] [OPTIONS]",
        description=__doc__,
        formatter_class=argparse.RawDescriptionHelpFormatter,
        allow_abbrev=False,
    )
    reader.add_argument("--follow", action="store_true", help="audit the files again as they grow")
    reader.add_argument("--abt", default=str(ROOT / "abt"), help=argparse.SUPPRESS)
    reader.add_argument(
        "--idle", type=float, default=10, metavar="SECONDS", help="for how long no file may change before it ends; without it, 10"
    )
    words, rest = reader.parse_known_args()
    try:
        options, names = cut(rest)
    except (StopIteration, RuntimeError):
        reader.error("the last option needs a value")
    if not names:
        reader.error("name the files: the one that begins with the net, and then the others")
    if not 0 <= words.idle < math.inf:
        reader.error("--idle is a number of seconds")
    if is_written(options, names):
        reader.error("a file that is read already can't be written to")
    return words, options, names


def check(words, options):
    """Ends if the script can make no program, or the program refuses the options."""
    made = subprocess.run([words.abt, "rate", "0000"], stdin=subprocess.DEVNULL, stdout=subprocess.DEVNULL)
    if made.returncode != 0:
        sys.exit(max(made.returncode, FAULT))
    # Without a file the program has nothing to audit.
    looked = subprocess.run([words.abt, "audit", *options], stdin=subprocess.DEVNULL, capture_output=True)
    if looked.returncode == WRONG_WORDS:
        say(os.fsdecode(looked.stderr))
        sys.exit(WRONG_WORDS)


def main():
    words, options, names = words_of()
    check(words, options)
    following = None
    try:
        following = Following(words, options, names)
        status, output, told = following.follow()
        say(told)
        show(output)
        return status
    except (Fault, OSError) as why:
        say(f"fault: {shown(str(why))}\n")
        return FAULT
    finally:
        if following is not None:
            following.clear()


if __name__ == "__main__":
    sys.exit(main())
