"""A check of a crate with some of its texts changed, and what it printed."""
import re
import shutil
import subprocess
import tempfile
import threading
from dataclasses import dataclass
from pathlib import Path

from edit import rt

# A goal that wasn't proved: where it stands, what was to hold, and its name.
GOAL = re.compile(r"note: (?:\./)?(src/\S+?):(\d+):\d+: (.*?\(`([^`]+)`\).*)")
ALLOWED_FALSE = "the facts known there allow values at which this goal is false"
# Of a function, a type, an impl or a law, that it isn't proved.
NOT_SHOWN = re.compile(r"\w+ \S+: (not proved|no proof|could not tell)")
# The last line of a check that ended, of the whole crate or of some functions.
NOT_PROVED = re.compile(r"logic=not-proved|only=\d+ proved=\d+")

# So many checks run side by side.
slots = threading.Semaphore(1)


def set_jobs(jobs):
    global slots
    slots = threading.Semaphore(jobs)


@dataclass(frozen=True)
class Check:
    """What a check printed."""

    status: int
    text: str

    @property
    def lines(self):
        return self.text.rstrip("\n").split("\n")

    def reached_the_prover(self, changed):
        """Whether the text was read and judged, as `rt must-fail` wants it."""
        if rt.rtlib.STALE.search(self.text) or any(rt.unread(line, changed) for line in self.lines):
            return False
        return self.status == 0 or self.status == 1 and bool(NOT_PROVED.match(self.lines[-1]))

    def not_proved(self, names):
        """The lines that say that a function of one of these names isn't proved."""
        return [line for line in self.lines if re.match(rf"fn \S*\b({names})\b[^:\s]*: (not proved|no proof|could not tell)", line)]

    def crate_not_proved(self):
        """The lines that say that something of the crate isn't proved, beside the copies of its functions."""
        return [line for line in self.lines if NOT_SHOWN.match(line) and not re.search(r"_edit_\d+: ", line)]

    def complaint(self, changed):
        bad = next((line for line in self.lines if rt.unread(line, changed)), "")
        return (bad or next((line for line in self.lines if "error" in line), self.lines[-1]))[:200]

    def goals(self, file, function):
        """The goals in a function's lines that weren't proved, those first of which it is known that they can be false."""
        found = []
        for line in self.lines:
            at = GOAL.match(line)
            if at and at[1] == file and function.first <= int(at[2]) <= function.last:
                found.append((ALLOWED_FALSE not in at[3], at[4], int(at[2])))
        return sorted(set(found))


def check(crate, texts, kept=None, modules=()):
    """A check of a crate with some texts changed or added, or of these modules alone: of their functions, and of what these call."""
    with tempfile.TemporaryDirectory(prefix="edits-crate-") as room:
        for part in rt.rtlib.PARTS:
            if Path(crate.folder, part).is_dir():
                shutil.copytree(Path(crate.folder, part), Path(room, part))
        for file, text in texts.items():
            Path(room, file).parent.mkdir(parents=True, exist_ok=True)
            Path(room, file).write_text(text)
        words = [rt.rtlib.RATTLE, "check", *crate.words(["--jobs", "1", *(f"--only={it}" for it in modules)], keeps=False)]
        words += ["--incremental", kept] if kept else []
        how = {"stdin": subprocess.DEVNULL, "stdout": subprocess.PIPE, "stderr": subprocess.STDOUT, "errors": "replace"}
        with slots:
            ran = subprocess.run([*rt.rtlib.guarded(), *words], cwd=room, check=False, **how)
    return Check(ran.returncode, ran.stdout)
