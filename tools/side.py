"""A program that answers lines, one for each, and what can go wrong with it: each has a name, and nothing is waited for longer than a
limit."""
import contextlib
import os
import re
import selectors
import shutil
import signal
import subprocess
import tempfile
import time
from pathlib import Path

from shown import shown

# The longest line, and the most that is read behind the last answer, in octets.
LONGEST = 65_536
# How many characters of its standard error a fault carries.
TOLD = 600
# For how many seconds at least a second line is awaited behind an answer, if one is looked for; and for how many times as long as the slowest
# answer took, as a loaded machine is late with both.
LATE, LATE_TIMES = 0.3, 4
MORE, UNFLUSHED = "printed more than one line", "; it has printed nothing yet: does it flush each line?"


class Unfit(Exception):
    """What is wrong with a program that was to answer lines."""


class Broken(Unfit):
    """A program that was begun, and gave something else than one line for a line: in a few words how, and what it told on its standard
    error."""

    def __init__(self, name, how, told=""):
        super().__init__(f"{name} {how}" + (f"; it told\n{told}" if told else ""))
        self.how, self.told = how, told

    def kind(self):
        """How it failed, without what differs by the lines before or by how long it was waited for: of an exception of Python its name."""
        named = re.match(r"[\w.]*(?:Error|Exception)\b", self.told.rsplit("\n", 1)[-1])
        return re.sub(r"[`:].*|\b[\d.]+ s\b", "", self.how.replace(UNFLUSHED, " yet"), flags=re.S), named[0] if named else ""


class Signals:
    """Signals that end a tool: each raises SystemExit, but waits while something is being made that has to be removed again."""

    def __init__(self):
        self.is_held, self.came = False, None

    def take(self):
        for number in (signal.SIGINT, signal.SIGTERM, signal.SIGHUP):
            signal.signal(number, self.on_signal)

    def on_signal(self, number, _):
        if not self.is_held:
            raise SystemExit(128 + number)
        self.came = number

    @contextlib.contextmanager
    def held(self):
        was, self.is_held = self.is_held, True
        try:
            yield
        finally:
            self.is_held = was
            if self.came is not None and not was:
                number, self.came = self.came, None
                raise SystemExit(128 + number)


SIGNALS = Signals()


class Side:
    """A program that is started, and joined by pipes; or by two FIFOs, whose names stand behind its words: the one that it reads, and the
    one that it writes."""

    # Those that were started and not cleared.
    living = []

    def __init__(self, words, limit, fifos=False):
        self.name, self.limit, self.answers, self.told, self.slowest = shown(words[0]), limit, 0, b"", 0
        self.room = self.child = self.to = self.out = None
        self.left, self.closed = b"", False
        self.living.append(self)
        with SIGNALS.held():
            self.start(words, fifos)

    def start(self, words, fifos):
        kinds = {"stdin": subprocess.PIPE, "stdout": subprocess.PIPE}
        if fifos:
            self.room = Path(tempfile.mkdtemp(prefix="conform-"))
            names = [self.room / "to", self.room / "from"]
            for name in names:
                os.mkfifo(name)
            # Opened for both ways, a FIFO waits for nobody.
            self.to, self.out = (os.open(name, os.O_RDWR | os.O_NONBLOCK) for name in names)
            words, kinds = [*words, *map(str, names)], {"stdin": subprocess.DEVNULL, "stdout": subprocess.DEVNULL}
        try:
            self.child = subprocess.Popen(words, stderr=subprocess.PIPE, start_new_session=True, **kinds)
        except OSError as error:
            self.clear()
            raise Unfit(f"{self.name} can't be started: {error.strerror}") from None
        if not fifos:
            self.to, self.out = self.child.stdin.fileno(), self.child.stdout.fileno()
        self.errors = self.child.stderr.fileno()
        for stream in (self.to, self.out, self.errors):
            os.set_blocking(stream, False)
        self.selector = selectors.DefaultSelector()
        for stream in (self.out, self.errors):
            self.selector.register(stream, selectors.EVENT_READ)

    def answer(self, line, wanted=None, is_slow=False):
        """The one line by which the program answers a line. A second one is awaited for a while if the first isn't the one that is wanted,
        as it may have come late for the line before; and always if asked for."""
        self.take(0)
        self.one_line()
        self.answers += 1
        began = time.monotonic()
        self.write(line.encode() + b"\n")
        while b"\n" not in self.left:
            if len(self.left) > LONGEST:
                self.broken(f"printed a line of more than {LONGEST:,} octets")
            if time.monotonic() > began + self.limit:
                self.broken(f"printed nothing for {self.limit:g} s" + (UNFLUSHED if self.answers == 1 and not self.left else ""))
            self.take(0.2)
            if b"\n" not in self.left and self.is_over():
                self.dead()
        self.slowest = max(self.slowest, time.monotonic() - began)
        answer, self.left = self.left.split(b"\n", 1)
        text = answer.decode(errors="replace").removesuffix("\r")
        if is_slow or wanted not in (None, text):
            self.take_line(min(self.limit, max(LATE, LATE_TIMES * self.slowest)))
            if self.left.decode(errors="replace").splitlines()[:1] == [wanted]:
                self.left = answer
        self.one_line()
        return text

    def one_line(self):
        if self.left:
            self.broken(f"{MORE}: {self.shown(self.left)}")

    def broken(self, how):
        raise Broken(self.name, how, self.told.decode(errors="replace").strip()[-TOLD:])

    def end(self, wanted=None):
        """What it prints behind its last answer, once its input has ended. It has to end itself."""
        self.close_input()
        until = time.monotonic() + self.limit
        while self.child.poll() is None:
            self.take(0.01)
            if len(self.left) > LONGEST:
                self.broken(f"printed more than {LONGEST:,} octets behind its last answer")
            if time.monotonic() > until:
                self.broken(f"hasn't ended {self.limit:g} s after its input did")
        while self.take(0) and len(self.left) <= LONGEST:
            pass
        text = self.left.decode(errors="replace").strip()
        if wanted is not None and text != wanted:
            self.as_wanted(text, wanted)
        return text

    def as_wanted(self, text, wanted):
        """Says in what the end isn't as it is wanted, where it isn't another last line."""
        if self.child.returncode:
            self.broken(self.ending(self.child.returncode))
        if not text:
            self.broken("printed nothing at the end of its input")
        if text.splitlines()[-1] == wanted:
            self.one_line()

    def write(self, octets):
        until = time.monotonic() + self.limit
        while octets:
            try:
                octets = octets[os.write(self.to, octets) :]
            except BlockingIOError:
                if time.monotonic() > until:
                    self.broken(f"reads nothing for {self.limit:g} s")
                time.sleep(0.01)
            except BrokenPipeError:
                self.dead()

    def take(self, seconds):
        """Takes what can be read, and waits for it at most so long. Whether there was anything."""
        taken = 0
        for key, _ in self.selector.select(seconds):
            octets = os.read(key.fd, LONGEST)
            taken += len(octets)
            if not octets:
                self.selector.unregister(key.fd)
                self.closed = self.closed or key.fd == self.out
            elif key.fd == self.out:
                self.left += octets
            else:
                self.told = (self.told + octets)[-4 * TOLD :]
        return taken > 0

    def take_line(self, seconds):
        """Waits at most so long for a whole line, or for the end of what it prints."""
        until = time.monotonic() + seconds
        while b"\n" not in self.left and not self.closed and (left := until - time.monotonic()) > 0:
            self.take(left)

    def is_over(self):
        """Whether no answer can come any more."""
        return self.closed or (self.child.poll() is not None and not self.selector.select(0))

    def dead(self):
        """It ended, or closed its output, before it answered."""
        try:
            status = self.child.wait(min(3, self.limit))
        except subprocess.TimeoutExpired:
            self.broken("closed its output")
        while self.take(0):
            pass
        self.broken(self.ending(status))

    @staticmethod
    def ending(status):
        return f"ended by signal {signal.Signals(-status).name}" if status < 0 else f"ended with status {status}"

    @staticmethod
    def shown(octets):
        return f"`{octets[:80].decode(errors='replace').splitlines()[0]}`"

    def close_input(self):
        if self.room is not None and self.to is not None:
            os.close(self.to)
            self.to = None
        elif self.room is None and not self.child.stdin.closed:
            self.child.stdin.close()

    def clear(self):
        """Ends the program and all that it started, and removes the FIFOs."""
        with SIGNALS.held():
            self.end_and_remove()
            if self in self.living:
                self.living.remove(self)

    def end_and_remove(self):
        if self.child is not None:
            try:
                os.killpg(self.child.pid, signal.SIGKILL)
            except ProcessLookupError:
                pass
            self.close_input()
            self.child.wait()
            for stream in (self.child.stdout, self.child.stderr):
                if stream:
                    stream.close()
            self.selector.close()
        if self.room is not None:
            for stream in (self.to, self.out):
                if stream is not None:
                    os.close(stream)
            self.to = self.out = None
            shutil.rmtree(self.room, ignore_errors=True)

    def __enter__(self):
        return self

    def __exit__(self, *_):
        self.clear()
