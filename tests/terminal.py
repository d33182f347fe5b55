"""Terminals of their own for programs (`openpty`), and what a window shows of what it is told."""
import fcntl
import os
import re
import select
import signal
import struct
import subprocess
import tempfile
import termios
import time

SECONDS = 60
# What a window is told: to go back, to go on, to take away what stands behind, to wrap lines or not; and characters.
TOLD = re.compile(rb"\r|\n|\x1b\[K|\x1b\[\?7[hl]|[ -~]")


class Window:
    """What a window of so many columns shows of octets, its lines without an end."""

    def __init__(self, columns):
        self.columns, self.rows, self.column, self.wraps = columns, [bytearray()], 0, True

    def tell(self, octets):
        told = TOLD.findall(octets)
        assert b"".join(told) == octets, f"octets that this window doesn't know: {octets[:200]}"
        for word in told:
            if word == b"\r":
                self.column = 0
            elif word == b"\n":
                self.rows.append(bytearray())
            elif word == b"\x1b[K":
                del self.rows[-1][min(self.column, self.columns - 1):]
            elif word.startswith(b"\x1b"):
                self.wraps = word.endswith(b"h")
            else:
                self.put(word)

    def put(self, character):
        if self.column == self.columns:
            if self.wraps:
                self.rows.append(bytearray())
            self.column = 0 if self.wraps else self.columns - 1
        row = self.rows[-1]
        row.extend(b" " * (self.column - len(row)))
        row[self.column:self.column + 1] = character
        self.column += 1

    def lines(self):
        return [bytes(row.rstrip()) for row in self.rows]


class Terminal:
    """A program in a terminal: its standard error goes there, and its standard output too, or else to a file."""

    def __init__(self, words, stdin=subprocess.DEVNULL, environment=os.environ, term="xterm", columns=80, both=False):
        self.master, self.side = os.openpty()
        fcntl.ioctl(self.side, termios.TIOCSWINSZ, struct.pack("HHHH", 24, columns, 0, 0))
        self.before = termios.tcgetattr(self.side)
        self.shown, self.out = b"", tempfile.TemporaryFile()
        names = {name: value for name, value in {**environment, "TERM": term}.items() if value is not None}
        streams = {"stdin": stdin, "stdout": self.side if both else self.out, "stderr": self.side}
        self.program = subprocess.Popen(words, **streams, env=names, start_new_session=True, preexec_fn=self.begin)

    @staticmethod
    def begin():
        """Takes the terminal, and Ctrl-C too where this script was started without it."""
        fcntl.ioctl(2, termios.TIOCSCTTY, 0)
        signal.signal(signal.SIGINT, signal.SIG_DFL)

    def read(self, until=None):
        """Reads what is shown, until something is or the program has ended."""
        ends = time.monotonic() + SECONDS
        while time.monotonic() < ends and not (until and until in self.shown):
            ended = self.program.poll() is not None
            while select.select([self.master], [], [], 0 if ended else 0.02)[0]:
                self.shown += os.read(self.master, 65536)
            if ended:
                break

    def end(self):
        self.read()
        status = self.program.wait(SECONDS)
        after = termios.tcgetattr(self.side)
        self.out.seek(0)
        out = self.out.read()
        os.close(self.master)
        os.close(self.side)
        assert after == self.before, "the terminal's settings aren't as before"
        return status, out, self.shown
