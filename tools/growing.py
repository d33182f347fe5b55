"""A file that grows, and a copy of what was read of it."""
import fcntl
import json
import os
import re
import stat
import tempfile
import tomllib

# Descriptors below this one are those of the script abt.
LOWEST_FD = 10
# What a source writes before it writes into its store. It says nothing of its own, and an audit has no such line.
ABOUT = re.compile(rb'\{"about":\d+,"ask":"[0-9a-f]{4}"\}\r?')


class Fault(Exception):
    """What keeps a file from being followed."""


def unnamed():
    """A file without a name, which goes with this process; a program opens it by its descriptor."""
    with tempfile.TemporaryFile() as made:
        return os.fdopen(fcntl.fcntl(made.fileno(), fcntl.F_DUPFD_CLOEXEC, LOWEST_FD), "w+b")


def name_of(file):
    """The name by which a program opens a file without one."""
    return f"/proc/self/fd/{file.fileno()}"


class Journal:
    """A file that grows, and a copy of its lines so far, without those that no audit reads."""

    def __init__(self, name):
        self.name, self.copy, self.file = name, unnamed(), None
        # How many octets of it and how many lines are whole, and which lines the copy hasn't.
        self.octets, self.lines, self.left_out = 0, 0, []
        # What stands behind the last whole line.
        self.tail = b""

    def opened(self):
        """The descriptor of the file, or None as long as there is none."""
        try:
            file = os.open(self.name, os.O_RDONLY | os.O_NONBLOCK)
        except FileNotFoundError:
            if self.file is not None:
                raise Fault(f"{self.name}: it isn't there any more") from None
            return None
        except OSError as error:
            raise Fault(f"{self.name}: it can't be read: {error.strerror}") from None
        what = os.fstat(file)
        why = None
        if not stat.S_ISREG(what.st_mode):
            why = "it is no regular file"
        elif self.file not in (None, (what.st_dev, what.st_ino)):
            why = "another file has taken its place"
        elif what.st_size < self.octets:
            why = f"it shrank from {self.octets} octets to {what.st_size}"
        if why is not None:
            os.close(file)
            raise Fault(f"{self.name}: {why}")
        self.file = what.st_dev, what.st_ino
        return file

    def take(self):
        """Reads on, and gives whether the file differs from before. What stands behind its last whole line may be taken back."""
        file = self.opened()
        if file is None:
            return False
        with os.fdopen(file, "rb") as octets:
            octets.seek(self.octets)
            read = octets.read()
        if read == self.tail:
            return False
        at = read.rfind(b"\n") + 1
        self.keep(read[:at])
        self.tail = read[at:]
        return True

    def keep(self, whole):
        self.octets += len(whole)
        self.copy.seek(0, os.SEEK_END)
        for line in whole.split(b"\n")[:-1]:
            self.lines += 1
            if ABOUT.fullmatch(line):
                self.left_out.append(self.lines)
            else:
                self.copy.write(line + b"\n")
        self.copy.flush()

    def end(self):
        """Puts what stands behind the last whole line into the copy, too, so that an audit tells that a line was cut."""
        self.copy.seek(0, os.SEEK_END)
        self.copy.write(self.tail)
        self.copy.flush()

    def line(self, number):
        """The number of a line in the file, from that in the copy."""
        for left_out in self.left_out:
            number += left_out <= number
        return number


class Net(Journal):
    """The net of a scenario, which stands in place of a first text that begins with a net. It doesn't grow."""

    KEYS = ("vpi", "vci", "path", "delay", "tau")

    def __init__(self, name):
        super().__init__(name)
        try:
            with open(name, "rb") as file:
                read = tomllib.load(file)
            lines = [{key: line[key] for key in self.KEYS} for line in read.get("connection", [])]
            text = json.dumps({"net": {"ports": read["ports"], "connections": lines}})
        except OSError as error:
            raise Fault(f"{name}: it can't be read: {error.strerror}") from None
        except KeyError as error:
            raise Fault(f"{name}: it isn't a scenario: it has no {error.args[0]}") from None
        except (ValueError, TypeError, AttributeError) as error:
            raise Fault(f"{name}: it isn't a scenario: {error}") from None
        self.file = name
        self.keep(text.encode() + b"\n")

    def take(self):
        return False
