"""Commands that a tool starts, and folders of work that isn't whole yet: an interrupt ends the first and removes the second."""
import contextlib
import os
import secrets
import shutil
import signal
import subprocess
import sys
import tempfile
import threading
import time
from pathlib import Path

# The commands that were started and haven't ended, and the folders to be removed.
running = set()
rooms = []
# A signal may come where the main thread holds it.
lock = threading.RLock()
stopping = threading.Event()


class Ended(Exception):
    """What a thread that would start a command gets instead once an interrupt came."""


def start(words, folder, log, environment=None):
    """Starts a command in a process group of its own, which an interrupt ends as a whole."""
    with lock:
        if stopping.is_set():
            raise Ended
        started = subprocess.Popen(
            words, cwd=folder, stdin=subprocess.DEVNULL, stdout=log, stderr=subprocess.STDOUT, env=environment, start_new_session=True
        )
        running.add(started)
    return started


def ended(started):
    """Waits for a command to end, and gives its status."""
    status = started.wait()
    with lock:
        running.discard(started)
    return status


def run(words, folder, seconds, environment=None):
    """Runs a command, at most so long. Gives its status, None if it had no end by then, and what it printed."""
    with tempfile.TemporaryFile() as log:
        started = start(words, folder, log, environment)
        try:
            status = started.wait(timeout=seconds)
        except subprocess.TimeoutExpired:
            status = None
        end_group(started, signal.SIGKILL)
        ended(started)
        log.seek(0)
        return status, log.read().decode(errors="replace")


def end_group(started, number):
    """Sends a signal to a command and to all that it started."""
    try:
        os.killpg(started.pid, number)
    except ProcessLookupError:
        pass


def end_all():
    with lock:
        left = list(running)
    for started in left:
        end_group(started, signal.SIGTERM)
    until = time.time() + 5
    while time.time() < until and any(it.poll() is None for it in left):
        time.sleep(0.05)
    # What a command started may outlive it.
    for started in left:
        end_group(started, signal.SIGKILL)


def room(parent, prefix="making-"):
    """A new folder for work that isn't whole yet. It is known before it is made, and none is made once an interrupt came."""
    made = Path(parent or tempfile.gettempdir(), f"{prefix}{secrets.token_hex(6)}")
    with lock:
        if stopping.is_set():
            raise Ended
        rooms.append(made)
        made.mkdir(mode=0o700)
    return made


def clear(folder):
    """Removes such a folder, again where something that is just being killed wrote into it."""
    for _ in range(1000):
        shutil.rmtree(folder, ignore_errors=True)
        if not folder.exists():
            break
        time.sleep(0.05)
    # Another thread may have been quicker.
    with contextlib.suppress(ValueError):
        rooms.remove(folder)


def clear_rooms():
    for folder in list(rooms):
        clear(folder)


# What clears the rooms after an interrupt: a program of its own, so that no thread is left that could write into them.
CLEARING = """
import sys
sys.path.insert(0, sys.argv[1])
import processes
tool, status, *rooms = sys.argv[2:]
for room in map(processes.Path, rooms):
    processes.clear(room)
print(f"{tool}: stopped; nothing is left half made", file=sys.stderr, flush=True)
sys.exit(int(status))
"""


def end_on_signals(tool):
    """Has an interrupt end all that was started and remove what isn't whole, in the name of a tool."""

    signals = (signal.SIGINT, signal.SIGTERM, signal.SIGHUP)

    def on_signal(number, _):
        stopping.set()
        for it in signals:
            signal.signal(it, signal.SIG_IGN)
        end_all()
        words = [os.path.dirname(os.path.realpath(__file__)), tool, str(128 + number), *map(str, rooms)]
        os.execv(sys.executable, [sys.executable, "-B", "-c", CLEARING, *words])

    for it in signals:
        signal.signal(it, on_signal)
