"""Kills a source over a store in a file, and lets its disk lose power, and looks at the numbers that it told: none comes twice or goes
back.

The source is crates/abt_disk_trial, and tools/power.c is preloaded to it, which needs a C compiler: it kills the process at a call that
is drawn, and writes down what was written and not synced. A loss of power then leaves each unsynced write whole, in part, as garbage or
not at all, and names in the folder that weren't synced are there or not. After a kill alone all that was written stays, and may be lost
with the power later. Each start has to open the store, or, if its making was cut short, to find none.

Two controls have to show numbers that come twice or a store that is damaged: a disk that says that it synced and didn't, which shows only
by chance, and a store that is put back to an older file. Where there is no C compiler, or the kit's inner commands aren't as expected,
nothing is tried, and the script says so.

usage: power.py
"""
import errno
import os
import random
import subprocess
import sys
from pathlib import Path

ROOT = Path(__file__).resolve().parent.parent
sys.path.insert(0, str(ROOT / "tools"))
import processes  # noqa: E402
import unproved  # noqa: E402
from preload import compiled  # noqa: E402

# How many starts are made, the same ones each time.
TRIED, SEED = 3000, 7
# How many calls a run makes at most before it is killed, and how many asks it is told to make.
CALLS, ASKS = 24, (1, 3, 70, 150)
# How many calls make a store, and how many a start with 150 asks makes: an opening has nine, and each of three writes four.
CREATES, STARTS = 13, 21
# How far apart two starts are, in picoseconds.
GAP = 2 * 10**12


class Disk:
    """A folder with a store, whose unsynced writes and names stand in a log."""

    def __init__(self, program, library, folder, rng, lies=0):
        self.program, self.library, self.rng, self.lies = program, library, rng, lies
        self.folder, self.log = folder, folder.parent / f"{folder.name}.log"
        self.store = folder / "store"
        self.numbers = self.last = self.clock = self.kills = self.losses = 0
        folder.mkdir()

    def run(self, *words, at=0, fails=0, error=0):
        """Runs the source, which is killed at a call of a number, or a call of which fails. Gives its lines, and whether it was
        killed."""
        wanted = {"LOG": self.log, "AT": at, "FAILS": fails, "ERRNO": error}
        wanted |= {"LIES": self.lies} if self.lies else {}
        wanted |= {"AFTER": 1} if self.rng.random() < 0.5 else {}
        environment = {**os.environ, "LD_PRELOAD": str(self.library), **{f"POWER_{name}": str(value) for name, value in wanted.items()}}
        words = [self.program, *map(str, words)]
        done = subprocess.run(words, env=environment, stdin=subprocess.DEVNULL, capture_output=True, text=True, timeout=60)
        killed = done.returncode == -9
        self.kills += killed
        return done.stdout.split("\n")[:-1], killed

    def lose_power(self):
        """Leaves of each unsynced write and name something."""
        lines = [line.split(" ") for line in self.log.read_text().split("\n") if line] if self.log.exists() else []
        self.log.unlink(missing_ok=True)
        self.losses += 1
        for kind, *words in reversed(lines):
            if kind == "W":
                self.tear(Path(words[0]), int(words[1]), bytes.fromhex(words[2]), bytes.fromhex(words[3]))
        self.lose_names([words for words in lines if words[0] in "LU"])

    def tear(self, file, at, old, new):
        file = file if file.exists() else self.store
        if not file.exists():
            return
        cut = self.rng.randrange(len(new) + 1)
        garbage = bytes(self.rng.randrange(256) for _ in new)
        left = self.rng.choice([new, old, new[:cut] + old[cut:], old[:cut] + new[cut:], garbage])
        with open(file, "r+b") as opened:
            opened.seek(at)
            opened.write(left)

    def lose_names(self, lines):
        """A name that was given and not synced may be gone, and one that was taken away may be back."""
        beside = self.folder / "store.new"
        for kind, *names in lines:
            if self.rng.random() < 0.5 and kind == "U" and self.store.exists() and not beside.exists():
                os.link(self.store, beside)
            if self.rng.random() < 0.5 and kind == "L":
                self.store.unlink(missing_ok=True)

    def create(self, at=0):
        """Makes the store, and is killed at a call. Gives whether it said that it was made."""
        (self.folder / "store.new").unlink(missing_ok=True)
        said, killed = self.run("create", self.store, at=at)
        return not said and not killed

    def start(self, at=0):
        """Starts the source, which asks until it is killed. Gives what is wrong with what it told, or None."""
        self.clock += GAP
        said, _ = self.run("ask", self.store, self.clock, self.rng.choice(ASKS), at=at)
        return self.fault_of(said)

    def fault_of(self, said):
        for line in said:
            word, _, number = line.partition(" ")
            if word == "fault:":
                return line
            if word == "started" and int(number) < self.last or word == "asked" and int(number) <= self.last:
                return f"{line} behind {self.last}"
            if word == "asked":
                self.last, self.numbers = int(number), self.numbers + 1
        return None


def made_under_losses(disk):
    """Makes the store, however often that is cut short, and demands that there is none or a whole one."""
    for _ in range(40):
        is_made = disk.create(at=disk.rng.randrange(1, 20))
        if disk.rng.random() < 0.7:
            disk.lose_power()
        if is_made:
            return None
        fault = disk.start() if disk.store.exists() else None
        if fault:
            return f"a store whose making was cut short: {fault}"
        if disk.last:
            return None
    return None if disk.create() else "the store can't be made"


def starts_under_losses(disk, count):
    """Starts a source so often, killed at a call that is drawn; gives the first thing that is wrong."""
    for _ in range(count):
        if fault := disk.start(at=disk.rng.choice([0, *range(1, CALLS)])):
            return fault
        if disk.rng.random() < 0.6:
            disk.lose_power()
    return None


def honest(make, starts):
    """Disks that do as they say: nothing may be wrong."""
    made = losses = kills = numbers = 0
    while made < starts:
        disk = make()
        fault = made_under_losses(disk) or starts_under_losses(disk, min(100, starts - made))
        if fault:
            return f"FAILED: {fault}"
        made, losses, kills, numbers = made + 100, losses + disk.losses, kills + disk.kills, numbers + disk.numbers
    print(f"power: {made} starts, {kills} kills, {losses} losses of power, {numbers} numbers, none twice and none back")
    return None


def failing_at(disk, word, number, error, told):
    """What is wrong with a creation or a start of which one call fails, and with the start behind it."""
    is_start = word == "ask"
    if is_start:
        disk.create()
    said, _ = disk.run(word, disk.store, *((GAP, 150) if is_start else ()), fails=number, error=error)
    is_told = said[-1:] == [told] and (is_start or len(said) == 1)
    fault = disk.fault_of(said[:-1]) if is_told else f"it says {said}"
    return fault or (disk.start() if is_start or disk.store.exists() else None)


def failing(make):
    """Disks of which one call fails: it is told by its name, nothing half made has the store's name, and no number comes twice."""
    for error, told in ((errno.ENOSPC, "fault: the disk is full"), (errno.EIO, "fault: the disk failed")):
        for word, calls in (("create", CREATES), ("ask", STARTS)):
            for number in range(1, calls + 1):
                if fault := failing_at(make(), word, number, error, told):
                    return f"FAILED: `{word}`, of which call {number} failed: {fault}"
    print(f"power: {2 * (CREATES + STARTS)} disks of which a call failed")
    return None


def found_by(make, spoil, tries):
    """How many of so many disks that are spoiled show it."""
    found = 0
    for _ in range(tries):
        disk = make()
        disk.create()
        found += spoil(disk) is not None
    return found


def put_back(disk):
    """A store that is put back to the file that it was at first."""
    first = disk.store.read_bytes()
    fault = starts_under_losses(disk, 3) or disk.start()
    disk.store.write_bytes(first)
    return fault or disk.start()


def controls(make):
    lying = found_by(lambda: make(lies=2), lambda disk: starts_under_losses(disk, 100), 20)
    older = found_by(make, put_back, 20)
    print(f"power: controls: {lying} of 20 disks that lie were found, {older} of 20 stores that were put back")
    return None if lying >= 10 and older == 20 else "FAILED: a control wasn't found"


def main():
    rng, room = random.Random(SEED), processes.room(None, "power-")
    try:
        library = compiled(ROOT / "tools" / "power.c", room)
        if library is None:
            print("power: not tried, as there is no C compiler")
            return
        program = room / "trial"
        try:
            unproved.make(ROOT / "crates" / "abt_disk_trial", program, room)
        except unproved.Unmade as why:
            print(f"power: not tried: {why}")
            return
        numbers = iter(range(10**9))
        make = lambda lies=0: Disk(program, library, room / f"disk{next(numbers)}", rng, lies)
        fault = honest(make, TRIED) or failing(make) or controls(make)
    finally:
        processes.clear_rooms()
    if fault:
        sys.exit(f"power: {fault}")


if __name__ == "__main__":
    main()
