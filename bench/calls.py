#!/usr/bin/env python3
"""Counts the instructions of single calls of the lower crates, and prints a table.

The program `bench/calls/main.rt.txt` makes one call again and again. It is no crate of the repository and no part of the gate: here it is
put beside copies of the crates that it calls, in a folder of its own, and is proved and built there. A crate that `rt lib` or
`rt check` has built since it was changed isn't proved anew.

Instructions are counted by callgrind, of a program that LLVM built, and come out the same each time. What is counted is the difference
between a longer and a shorter run, less that of the loop alone. It needs valgrind, and the command rt on PATH.
"""
import argparse
import re
import shutil
import subprocess
import sys
import tempfile
from pathlib import Path

HERE = Path(__file__).resolve().parent
SOURCE = HERE / "calls" / "main.rt.txt"
NAME = "calls"
LOOP = "the loop alone"
# Sixteen inputs are gone through in turn, so each is met as often as any other.
FEW, MANY = 1_600, 17_600
# What the figures should keep to.
MOST_INSTRUCTIONS = {"crc10": 250, "read_rm": 350, "write_rm": 350, "Gcra::check": 24, "Shaper::emit": 26}


def lines_of(root):
    """The lines of crates.txt, by crate."""
    lines = (line.partition("#")[0].strip() for line in (root / "crates.txt").read_text().split("\n"))
    return {line.partition(":")[0].split()[0]: line for line in lines if line}


def needed(names, lines):
    """These crates of the repository and those below them."""
    found = {}
    for name in names:
        below = needed([dep for dep in lines[name].partition(":")[2].split() if dep in lines], lines)
        found |= below | {name: None}
    return found


def build(root, room):
    """Builds the program over the crates of a checkout, in a folder."""
    lines = lines_of(root)
    used = sorted(set(re.findall(r"^use (\w+)::", SOURCE.read_text(), re.M)) & lines.keys())
    below = needed(used, lines)
    for name in below:
        without = shutil.ignore_patterns("must-fail", "must-not-compile")
        shutil.copytree(root / "crates" / name, room / "crates" / name, ignore=without)
    folder = room / "crates" / NAME
    (folder / "src").mkdir(parents=True)
    shutil.copy(SOURCE, folder / "src" / "main.rt")
    (room / "crates.txt").write_text("".join(f"{lines[name]}\n" for name in below) + f"{NAME}: {' '.join(used)}\n")
    ran = subprocess.run(["rt", "run", "--", LOOP, "0"], cwd=folder, capture_output=True, text=True)
    program = folder / "out" / NAME
    if ran.returncode != 0 or not program.exists():
        sys.exit(f"calls.py: rt didn't build the program:\n{ran.stdout}{ran.stderr}")
    return program


def calls_of(source):
    """The names that the program knows."""
    return re.findall(r'^ +"([^"]+)" => ', source, re.M)


def counted(program, folder, call, times):
    """How many instructions a run takes."""
    file = folder / "counted"
    words = ["valgrind", "--tool=callgrind", f"--callgrind-out-file={file}", program, call, str(times)]
    subprocess.run(words, stdout=subprocess.DEVNULL, stderr=subprocess.DEVNULL, check=True)
    return int(re.search(r"^totals: (\d+)$", file.read_text(), re.M)[1])


def main():
    parser = argparse.ArgumentParser(description=__doc__, formatter_class=argparse.RawDescriptionHelpFormatter)
    parser.add_argument("--root", type=Path, default=HERE.parent, metavar="FOLDER", help="the checkout whose crates are called; without it, this one")
    parser.add_argument("--program", type=Path, metavar="FILE", help="a program that --keep left, in place of building one")
    parser.add_argument("--keep", type=Path, metavar="FILE", help="leave the program there")
    parser.add_argument("--only", default="", metavar="CALL,..", help="only these calls")
    words = parser.parse_args()
    short = []
    with tempfile.TemporaryDirectory() as name:
        room = Path(name)
        program = words.program.resolve() if words.program else build(words.root.resolve(), room)
        if words.keep:
            shutil.copy(program, words.keep)

        def each(call):
            return (counted(program, room, call, MANY) - counted(program, room, call, FEW)) / (MANY - FEW)

        loop = each(LOOP)
        print("| call | instructions |\n| --- | --- |")
        for call in calls_of(SOURCE.read_text()):
            if call == LOOP or words.only and call not in words.only.split(","):
                continue
            instructions = round(each(call) - loop, 1)
            print(f"| {call} | {instructions} |", flush=True)
            if instructions > MOST_INSTRUCTIONS.get(call, instructions):
                short.append(f"{call}: more than {MOST_INSTRUCTIONS[call]} instructions")
    print("\n" + "\n".join([*short, f"{len(short)} figures fall short"]))


if __name__ == "__main__":
    main()
