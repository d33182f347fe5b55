"""Compares the help that `./abt` shows before there is a program, in man/help, with what the program shows, and its version with
CHANGELOG.md.

usage: help_texts.py PROGRAM            compares
       help_texts.py PROGRAM --write    writes the texts anew
"""
import re
import sys
from pathlib import Path

from harness import ROOT, report, run

FOLDER = ROOT / "man" / "help"


def shown(program, *words):
    """What some words show, on whichever stream."""
    _, output, told = run(program, words)
    return output + told


def texts_of(program):
    """The texts by their file: the whole help, that of each command, and what is told where no words are given."""
    whole = shown(program, "--help")
    commands = re.findall(r"^  ([a-z]+)  ", whole.split("Commands:\n", 1)[1].split("\n\n", 1)[0], re.M)
    texts = {"abt": whole, "none": shown(program), "version": shown(program, "--version")}
    for command in commands:
        texts[f"abt-{command}"] = shown(program, "help", command)
    return texts


def main(program, *options):
    texts = texts_of(Path(program).resolve())
    if options == ("--write",):
        FOLDER.mkdir(parents=True, exist_ok=True)
        for name, text in texts.items():
            (FOLDER / name).write_text(text)
    kept = {file.name: file.read_text() for file in FOLDER.iterdir()}
    found = [f"man/help/{name} isn't what the program shows" for name in sorted({*texts, *kept}) if texts.get(name) != kept.get(name)]
    version = re.search(r"^## ([0-9.]+)", (ROOT / "CHANGELOG.md").read_text(), re.M)[1]
    if texts["version"] != f"abt {version}\n":
        found.append("CHANGELOG.md begins with another version than the program tells")
    report(f"{len(texts)} texts", found)


main(*sys.argv[1:])
