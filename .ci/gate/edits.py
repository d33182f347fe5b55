"""Tries edits of must-fail/: the prover has to refuse each (`trial.py` says how).

It works over the libraries that `rt ci` or `rt lib` left in crates/*/out of the repository ROOT. Each crate's checks hand on what they
proved as a copy, and the first begins with what `rt lib` or `rt check` kept. The committed evidence (`ledger.py`) knows which edits were
refused.

usage: edits.py [--root ROOT] [--jobs N] [--alone] [--share K/N] [--new] [--draw N --seed WORD [--until MOMENT]] [--write] [NAME..]
                (NAME: a crate, or crate/edit)
"""
import argparse
import math
import os
import re
import resource
import sys
import time
from concurrent.futures import ThreadPoolExecutor
from dataclasses import dataclass
from pathlib import Path

import check
from edit import Edit, read, rt
from ledger import Ledger
from trial import try_edits


@dataclass
class Tried:
    """What became of a crate's edits, how many checks were shared and how many there were alone, and the seconds."""

    edits: list
    shared: int = 0
    alone: int = 0
    seconds: float = 0


def wanted_edits(crate, words):
    """A crate's edits that are asked for, also those that can't be one."""
    good, bad = rt.edits_of(crate)
    names = set(words.names)
    is_named = lambda path: not names or crate.name in names or f"{crate.name}/{Path(path).stem}" in names
    edits = [read(crate, path) for path in good if is_named(path)]
    return edits + [Edit(crate, Path(path), fault="its name isn't one of an edit") for path in bad if is_named(path)]


def try_crate(crate, words):
    """Tries a crate's edits but for those that are known, and writes down those that were refused, where it is asked to."""
    began, tried = time.time(), Tried(wanted_edits(crate, words))
    if began > words.until:
        leave_drawn(crate, words)
    for edit in tried.edits:
        if edit.fault:
            edit.verdict = f"BAD EDIT: {edit.fault}"
        elif (crate.name, edit.path.stem) in words.known:
            edit.is_refused, edit.how, edit.verdict = True, "known", words.ledger.read(crate.name).refused[edit.path.stem][-1]
    left = [edit for edit in tried.edits if not edit.fault and edit.how != "known"]
    if left:
        tried.shared, tried.alone = try_edits(crate, left, words.alone)
        if words.write:
            words.ledger.write(crate.name, {edit.path.stem: edit.verdict for edit in left if edit.is_refused})
    tried.seconds = time.time() - began
    tell_crate(crate, tried)
    return tried


def leave_drawn(crate, words):
    """The time for drawn edits is up: those of a crate stay known. That is told."""
    late = {it for it in words.drawn if it[0] == crate.name}
    words.drawn -= late
    words.known |= late
    if late:
        print(f"edits: {crate.name}: {len(late)} edits were drawn and aren't tried: the time for them is up", flush=True)


def tell_crate(crate, tried):
    lines = [tell(edit) for edit in tried.edits if edit.how != "known"]
    counts = f"{len(lines)} tried, {len(tried.edits) - len(lines)} known, in {tried.shared} batches and {tried.alone} alone"
    print("\n".join([*lines, f"edits: {crate.name}: {counts}, {tried.seconds:.0f} s"]), flush=True)


def tell(edit):
    why = "NOT REFUSED but by the kit's rule" if edit.by_kit else "NOT REFUSED"
    return f"must-fail {edit.name}: " + (f"refused by {edit.verdict}" if edit.is_refused else f"{why}: {edit.verdict}")


def share(word):
    """The numbers of a share, K/N with K from 1 to N."""
    at = re.fullmatch(r"([1-9]\d*)/([1-9]\d*)", word)
    if not at or int(at[1]) > int(at[2]):
        raise argparse.ArgumentTypeError(f"{word} is no share K/N, with K from 1 to N")
    return int(at[1]), int(at[2])


def arguments():
    reader = argparse.ArgumentParser(description=__doc__, formatter_class=argparse.RawDescriptionHelpFormatter)
    reader.add_argument("--root", default=str(Path(__file__).resolve().parents[2]))
    reader.add_argument("--jobs", type=int, default=rt.processors())
    reader.add_argument("--alone", action="store_true", help="each edit in a check of its own")
    reader.add_argument("--share", type=share, default=(1, 1), metavar="K/N", help="the edits of each N-th crate, from the K-th on")
    reader.add_argument("--new", action="store_true", help="only those that the evidence doesn't know as refused")
    reader.add_argument("--draw", type=int, default=0, metavar="N", help="with --new: at least N known ones too, of whole crates")
    reader.add_argument("--seed", default="", metavar="WORD", help="by which they are drawn: the commit's name")
    reader.add_argument("--until", type=float, default=math.inf, metavar="MOMENT", help="no drawn crate is begun after it (seconds of time())")
    reader.add_argument("--write", action="store_true", help="write into the evidence what was refused")
    reader.add_argument("names", nargs="*", metavar="NAME")
    return reader.parse_args()


def crates_of(root, words):
    """The crates with edits that are asked for: those of which all are known last, and else the longest first, so that no processor waits
    for one crate in the end. An edit takes longer the more crates are below its own."""
    named = {name.split("/")[0] for name in words.names}
    crates = [crate for crate in rt.rtlib.crates_below(root) if rt.edits_of(crate) != ([], []) and (not named or crate.name in named)]
    known = words.ledger.known() if words.new else set()
    is_known = lambda crate: all((crate.name, Path(path).stem) in known for path in rt.edits_of(crate)[0])
    crates.sort(key=lambda crate: (is_known(crate), -len(rt.edits_of(crate)[0]) * (5 + len(crate.below()))))
    first, every = words.share
    return crates[first - 1 :: every]


def main():
    words = arguments()
    root = os.path.realpath(words.root)
    os.chdir(root)
    rt.rtlib.guarded()
    check.set_jobs(words.jobs)
    words.ledger = Ledger(root)
    words.drawn = words.ledger.drawn(words.draw, words.seed)
    words.known = words.ledger.known() - words.drawn if words.new else set()
    with ThreadPoolExecutor(words.jobs) as pool:
        given = list(pool.map(lambda crate: try_crate(crate, words), crates_of(root, words)))
    edits = [edit for tried in given for edit in tried.edits]
    refused, known = sum(edit.is_refused for edit in edits), sum(edit.how == "known" for edit in edits)
    used = resource.getrusage(resource.RUSAGE_CHILDREN)
    shared, alone = sum(tried.shared for tried in given), sum(tried.alone for tried in given)
    told = sum(edit.is_refused and edit.by_kit and bool(edit.witness) for edit in edits)
    print(f"edits: the goals of {told} are false by their witness; {(used.ru_utime + used.ru_stime) / 60:.0f} processor minutes")
    how = f"in {shared} batches and {alone} checks of one alone"
    print(f"edits: {len(edits) - known} tried, of which {len(words.drawn)} were drawn, {how}; {known} known by the evidence")
    print(f"{refused} passed, {len(edits) - refused} failed")
    sys.exit(0 if refused == len(edits) else 1)


if __name__ == "__main__":
    main()
