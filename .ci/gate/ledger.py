"""The committed evidence: a file .ci/evidence/NAME for each crate with must-fail edits or tests.

Its first line has the digest of all that the evidence rests on (`digest.py`), and each other line says what was seen over just that, and by
which kit: `refused EDIT SUM KIT GOAL`, that the prover refused an edit whose file has this sum, by this goal; or `proved tests KIT`. A file is
written only by the script that saw the refusal or the proof. Over another digest its lines count for nothing. What another kit of the same
logic saw counts, and is drawn first.

usage: ledger.py [--draw N --seed WORD]      tells what the evidence lacks, and which edits and tests a run with this seed would try again
"""
import argparse
import hashlib
import os
import random
from dataclasses import dataclass, field
from pathlib import Path

from digest import Digests, kit_name

TOP = Path(__file__).resolve().parents[2]
# Drawn edits are those of whole crates; a crate with which there would be more than so many times the number asked for is passed over.
MOST = 1.3


def sum_of_edit(edit):
    return hashlib.sha256(edit.read_bytes()).hexdigest()[:16]


@dataclass
class Evidence:
    """The evidence of a crate: the digest that it rests on; of each refused edit its sum, the kit and how it was refused; and the kit that
    proved its tests, if one did."""

    digest: str = ""
    refused: dict = field(default_factory=dict)
    tests: str = ""

    def text(self):
        rows = ["\t".join(("refused", edit, *self.refused[edit])) for edit in sorted(self.refused)]
        return "\n".join([f"digest {self.digest}", *rows, *[f"proved\ttests\t{self.tests}"] * bool(self.tests)]) + "\n"


def evidence_in(text):
    first, *lines = text.split("\n")
    found = Evidence(first.removeprefix("digest "))
    for row in (line.split("\t") for line in lines):
        match row:
            case ["refused", edit, sum_, kit, how]:
                found.refused[edit] = (sum_, kit, how)
            case ["proved", "tests", kit]:
                found.tests = kit
    return found


class Ledger:
    def __init__(self, top):
        self.place = Path(top) / ".ci" / "evidence"
        self.digests = Digests(top)
        self.crates = self.digests.crates

    def edits(self, name):
        return sorted((self.crates[name].folder / "must-fail").glob("*.edit"))

    def read(self, name):
        """The evidence of a crate, whatever it rests on."""
        try:
            return evidence_in((self.place / name).read_text())
        except OSError:
            return Evidence()

    def counted(self, name):
        """The evidence of a crate that counts: that which rests on all as it is."""
        found = self.read(name)
        return found if found.digest == self.digests.digest(name) else Evidence()

    def known(self):
        """The edits that the evidence says were refused, over all as it is: (crate, edit)."""
        found = set()
        for name in self.crates:
            if edits := self.edits(name):
                refused = self.counted(name).refused
                found |= {(name, it.stem) for it in edits if refused.get(it.stem, ("",))[0] == sum_of_edit(it)}
        return found

    def with_tests(self):
        return [name for name, crate in self.crates.items() if crate.test_modules()]

    def known_tests(self):
        """The crates whose tests the evidence says are proved, over all as it is."""
        return [name for name in self.with_tests() if self.counted(name).tests]

    def write(self, name, refused, tests=False):
        """Writes down what was seen of a crate: its edits that were refused, each with how, and whether its tests were proved."""
        found = self.counted(name)
        found.digest = self.digests.digest(name)
        here = {it.stem: it for it in self.edits(name)}
        rows = {edit: row for edit, row in found.refused.items() if edit in here}
        found.refused = rows | {edit: (sum_of_edit(here[edit]), kit_name(), " ".join(how.split())) for edit, how in refused.items()}
        found.tests = kit_name() if tests else found.tests
        self.place.mkdir(parents=True, exist_ok=True)
        made = self.place / f".{name}.{os.getpid()}"
        made.write_text(found.text())
        os.replace(made, self.place / name)

    def of_another_kit(self, name):
        """Whether another kit saw a part of a crate's evidence."""
        found = self.read(name)
        return any(kit != kit_name() for kit in [*(row[1] for row in found.refused.values()), *[found.tests] * bool(found.tests)])

    def drawn(self, number, seed):
        """Known edits of whole crates, at least so many if there are, drawn by a word that nobody picks, and of those that another kit saw
        first. By crates, as a check of some edits of a crate proves first what their functions call."""
        by_crate = {}
        for edit in sorted(self.known()):
            by_crate.setdefault(edit[0], set()).add(edit)
        order = [*by_crate]
        random.Random(f"edits {seed}").shuffle(order)
        order.sort(key=self.of_another_kit, reverse=True)
        found, passed_over = set(), []
        for name in order:
            if found and len(found) + len(by_crate[name]) > number * MOST:
                passed_over.append(name)
            elif len(found) < number:
                found |= by_crate[name]
        for name in sorted(passed_over, key=lambda name: len(by_crate[name])):
            found |= by_crate[name] if len(found) < number else set()
        return found

    def drawn_tests(self, seed):
        """One crate whose tests are known as proved, drawn in the same way; none if there is none."""
        known = sorted(self.known_tests())
        random.Random(f"tests {seed}").shuffle(known)
        return sorted(known, key=self.of_another_kit, reverse=True)[:1]


def main():
    reader = argparse.ArgumentParser(description=__doc__, formatter_class=argparse.RawDescriptionHelpFormatter)
    reader.add_argument("--draw", type=int, default=150, metavar="N")
    reader.add_argument("--seed", default="", metavar="WORD")
    words, ledger = reader.parse_args(), Ledger(TOP)
    every, known = {(name, it.stem) for name in ledger.crates for it in ledger.edits(name)}, ledger.known()
    others = {it for it in known if ledger.read(it[0]).refused[it[1]][1] != kit_name()}
    print(f"ledger: {len(every)} edits, {len(known)} known as refused, {len(others)} of them by another kit; to be tried: {counts(every - known)}")
    print(f"ledger: drawn: {counts(ledger.drawn(words.draw, words.seed))}")
    tests, drawn = sorted({*ledger.with_tests()} - {*ledger.known_tests()}), ledger.drawn_tests(words.seed)
    print(f"ledger: of {len(ledger.with_tests())} crates of tests to be proved: {' '.join(tests) or 'none'}; drawn: {' '.join(drawn)}")


def counts(edits):
    names = sorted({name for name, _ in edits})
    return f"{len(edits)} edits of {len(names)} crates: " + " ".join(f"{name} {sum(it[0] == name for it in edits)}" for name in names)


if __name__ == "__main__":
    main()
