"""The crates of a repository, as its crates.txt lists them."""
import re
from dataclasses import dataclass
from pathlib import Path


@dataclass(frozen=True)
class Crate:
    name: str
    words: tuple  # behind its name, as `staticlib` or `may_wait=2`
    uses: tuple  # what it stands on: crates of the repository and libraries of the kit
    folder: Path

    @property
    def root(self):
        """The file that names its modules."""
        return next(file for file in (self.folder / "src/lib.rt", self.folder / "src/main.rt") if file.exists())

    def test_modules(self):
        """Its modules of tests."""
        return re.findall(r"^#\[cfg\(test\)\]\nmod (\w+);", self.root.read_text(), re.M)

    def has_only_tests(self):
        """Whether its root has modules of tests and nothing else."""
        tests = self.test_modules()
        return bool(tests) and set(tests) == set(re.findall(r"^(?:pub )?mod (\w+);", self.root.read_text(), re.M))


def crates_of(top):
    """The crates by their names, in the order of crates.txt."""
    crates = {}
    for line in (Path(top) / "crates.txt").read_text().split("\n"):
        head, colon, rest = line.partition("#")[0].partition(":")
        if colon:
            name, *words = head.split()
            crates[name] = Crate(name, tuple(words), tuple(rest.split()), Path(top) / "crates" / name)
    return crates


def below(crates, name):
    """The crates of the repository that a crate stands on, lowest first."""
    order = []

    def visit(it):
        for low in crates[it].uses:
            if low in crates and low not in order:
                visit(low)
                order.append(low)

    visit(name)
    return order


def of_tests(crates):
    """The names of the crates of tests: those that have nothing else, and those that only such crates use."""
    found = {name for name, crate in crates.items() if crate.has_only_tests()}
    for name in crates:
        users = [it for it, crate in crates.items() if name in crate.uses]
        if users and found.issuperset(users):
            found.add(name)
    return found
