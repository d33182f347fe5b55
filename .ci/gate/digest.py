"""What the evidence of a crate rests on, as one digest: which of its must-fail edits the prover refuses, and that its tests are proved.

It takes in the kit's logic, the rule (the scripts that try an edit and judge it, and this one), the crate's line of crates.txt, its own src/,
specs/ and proofs/, and of each crate below only what a check above can see: its definitions, its lemmas, and its code without the bodies of
functions. The proof of a caller cites only a function's contract. A body counts where its function is `const`, which a caller's check may
run, or in a cycle of calls. Comments and the layout of code count nowhere.
"""
import hashlib
import re
import sys
from pathlib import Path

sys.path.insert(0, str(Path(__file__).resolve().parents[2] / "tools"))
import kit  # noqa: E402
from crates import below, crates_of, of_tests  # noqa: E402
from functions import functions_of, pieces  # noqa: E402

# The kit's one-line identity: its name and its logic.
KIT_ID = Path(kit.rt().rtlib.KIT, "KIT-ID")
# The scripts by which an edit is tried and judged.
RULE = ("functions.py", "copies.py", "edit.py", "check.py", "trial.py", "digest.py")


def bare(text):
    """Code as the compiler reads it: without comments, with one space for each gap between words. A string stays as it is."""
    out, ends_in_gap = [], True
    for kind, piece in pieces(text):
        words = piece if kind == "string" else " " if kind == "comment" else re.sub(r"\s+", " ", piece)
        words = words.removeprefix(" ") if kind != "string" and ends_in_gap else words
        ends_in_gap = kind != "string" and words.endswith(" ") if words else ends_in_gap
        out.append(words)
    return "".join(out)


def bare_definitions(text):
    """A file of definitions, lemmas or proofs without the lines that are comments, and blank ones. Its layout counts."""
    return "\n".join(line.rstrip() for line in text.split("\n") if line.strip() and not line.strip().startswith("--"))


def without_bodies(text):
    """Code as a check of a crate above sees it."""
    lines = text.split("\n")
    for it in sorted(functions_of(text), key=lambda it: -it.opens):
        header = " ".join(lines[it.first - 1 : it.opens])
        if it.is_alone or re.search(rf"\bconst\s+(unsafe\s+)?fn\s+{it.name}\b", header):
            continue
        opening = lines[it.opens - 1]
        lines[it.opens - 1 : it.last] = [opening[: opening.rindex("{")] + "{}"]
    return bare("\n".join(lines))


def kit_name():
    return KIT_ID.read_text().split()[0]


def logic_of_kit():
    """The logic by which the kit proves: all of its identity but its name."""
    return KIT_ID.read_text().split()[1:]


def sum_of(*parts):
    return hashlib.sha256(repr(parts).encode()).hexdigest()


class Digests:
    """The digests of a repository's crates."""

    def __init__(self, top):
        self.crates = crates_of(top)
        self.of_tests = of_tests(self.crates)
        self.seen_sums = {}
        scripts = [Path(__file__).with_name(name).read_bytes() for name in RULE]
        self.rule = sum_of(logic_of_kit(), scripts)

    def files(self, name, part):
        """The files of a part of a crate, by their names in the crate."""
        folder = self.crates[name].folder
        return [(str(file.relative_to(folder)), file.read_text()) for file in sorted((folder / part).rglob("*")) if file.is_file()]

    def own(self, name):
        """All of a crate that a check of it reads."""
        code = [(file, bare(text)) for file, text in self.files(name, "src")]
        return code + [(file, bare_definitions(text)) for part in ("specs", "proofs") for file, text in self.files(name, part)]

    def seen(self, name):
        """What a check above sees of a crate. Hand-written proofs of its functions lie in folders below proofs/, lemmas right there."""
        if name not in self.seen_sums:
            code = [(file, without_bodies(text)) for file, text in self.files(name, "src")]
            lemmas = [(file, text) for file, text in self.files(name, "proofs") if file.count("/") == 1]
            named = [(file, bare_definitions(text)) for file, text in [*self.files(name, "specs"), *lemmas]]
            self.seen_sums[name] = sum_of(code, named)
        return self.seen_sums[name]

    def digest(self, name):
        """The digest of a crate. Below a crate of tests others of tests count whole: they are proved with it alone."""
        crate = self.crates[name]
        low = [(it, self.crates[it].uses, self.own(it) if it in self.of_tests else self.seen(it)) for it in below(self.crates, name)]
        return sum_of(self.rule, name, crate.words, crate.uses, self.own(name), low)
