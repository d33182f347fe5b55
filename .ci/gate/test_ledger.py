"""Tests the committed evidence on a small repository of its own (cases/ledger.toml): which crates' digests each kind of change touches,
what is known after an edit is renamed, doubled, changed or gone, and what is drawn.

usage: test_ledger.py
"""
import shutil
import sys
import tempfile
import tomllib
from pathlib import Path

HERE = Path(__file__).resolve().parent
sys.path[:0] = [str(HERE), str(HERE.parents[1] / "tests")]
import digest  # noqa: E402
from harness import claims, put  # noqa: E402
from ledger import Ledger  # noqa: E402

CASES = tomllib.loads((HERE / "cases" / "ledger.toml").read_text())


class Repository:
    def __init__(self, folder):
        self.root = folder
        put(folder, CASES["files"])

    def write(self, name, text):
        put(self.root, {name: text})

    def digests(self):
        found = digest.Digests(self.root)
        return {name: found.digest(name) for name in found.crates}

    def edit(self, name, crate="low", text="file: src/lib.rt\nold: a\nnew: b\n"):
        self.write(f"crates/{crate}/must-fail/{name}.edit", text)

    def known(self):
        return {name for _, name in Ledger(self.root).known()}


def digests(folder):
    it = Repository(folder)
    before = it.digests()
    for change in CASES["change"]:
        what, file, wanted = change["what"], change["file"], change["differ"]
        text = (it.root / file).read_text()
        yield f"{what}: the text to change stands there once", text.count(change["old"]) == 1
        it.write(file, text.replace(change["old"], change["new"]))
        after = it.digests()
        it.write(file, text)
        found = sorted(name for name in before if before[name] != after[name])
        yield f"{what}: the digests of {found} differ, and not of {wanted}", found == wanted
    yield "nothing changed, and each digest is as before", it.digests() == before
    it.edit("one")
    yield "an edit is no part of what it rests on", it.digests() == before


def rule(folder):
    it = Repository(folder)
    before = it.digests()
    with tempfile.TemporaryDirectory() as folder:
        kit_id = Path(digest.kit.rt().rtlib.KIT, "KIT-ID")
        for name in digest.RULE:
            shutil.copy(HERE / name, folder)
        was, digest.__file__ = digest.__file__, str(Path(folder, "digest.py"))
        yield "the same scripts elsewhere give the same digests", it.digests() == before
        for name in digest.RULE:
            text = Path(folder, name).read_text()
            Path(folder, name).write_text(text + "\n# More.\n")
            yield f"with another {name} each digest differs", not any(before[it_] == now for it_, now in it.digests().items())
            Path(folder, name).write_text(text)
        own, digest.KIT_ID = digest.KIT_ID, Path(folder, "KIT-ID")
        digest.KIT_ID.write_text(kit_id.read_text() + "another\n")
        yield "with another logic each digest differs", not any(before[it_] == now for it_, now in it.digests().items())
        digest.KIT_ID.write_text("another-" + kit_id.read_text())
        yield "with another kit of the same logic no digest differs", it.digests() == before
        digest.__file__, digest.KIT_ID = was, own


def evidence(folder):
    it = Repository(folder)
    for name in ("one", "two", "three"):
        it.edit(name, text=f"file: src/lib.rt\nold: a\nnew: {name}\n")
    yield "nothing is known at first", it.known() == set()
    Ledger(it.root).write("low", {"one": "`most` of share", "two": "`most`\tof share"})
    yield "what was refused is known", it.known() == {"one", "two"}
    Ledger(it.root).write("low", {"three": "`most` of share"})
    yield "what is refused later is known too", it.known() == {"one", "two", "three"}
    folder = it.root / "crates/low/must-fail"
    (folder / "one.edit").rename(folder / "another.edit")
    yield "a renamed edit isn't known", it.known() == {"two", "three"}
    shutil.copy(folder / "two.edit", folder / "two_again.edit")
    yield "a doubled edit is known by its first name alone", it.known() == {"two", "three"}
    it.edit("two", text="file: src/lib.rt\nold: a\nnew: other\n")
    yield "a changed edit isn't known", it.known() == {"three"}
    (folder / "three.edit").unlink()
    yield "an edit that is gone isn't known", it.known() == set()
    Ledger(it.root).write("low", {"another": "`most` of share"})
    rows = (it.root / ".ci/evidence/low").read_text()
    yield "what is gone is written down no more", "three" not in rows and "\tone\t" not in rows and "another" in rows
    low = (it.root / "crates/low/src/lib.rt").read_text()
    it.write("crates/low/src/lib.rt", low.replace("count < MOST", "MOST > count"))
    yield "over another body nothing is known", it.known() == set()
    Ledger(it.root).write("low", {"two": "`most` of share"})
    yield "over another body older lines are dropped", it.known() == {"two"} and "another" not in (it.root / ".ci/evidence/low").read_text()
    yield "tests are not known at first", Ledger(it.root).known_tests() == []
    Ledger(it.root).write("rows", {}, tests=True)
    yield "proved tests are known", Ledger(it.root).known_tests() == ["rows"]
    it.write("crates/walk/src/lib.rt", "pub fn walk() -> u32 {\n    2\n}\n")
    yield "over another body below tests alone they aren't", Ledger(it.root).known_tests() == []
    for text in ("", "digest 0\n", "refused\tone\n", "\0"):
        it.write(".ci/evidence/low", text)
        yield f"evidence that reads {text!r} is none", it.known() == set()


def draws(folder):
    it = Repository(folder)
    sizes = {"low": 30, "high": 20, "beside": 5, "walk": 60}
    for crate, size in sizes.items():
        for number in range(size):
            it.edit(f"edit_{number}", crate)
        Ledger(it.root).write(crate, {f"edit_{number}": "`most`" for number in range(size)})
    Ledger(it.root).write("rows", {}, tests=True)
    ledger = Ledger(it.root)
    drawn = [ledger.drawn(40, f"seed {number}") for number in range(60)]
    counts = [{crate: sum(it_[0] == crate for it_ in one) for crate in sizes} for one in drawn]
    yield "at least so many edits are drawn", all(len(one) >= 40 for one in drawn)
    yield "crates are drawn whole", all(count in (0, sizes[crate]) for one in counts for crate, count in one.items())
    yield "each crate is drawn at some seed", all(any(one[crate] for one in counts) for crate in sizes)
    yield "each crate is left out at some seed", all(any(not one[crate] for one in counts) for crate in sizes)
    yield "the same seed draws the same", ledger.drawn(40, "seed 1") == drawn[1]
    yield "all are drawn where more are asked for", len(ledger.drawn(1000, "seed")) == sum(sizes.values())
    it.edit("edit_1", text="file: src/lib.rt\nold: a\nnew: other\n")
    yield "what isn't known isn't drawn", ("low", "edit_1") not in Ledger(it.root).drawn(1000, "seed")
    rows = it.root / ".ci/evidence/beside"
    rows.write_text(rows.read_text().replace(f"\t{digest.kit_name()}\t", "\tanother-kit\t", 1))
    yield "what another kit saw is known", len([one for one in Ledger(it.root).known() if one[0] == "beside"]) == sizes["beside"]
    yield "what another kit saw is drawn first", all("beside" in {name for name, _ in Ledger(it.root).drawn(1, f"seed {k}")} for k in range(20))
    yield "a crate of tests is drawn", Ledger(it.root).drawn_tests("seed") == ["rows"]


claims(digests, rule, evidence, draws)
