"""Makes a workspace in which one more crate, `all_tests`, holds the tests of all crates of tests, so that they are compiled once."""
import shutil
from pathlib import Path

from crates import crates_of

NAME = "all_tests"


def merge(top, to):
    """Writes the workspace into a new folder. Gives the folder of the crate of all tests."""
    crates, to = crates_of(top), Path(to)
    merged = [name for name in crates if crates[name].has_only_tests()]
    left = [name for name in crates if name not in merged]
    for name in left:
        for part in ("src", "specs", "proofs"):
            if (crates[name].folder / part).is_dir():
                shutil.copytree(crates[name].folder / part, to / "crates" / name / part)
    own = to / "crates" / NAME / "src"
    own.mkdir(parents=True)
    root = ["//! The tests of all crates of tests, compiled once.", "#![tactic(auto)]"]
    for name in merged:
        for module in crates[name].test_modules():
            source = crates[name].folder / "src" / module
            shutil.copyfile(source.with_suffix(".rt"), own / f"{name}_{module}.rt")
            if source.is_dir():
                shutil.copytree(source, own / f"{name}_{module}")
            root += ["#[cfg(test)]", f"mod {name}_{module};"]
    (own / "lib.rt").write_text("\n".join(root) + "\n")
    uses = dict.fromkeys(low for name in merged for low in crates[name].uses)
    lines = [" ".join((name, *crates[name].words)) + ": " + " ".join(crates[name].uses) for name in left]
    (to / "crates.txt").write_text("\n".join([*lines, f"{NAME} tests_may=Threads+Wait: {' '.join(uses)}"]) + "\n")
    shutil.copyfile(Path(top) / "HANDLES", to / "HANDLES")
    (to / ".git").mkdir()
    return own.parent
