"""Whether the gate's proof would refuse a crate for its text alone: a file that isn't in the kit's layout, or a must-fail edit that can't
be applied. A proof tells that in its turn, an hour after its beginning; here it takes seconds.

usage: texts.py
"""
import subprocess
import sys
from pathlib import Path

ROOT = Path(__file__).resolve().parents[2]
sys.path.insert(0, str(ROOT / "tools"))
import kit  # noqa: E402
from crates import crates_of  # noqa: E402

PARTS = ("src", "specs", "proofs")


def out_of_layout(crates):
    """What the kit says of the files that `rt fmt` would lay out otherwise."""
    parts = [crate.folder / part for crate in crates.values() for part in PARTS]
    files = [file for part in parts for file in sorted(part.rglob("*")) if file.suffix in (".rt", ".antt")]
    told = subprocess.run([kit.rt().rtlib.RATTLE, "fmt", "--check", *files], capture_output=True, text=True)
    lines = [line for line in (told.stdout + told.stderr).split("\n") if line]
    return [f"{line}: run rt fmt in the crate's folder" for line in lines] or ["rt fmt failed"] * (told.returncode != 0)


def inapplicable(crates):
    """The must-fail edits that can't be applied, and why."""
    edits = [(crate, edit) for crate in crates.values() for edit in sorted((crate.folder / "must-fail").glob("*.edit"))]
    found = [(edit, kit.rt().read_edit(str(edit), str(crate.folder))[1]) for crate, edit in edits]
    return [f"{edit.relative_to(ROOT)} can't be applied: {why}" for edit, why in found if why]


def main():
    crates = crates_of(ROOT)
    found = out_of_layout(crates) + inapplicable(crates)
    print(*found, sep="\n", end="\n" if found else "")
    print(f"texts: {len(crates)} crates, {len(found)} refused")
    sys.exit(1 if found else 0)


if __name__ == "__main__":
    main()
