"""Tests edits.py on a small crate of its own (cases/edits.toml): an edit that shows something counts, each kind that shows nothing is
reported, and what is written as evidence is known then, and tried again by draw.

usage: test_edits.py
"""
import sys
import tomllib
from pathlib import Path

HERE = Path(__file__).resolve().parent
sys.path[:0] = [str(HERE), str(HERE.parents[1] / "tests")]
from digest import kit_name  # noqa: E402
from harness import claims, put, run  # noqa: E402
from ledger import sum_of_edit  # noqa: E402

CASES = tomllib.loads((HERE / "cases" / "edits.toml").read_text())
EDITS, FILES = CASES["edit"], CASES["files"]
REFUSED = sorted(it["name"] for it in EDITS if it["refused"])


def edits(root, *more):
    """What edits.py prints, and its status."""
    ended = run(sys.executable, ["-B", HERE / "edits.py", "--root", root, "--jobs", "1", *more], timeout=3600)
    return ended.output + ended.told, ended.status


def judged(root):
    """Each edit is judged as its case says; what was refused is known by the evidence then, and an entry that was written by hand for an
    edit that proves is found by a draw."""
    put(root, FILES)
    for it in EDITS:
        witness = f"witness: {it['witness']}\n" if "witness" in it else ""
        text = f"{witness}file: src/lib.rt\nold: {it['old']}\nnew: {it['new']}\n"
        put(root, {f"crates/tried/must-fail/{it['name']}.edit": text})
    told, status = edits(root, "--write")
    lines = {line.split(": ")[0].removeprefix("must-fail tried/"): line for line in told.split("\n") if line.startswith("must-fail ")}
    for it in EDITS:
        line = lines.get(it["name"], "nothing")
        yield f"{it['name']} is judged rightly, but: {line}", (": refused by " in line) == it["refused"] and it["says"] in line
    yield f"they are counted, but: {told[-400:]}", f"{len(REFUSED)} passed, {len(EDITS) - len(REFUSED)} failed" in told.split("\n")
    yield "the status isn't 0", status != 0

    file = root / ".ci" / "evidence" / "tried"
    rows = [line.split("\t")[1] for line in file.read_text().split("\n") if line.startswith("refused\t")]
    yield f"the evidence has what was refused, but: {rows}", rows == REFUSED
    false = next(it["name"] for it in EDITS if "still proved" in it["says"])
    folder = root / "crates" / "tried" / "must-fail"
    for it in EDITS:
        if it["name"] not in (false, *REFUSED):
            (folder / f"{it['name']}.edit").unlink()
    with open(file, "a") as evidence:
        evidence.write(f"refused\t{false}\t{sum_of_edit(folder / f'{false}.edit')}\t{kit_name()}\tby hand\n")
    told, status = edits(root, "--new")
    are_known = f"{len(REFUSED) + 1} passed, 0 failed" in told and "edits: 0 tried" in told
    yield f"all edits are known, but: {told[-400:]}", not status and are_known
    told, status = edits(root, "--new", "--draw", "1", "--seed", "a word", "--until", "0")
    are_left = f"edits: tried: {len(REFUSED) + 1} edits were drawn and aren't tried" in told and "of which 0 were drawn" in told
    yield f"what is drawn too late is told and not tried, but: {told[-400:]}", not status and are_left
    told, status = edits(root, "--new", "--draw", "1", "--seed", "a word")
    is_found = f"must-fail tried/{false}: NOT REFUSED" in told and f"{len(REFUSED)} passed, 1 failed" in told
    yield f"a draw finds the entry that was written by hand, but: {told[-400:]}", status and is_found


claims(judged)
