"""A must-fail edit: the lines that it changes, and whether it can share a check with others.

It goes by the rules of the kit's own `rt` for edits, whose functions it calls.
"""
import difflib
import re
import sys
from collections import defaultdict
from dataclasses import dataclass, field
from pathlib import Path

sys.path.insert(0, str(Path(__file__).resolve().parents[2] / "tools"))
import kit  # noqa: E402
from copies import home_of  # noqa: E402
from functions import functions_of  # noqa: E402

rt = kit.rt()

WITNESS = "witness: "


@dataclass
class Edit:
    crate: object
    path: Path
    file: str = ""
    hunks: list = field(default_factory=list)  # (first line, line behind the last, new lines), of the file as it is, from 0
    places: list = field(default_factory=list)  # the functions whose bodies it changes, among those of the file
    is_of_bodies: bool = False  # whether it changes nothing but bodies
    fault: str = ""  # why it can't be applied
    alone: str = ""  # why it goes into no batch
    witness: str = ""  # at which values its goal is false, in words, where the prover can't say
    answers: list = field(default_factory=list)  # the hand-written answers of its functions that fail with it, by file and goal
    home: object = None  # where its function stands, if that can be copied
    copy: str = ""  # the name of the copy that it was made in
    verdict: str = ""  # how it was refused, or why not
    is_refused: bool = False
    by_kit: bool = False  # whether the kit's own rule calls it refused, where it was tried alone
    how: str = ""  # "batch", "alone", or "kept" from an earlier run

    @property
    def name(self):
        return f"{self.crate.name}/{self.path.stem}"


def read(crate, path):
    """An edit, with the lines that it changes and the function that they lie in."""
    edit = Edit(crate, Path(path))
    edit.witness = next((line[len(WITNESS) :] for line in edit.path.read_text().split("\n") if line.startswith(WITNESS)), "")
    texts, why = rt.read_edit(path, crate.folder)
    if why:
        edit.fault = why
        return edit
    if len(texts) > 1:
        edit.alone = "it changes several files"
        return edit
    ((edit.file, new),) = texts.items()
    old = Path(crate.folder, edit.file).read_text()
    old_lines, new_lines = old.split("\n"), new.split("\n")
    codes = difflib.SequenceMatcher(None, old_lines, new_lines, autojunk=False).get_opcodes()
    edit.hunks = [(i1, i2, new_lines[j1:j2]) for tag, i1, i2, j1, j2 in codes if tag != "equal"]
    functions = functions_of(old)
    held = [next((k for k, it in enumerate(functions) if it.has_in_body(*lines_of(hunk))), None) for hunk in edit.hunks]
    edit.places = sorted({place for place in held if place is not None})
    edit.is_of_bodies = bool(held) and None not in held and len(functions_of(new)) == len(functions)
    if not edit.hunks:
        edit.fault = "it changes nothing"
    elif any(is_of_a_contract(hunk, functions, old_lines) for hunk in edit.hunks):
        edit.fault = "it changes a contract, which shows nothing of the code"
    elif not edit.is_of_bodies:
        edit.alone = "it changes more than bodies"
    elif len(edit.places) > 1:
        edit.alone = "it changes several functions"
    elif functions[edit.places[0]].is_alone:
        edit.alone = "its function is in a cycle of calls"
    else:
        edit.home = home_of(crate, edit.file, old, edit.places[0])
    return edit


def lines_of(hunk):
    """The first and the last line that a hunk changes, from 1; of lines that are only added, the line that they stand before."""
    first, last, _ = hunk
    return first + 1, max(last, first + 1)


def is_of_a_contract(hunk, functions, lines):
    """Whether a hunk changes a clause of a function, or another ghost item."""
    first, last = lines_of(hunk)
    in_clauses = any(it.clauses and it.clauses <= last and first < it.opens for it in functions)
    return in_clauses or any(re.match(r"\s*(pub )?ghost\b", line) for line in [*lines[first - 1 : last], *hunk[2]])


def with_edits(crate, edits):
    """The texts of the files that some edits change, all of them applied."""
    by_file = defaultdict(list)
    for edit in edits:
        by_file[edit.file] += edit.hunks
    texts = {}
    for file, hunks in by_file.items():
        lines = Path(crate.folder, file).read_text().split("\n")
        for first, last, new in sorted(hunks, reverse=True, key=lambda hunk: hunk[:2]):
            lines[first:last] = new
        texts[file] = "\n".join(lines)
    return texts


def modules_of(edits):
    """The modules in which some edits change bodies, or none where one of them stands in the crate's root."""
    files = sorted({edit.file for edit in edits})
    if not files or not all(edit.is_of_bodies for edit in edits) or {"src/lib.rt", "src/main.rt"} & {*files}:
        return []
    return [file.removeprefix("src/").removesuffix(".rt").replace("/", "::") for file in files]
