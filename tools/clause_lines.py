"""Lists the lines of clauses that have more than 110 columns, the longest first. It refuses nothing.

A line is one of a clause from `requires` or `ensures` to the clause's closing brace, in a file below src/.

usage: clause_lines.py [NAME..]     (NAME: a crate)
"""
import re
import sys
from pathlib import Path

sys.path.insert(0, str(Path(__file__).resolve().parent.parent / ".ci" / "gate"))
from functions import blanked, closing  # noqa: E402

ROOT = Path(__file__).resolve().parent.parent
COLUMNS = 110
BEGINS = re.compile(r"\b(?:requires|ensures)\b\*?(?:\s+\w+)?\s*(\{)")


def long_lines(file):
    """The numbers and the columns of a file's long lines of clauses."""
    text = file.read_text()
    code, lines, seen = blanked(text), text.split("\n"), set()
    for clause in BEGINS.finditer(code):
        stop = closing(code, clause.start(1))
        seen |= set(range(code.count("\n", 0, clause.start()), code.count("\n", 0, stop or clause.end()) + 1))
    return [(len(lines[at]), at + 1) for at in sorted(seen) if len(lines[at]) > COLUMNS]


def main():
    crates = sys.argv[1:] or sorted(path.name for path in (ROOT / "crates").iterdir())
    files = [file for crate in crates for file in sorted((ROOT / "crates" / crate / "src").rglob("*.rt"))]
    found = [(columns, f"{file.relative_to(ROOT)}:{number}") for file in files for columns, number in long_lines(file)]
    for columns, place in sorted(found, reverse=True):
        print(f"{columns} {place}")
    print(f"clause lines: {len(found)} above {COLUMNS} columns")


main()
