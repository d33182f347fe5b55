"""What the scripts for documents do alike: the repository and its crates, and how faults are told (`report` of tests/harness.py)."""
import sys
from functools import cache
from pathlib import Path

ROOT = Path(__file__).resolve().parents[2]
for folder in ("tools", "tests", ".ci/gate"):
    sys.path.insert(0, str(ROOT / folder))

from crates import crates_of, of_tests  # noqa: E402
from harness import report  # noqa: E402, F401

CRATES = crates_of(ROOT)
TESTS = of_tests(CRATES)


def files(*patterns):
    """The files of the repository that patterns name, by their names there."""
    return sorted(str(file.relative_to(ROOT)) for pattern in patterns for file in ROOT.glob(pattern))


@cache
def text_of(name):
    return (ROOT / name).read_text()
