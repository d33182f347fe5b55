"""The program `abt`, for what the library hasn't: whole nets, and journals."""
from __future__ import annotations

import os
import shutil
import subprocess
from pathlib import Path


class ProgramFault(Exception):
    """The program told a fault, or there is none. The text is the program's."""


def program() -> str:
    """The program: the file ABT_PROGRAM, that of the release which this package is a part of, or the one on PATH."""
    parents = Path(__file__).resolve().parents
    beside = parents[min(4, len(parents) - 1)] / "bin" / "abt"
    found = os.environ.get("ABT_PROGRAM") or (str(beside) if os.access(beside, os.X_OK) else shutil.which("abt"))
    if not found:
        raise ProgramFault("there is no program abt: ABT_PROGRAM may name its file")
    return found


def run(words: list[str], text: str) -> subprocess.CompletedProcess[str]:
    """Runs the program with these words over a text."""
    try:
        return subprocess.run([program(), *words], input=text, capture_output=True, encoding="utf-8")
    except OSError as error:
        raise ProgramFault(str(error)) from error
