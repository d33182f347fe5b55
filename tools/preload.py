"""Libraries that are preloaded to a program, made by the C compiler that is there: tools/faults.c and others."""
import os
import shutil
import subprocess
from itertools import count
from pathlib import Path

SOURCE = Path(__file__).resolve().parent / "faults.c"


def compiled(source, folder):
    """A library's file in this folder, or None where there is no C compiler."""
    compiler = os.environ.get("CC") or shutil.which("cc") or shutil.which("clang")
    if not compiler:
        return None
    made = Path(folder) / f"{source.stem}.so"
    subprocess.run([compiler, "-shared", "-fPIC", "-O1", "-o", made, source], check=True)
    return made


class Faults:
    """Runs with the library of faults; its file is None where there is no C compiler."""

    def __init__(self, folder):
        self.library, self.folder, self.marks = compiled(SOURCE, folder), Path(folder), count()

    def during(self, variables, run):
        """What `run` gives with an environment by whose variables calls fail, and the descriptor of the first that failed, if one did."""
        mark = self.folder / f"mark{next(self.marks)}"
        given = run({"LD_PRELOAD": str(self.library), "FAULTS_AT": str(mark), **variables})
        descriptor = int(mark.read_text() or 0) if mark.exists() else None
        mark.unlink(missing_ok=True)
        return given, descriptor
