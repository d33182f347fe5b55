"""Compiles misuse of include/abt.h and of the headers for C++: each has to be refused, and the same as it is meant accepted.

In C an outcome that matters is left alone; each call of the header has to warn of that, but for those that only a spoiled state fails. In
C++ it is wrappers/cpp/must-not-compile. It needs no library, and looks at what this machine has compilers for.

usage: misuses.py
"""
import re
import shutil
import subprocess
import tempfile
from pathlib import Path

from c_header import HEADER
from harness import ROOT, case_file, report

CASES = case_file("misuses")
INCLUDE = ["-I", str(ROOT / "include")]
# A result that is left alone is seen by what makes code.
IN_C = ["-std=c11", "-Wall", "-Wextra", "-Werror", *INCLUDE, "-c", "-o", "/dev/null"]
CPP = ["-std=c++17", *INCLUDE]
IN_CPP = [*CPP, "-fsyntax-only"]


def is_compiled(words):
    done = subprocess.run(words, capture_output=True, text=True, timeout=300)
    return done.returncode == 0, done.stderr


def faults_of_calls():
    """Which calls of the header may be left alone."""
    alone = re.findall(r"^static inline abt_outcome (abt_\w+)\([^;{]*;", HEADER, re.M)
    if sorted(alone) != sorted(CASES["alone"]):
        yield f"these calls may be left alone: {sorted(set(alone) ^ set(CASES['alone']))} differ"


def faults_in_c(compiler, folder):
    for misuse, meant in CASES["c"].items():
        for text, wanted in ((misuse, False), (meant, True)):
            file = Path(folder) / "misuse.c"
            file.write_text(CASES["around"].replace("STATEMENT", text))
            given, told = is_compiled([compiler, *IN_C, file])
            if given != wanted or not wanted and "unused-result" not in told:
                yield f"{compiler}, {text}: {told[:300] or 'nothing is told'}"


def header_read_once(compiler, folder):
    """The words that make a compiler take the headers for C++ as it read them once, which most of each trial would be spent on."""
    made = Path(folder) / compiler / ("abt.hpp.gch" if compiler == "g++" else "abt.pch")
    made.parent.mkdir()
    told = subprocess.run([compiler, *CPP, "-x", "c++-header", "-o", made, ROOT / "include" / "abt.hpp"], capture_output=True)
    if told.returncode or not made.exists():
        return []
    return ["-I", str(made.parent)] if compiler == "g++" else ["-include-pch", str(made)]


def faults_in_cpp(compiler, folder):
    read = header_read_once(compiler, folder)
    for file in sorted((ROOT / "wrappers" / "cpp" / "must-not-compile").glob("*.cpp")):
        for more, wanted in (["-DMISUSE"], False), ([], True):
            given, told = is_compiled([compiler, *read, *IN_CPP, *more, file])
            if given != wanted or not wanted and file.name not in told:
                yield f"{compiler}, {file.name} {more}: {told[:300] or 'nothing is told'}"


with tempfile.TemporaryDirectory() as room:
    found, looked = [*faults_of_calls()], []
    for compiler in filter(shutil.which, ("gcc", "clang")):
        found += faults_in_c(compiler, room)
        looked.append(compiler)
    for compiler in filter(shutil.which, ("g++", "clang++")):
        found += faults_in_cpp(compiler, room)
        looked.append(compiler)
report(f"misuse by {', '.join(looked)}", found)
