"""Holds the wrappers of the library for C against include/abt.h: each calls the same functions with the same types, has the same faults
by name and number, outcomes, units and sizes of states; and each text that has the version has the same one. The package of Python asks
the program without a library.

usage: wrapper_texts.py
"""
import os
import re
import subprocess
import sys

from c_header import HEADER, OUTCOMES, STATES, functions
from harness import ROOT, case_file, report

TYPES = case_file("wrappers")


def text(place):
    return (ROOT / place).read_text()


def in_rust(given):
    is_const, kind, is_pointer, _ = given
    name = TYPES["rust"].get(kind, kind.removeprefix("abt_").capitalize())
    return f"{'*const' if is_const else '*mut'} {name}" if is_pointer else name


def in_python(given):
    _, kind, is_pointer, _ = given
    pointer = TYPES["python_pointers"].get(kind, f"POINTER({kind.removeprefix('abt_').upper()})")
    return pointer if is_pointer else TYPES["python"][kind]


def faults_of_calls():
    wanted = functions()
    rust = dict(re.findall(r"^    pub fn (\w+)(\(.*\) -> .*);$", text("wrappers/rust/src/raw.rs"), re.M))
    python = dict(re.findall(r'^    "(abt_\w+)": \((.*)\),$', text("wrappers/python/abt/library.py"), re.M))
    for name, (gives, given) in wanted.items():
        parameters = ", ".join(f"{it[3]}: {in_rust(it)}" for it in given)
        yield from differs(f"{name} in Rust", rust.pop(name, None), f"({parameters}) -> {in_rust(gives)}")
        yield from differs(f"{name} in Python", python.pop(name, "").removesuffix(","), ", ".join(map(in_python, [gives, *given])))
    yield from (f"{name} isn't in the header" for name in [*rust, *python])
    # Each call is made by the wrapper that declares it; C++ calls by the names without `raw_`.
    for language, pattern in (("Rust", "wrappers/rust/src/*.rs"), ("Python", "wrappers/python/abt/*.py"), ("C++", "include/*.hpp")):
        source = "".join(re.sub(r"pub fn \w+\(", "", file.read_text()) for file in sorted(ROOT.glob(pattern)))
        for name in wanted.keys() - ({"abt_version"} if language == "C++" else ()):
            called = name.replace("raw_", "") if language == "C++" else name
            if not re.search(rf"(?:raw::|LIB\.|library\.|[ (]){called}\(", source):
                yield f"{name} isn't called in {language}"


def faults_of_numbers():
    declared = {name: number for name, number in OUTCOMES.items() if name != "FAULTS"}
    named = {"".join(word.capitalize() for word in name.split("_")): number for name, number in declared.items()}
    refused = {name: number for name, number in named.items() if number >= 32}
    rust = {name: int(number) for name, number in re.findall(r"^    (\w+) = (\d+): ", text("wrappers/rust/src/fault.rs"), re.M)}
    python = {name: int(number) for number, name in re.findall(r'^    (\d+): "(\w+)",$', text("wrappers/python/abt/faults.py"), re.M)}
    cpp = {name for name in re.findall(r"^    \w+ = ABT_(\w+)", text("include/abt_result.hpp"), re.M)}
    yield from differs("faults in Rust", rust, refused)
    yield from differs("faults in Python", python, refused)
    yield from differs("faults in C++", sorted(cpp), sorted(name for name, number in declared.items() if number >= 32))
    phases = {name: int(number) for name, number in re.findall(r"ABT_PHASE_(\w+) = (\d+)", HEADER)}
    for place in ("gcra", "port", "source"):
        for kind, body in re.findall(r"^class (\w+)\(enum\.IntEnum\):\n(.*?)\n\n\n", text(f"wrappers/python/abt/{place}.py"), re.M | re.S):
            for name, number in re.findall(r"^    ([A-Z_]+) = (\d+)$", body, re.M):
                yield from differs(f"{kind}.{name} in Python", int(number), (phases if kind == "Phase" else declared).get(name))


def faults_of_sizes():
    wanted = {name.removeprefix("abt_").capitalize(): str(words) for name, words in STATES.items()}
    rust = dict(re.findall(r"^    (\w+): (\d+),$", text("wrappers/rust/src/raw.rs"), re.M))
    python = {name.capitalize(): words for name, words in re.findall(r'state\("(\w+)", (\d+)\)', text("wrappers/python/abt/library.py"))}
    yield from differs("states in Rust", rust, wanted)
    yield from differs("states in Python", python, wanted)


def faults_of_units():
    """Each has the units of docs/RULES.md, "Rates", under one name."""
    for name, wanted in {"UNITS_PER_CELL_PER_SECOND": 512, "PICOSECONDS_PER_SECOND": 10**12}.items():
        for place, pattern in TYPES["units"].items():
            found = re.search(pattern.replace("NAME", name).replace("name", name.lower()), text(place), re.M)
            yield from differs(f"{name} in {place}", found and found[1], f"ABT_{name}" if place.endswith("hpp") else str(wanted))


def faults_of_imports():
    """Without a library abt.oracle is imported, and a call of the library says that there is none."""
    for words, wanted in TYPES["imports"].items():
        environment = {**os.environ, "ABT_LIBRARY": "/none/libabt.so.0", "PYTHONPATH": str(ROOT / "wrappers" / "python")}
        done = subprocess.run([sys.executable, "-B", "-c", words], env=environment, capture_output=True, text=True)
        told = (done.stdout + done.stderr).rstrip("\n").split("\n")[-1]
        yield from differs(words, told[: len(wanted)], wanted)


def faults_of_versions():
    wanted = re.search(r'ABT_VERSION "(.*)"', HEADER)[1]
    for place, pattern in TYPES["versions"].items():
        yield from differs(f"the version in {place}", re.search(pattern, text(place), re.M)[1], wanted)


def differs(what, found, wanted):
    if found != wanted:
        yield f"{what}: {found}, and in the header {wanted}"


report(f"{len(functions())} calls", [*faults_of_calls(), *faults_of_numbers(), *faults_of_sizes(), *faults_of_versions(), *faults_of_units(), *faults_of_imports()])
