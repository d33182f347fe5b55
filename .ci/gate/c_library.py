"""Builds the static library for C, holds include/abt.h against it, and runs the example and the tests in C.

Each prototype of the header is compared with the export of that name in crates/abt_c, type by type, each record and state field by field
or by its size, and each outcome and limit with its number in the sources. The archive has to define just these functions and want none.

usage: c_library.py               at the top of a repository; ends with status 0 where there is no cc
       c_library.py --as-built    the same, over the libraries that are there and nothing else
       c_library.py --build       the archive alone, over the libraries that are there
"""
import os
import re
import shutil
import subprocess
import sys
import tempfile
import tomllib
from pathlib import Path

ROOT = Path(__file__).resolve().parents[2]
sys.path[:0] = [str(ROOT / "tests"), str(ROOT / "tools")]
import kit  # noqa: E402
from c_header import HEADER, OUTCOMES, functions  # noqa: E402
from harness import report  # noqa: E402

CRATE = ROOT / "crates" / "abt_c"
ARCHIVE = CRATE / "out" / "libabt_c.a"
SOURCE = "".join(file.read_text() for file in sorted((CRATE / "src").glob("*.rt")))
CASES = tomllib.loads((ROOT / ".ci" / "gate" / "cases" / "c_library.toml").read_text())
PLAIN, STATES, LIMITS, NAMES = (CASES[name] for name in ("plain", "states", "limits", "names"))


def in_words(outcome):
    return "".join(word.capitalize() for word in outcome.split("_"))


def type_in_c(name, kind):
    """The types in C of one parameter of the export `name`."""
    borrowed = re.fullmatch(r"&(mut )?(.+)", kind)
    if not borrowed:
        return [PLAIN[kind]]
    const, inner = "" if borrowed[1] else "const ", borrowed[2]
    if inner.startswith("["):
        each = inner[1:-1]
        return [f"{const}{PLAIN[each] if each in PLAIN else STATES[each]['']} *", "size_t"]
    fits = [c for word, c in STATES.get(inner, {}).items() if not word or f"_{word}_" in name]
    return [f"{const}{fits[0] if fits else PLAIN[inner]} *"]


def exports():
    """The signature in C of each export: its name, what it gives and what it takes."""
    export = re.compile(r'#\[unsafe\(no_mangle\)\]\s*(?:#\[[^\n]*\]\s*)*pub extern "C" fn (\w+)\((.*?)\) -> (\w+)', re.S)
    found = {}
    for name, parameters, gives in export.findall(SOURCE):
        kinds = re.findall(r": ([^,]+)", parameters)
        found[name] = (PLAIN[gives], [it for kind in kinds for it in type_in_c(name, kind.strip())])
    return found


def prototypes():
    """The same of the functions that the header declares without a body of its own."""
    found = {}
    for name, ((_, gives, _, _), takes) in functions().items():
        types = [f"{'const ' * is_const}{kind}{' *' * is_pointer}" for is_const, kind, is_pointer, _ in takes]
        found[name] = ("uint32_t" if gives == "abt_outcome" else gives, types)
    # The version is a text in C, which no export gives.
    del found["abt_version"]
    return found


def faults_of_functions(ours, theirs):
    for name in sorted({*ours, *theirs}):
        if ours.get(name) != theirs.get(name):
            yield f"{name}: exported as {ours.get(name)}, declared as {theirs.get(name)}"
        public = name.replace("abt_raw_", "abt_")
        if name != public and f"static inline abt_outcome {public}(" not in HEADER:
            yield f"{name} has no call of its own in the header"


def fields_of(struct):
    found = re.search(r"#\[repr\(C\)\]\s*(?:#\[[^\n]*\]\s*)*pub struct " + struct + r" \{(.*?)\}", SOURCE, re.S)
    return re.findall(r"pub (\w+): ([^,]+),", found[1])


def octets_of(kind):
    """The octets of a field: of a number, an array or a record without gaps."""
    array = re.fullmatch(r"\[(\w+); (\d+)\]", kind)
    if array:
        return int(array[2]) * octets_of(array[1])
    return int(kind[1:]) // 8 if kind in PLAIN else sum(octets_of(inner) for _, inner in fields_of(kind))


def faults_of_records():
    for struct, name in ((struct, name) for struct, names in STATES.items() for name in names.values()):
        body = re.search(r"typedef struct " + name + r" \{(.*?)\} " + name + ";", HEADER, re.S)
        words = re.search(r"uint64_t private_\[(\d+)\];", body[1]) if body else None
        declared = re.findall(r"(\w+) (\w+);", re.sub(r"/\*.*?\*/", "", body[1])) if body else []
        fields = fields_of(struct)
        if 8 * int(words[1]) != octets_of(struct) if words else declared != [(PLAIN[kind], field) for field, kind in fields]:
            yield f"{name} isn't {struct}: {fields}"


def faults_of_numbers():
    """Outcomes are those of specs/Outcome.antt, plain ones and the cases of an enum; each tells its name; limits are those of their
    crates."""
    specs = re.findall(r"^(?:\w+_number )?(\w+) = (\d+)$", (CRATE / "specs" / "Outcome.antt").read_text(), re.M)
    specs = {name: int(number) for name, number in specs}
    for name, number in OUTCOMES.items():
        found = specs.get(NAMES.get(name, name.lower()), specs.get(in_words(name)))
        if name != "NULL" and found != number:
            yield f"ABT_{name} is {number} in the header, and {found} in specs/Outcome.antt"
    if len(OUTCOMES) - 1 != len(specs):
        yield f"{len(specs)} outcomes in specs/Outcome.antt, {len(OUTCOMES) - 1} in the header"
    named = re.findall(r"case ABT_(\w+): return \"(\w+)\";", HEADER)
    for outcome, name in named:
        if name != (outcome if outcome == "OK" else in_words(outcome)):
            yield f"ABT_{outcome} is named {name}"
    if not named:
        yield "no outcome has a name"
    for name, (crate, constant) in LIMITS.items():
        text = "".join(file.read_text() for file in (ROOT / "crates" / crate / "src").glob("*.rt"))
        value = re.search(rf"pub const {constant}: u64 = ([\d_]+);", text)[1].replace("_", "")
        if f"#define {name} UINT64_C({value})" not in HEADER:
            yield f"{name} isn't {value}"


def faults_of_archive(ours):
    names = subprocess.run(["nm", "-g", ARCHIVE], check=True, capture_output=True, text=True).stdout
    defined, wanted = (set(re.findall(rf" {kind} (\w+)", names)) for kind in "TU")
    if defined != {*ours}:
        yield f"the archive defines {sorted(defined ^ {*ours})} and the header doesn't, or the other way round"
    if wanted - defined:
        yield f"the archive wants {sorted(wanted - defined)}"


def build_archive():
    """Proves and builds the archive over the libraries that are built already, by `rt ci` too, which marks none as one to build upon."""
    rt = kit.rt()
    rt.rtlib.Crate.is_built = lambda crate: os.path.isdir(crate.rlib)
    os.chdir(CRATE)
    if rt.rtlib.main("lib"):
        sys.exit("c_library: the archive isn't proved")
    os.chdir(ROOT)


def main():
    if sys.argv[1:] == ["--build"]:
        return build_archive()
    if not shutil.which("cc") or not shutil.which("make"):
        print("c_library: no cc or no make here, so the tests in C weren't run")
        return
    quiet = {"stdout": subprocess.DEVNULL, "stderr": subprocess.DEVNULL}
    # If the libraries that are there don't fit one another, they are built anew, but where others work over them.
    is_built = not subprocess.run([sys.executable, "-B", __file__, "--build"], check=False, **quiet).returncode
    if not is_built and sys.argv[1:] == ["--as-built"]:
        sys.exit("c_library: the archive isn't proved over the libraries that are there")
    if not is_built:
        subprocess.run(["rt", "lib"], cwd=CRATE, check=True, stdout=subprocess.DEVNULL)
    ours = exports()
    found = [*faults_of_functions(ours, prototypes()), *faults_of_records(), *faults_of_numbers(), *faults_of_archive(ours)]
    if found:
        report(f"{len(ours)} exports", found)
    with tempfile.TemporaryDirectory() as room:
        subprocess.run(["make", "-s", "-C", ROOT / "c", "check", f"BUILD={room}", f"ABT_LIBRARY={ARCHIVE}"], check=True)
    subprocess.run([sys.executable, "-B", ROOT / ".ci" / "gate" / "packages.py"], check=True)
    report(f"{len(ours)} exports, and the tests in C", [])


if __name__ == "__main__":
    main()
