"""What include/abt.h declares, read for the scripts that hold it against the exports of crates/abt_c and against the wrappers."""
import re

from harness import ROOT

HEADER = (ROOT / "include" / "abt.h").read_text()
# Outcomes by name; FAULTS is the first of the faults.
OUTCOMES = {name: int(number) for name, number in re.findall(r"^    ABT_(\w+) = (\d+),?", HEADER, re.M)}
# Of each state, how many numbers of 64 bits it is.
STATES = {name: int(words) for name, words in re.findall(r"typedef struct (abt_\w+) \{ uint64_t private_\[(\d+)\]; \}", HEADER)}


def parameter(declared):
    """What is declared: whether it is const, its type, whether it is a pointer, and its name."""
    words = re.fullmatch(r"(const )?(\w+) (\*?)(\w+)", declared)
    return bool(words[1]), words[2], bool(words[3]), words[4]


def functions():
    """The functions that the library defines: what each gives, and its parameters."""
    found = {}
    for line in re.finditer(r"^(?!static|typedef)((?:const )?\w+ \*?)(abt_\w+)\(([^)]*)\);", HEADER, re.M):
        given = [] if line[3] == "void" else [parameter(it) for it in line[3].split(", ")]
        found[line[2]] = (parameter(line[1] + "it"), given)
    return found
