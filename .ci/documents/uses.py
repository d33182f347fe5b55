"""Looks for the uses that the READMEs of crates open with in code that is compiled and proved, and for the clauses that they name.

The README of a crate opens with a heading, one sentence that says what the crate is, and a fenced block of use. The lines of the block
stand one behind the other in the body of a function of crates/abt_uses/src, leading blanks aside. For the crates of ELSEWHERE they stand
in other code. For those of COMMANDS, tests and programs, the block is a command instead. Behind the block come the sections of SECTIONS,
in this order, and no other; those that say nothing are left out.

An item of "What is proved" names functions, and in brackets labels of their clauses, words of specs/ or types: each has to be there.

The script begins with a test of itself: READMEs that are wrong in one way each, and have to be told.

usage: uses.py
"""
import re
import tomllib

from documents import CRATES, files, report, text_of
from functions import blanked, functions_of

USES = "crates/abt_uses/src"
# Where the lines of a block are looked for if it isn't in functions of abt_uses: the only caller of a crate, the C program of docs/C.md,
# and the tests for which the walk is made.
ELSEWHERE = {
    "abt_derive": "crates/abt_audit/src",
    "abt_c": "c/examples",
    "abt_commands": "crates/abt/src",
    "abt_disk": "crates/abt_disk_trial/src",
    "abt_live": "crates/abt_live_files/src",
    "abt_live_files": "crates/abt_commands/src",
    "abt_records": "crates/abt_live/src",
    "abt_walk": "crates/abt_rows/src",
}
# The first line of the block, of crates that nobody calls.
COMMANDS = {name: f"$ cd crates/{name} && rt test" for name in CRATES if CRATES[name].has_only_tests()}
COMMANDS |= {"abt_disk_trial": "$ rt try -- ask FILE NOW COUNT"}
COMMANDS |= {"abt": "$ ./abt rate 53e8", "abt_uses": "$ cd crates/abt_uses && rt check"}
COMMANDS |= {name: f"$ cd crates/{name} && rt check" for name in ("abt_live_laws", "abt_processes")}
SECTIONS = ["What a contract sees", "What is proved", "What is only tested", "What is neither"]
LONGEST_BLOCK = 8
OPENING = re.compile(r"# (\w+)\n\n((?:(?!```)\S.*\n)+)\n```\w+\n((?:(?!```).*\n)+)```\n")


def bodies(folder):
    """The lines of each function's body in a folder, without blanks in front and empty lines."""
    for file in files(f"{folder}/**/*.rt", f"{folder}/**/*.c"):
        text = text_of(file)
        lines = text.split("\n")
        for opens, last in [(1, len(lines))] if file.endswith(".c") else [(it.opens, it.last) for it in functions_of(text)]:
            yield [line.strip() for line in lines[opens - 1 : last] if line.strip()]


def stands_in(block, body):
    return any(body[at : at + len(block)] == block for at in range(len(body) - len(block) + 1))


def faults_of_opening(name, text, found):
    """What is wrong with the heading, the sentence and the block, which may stand in these bodies."""
    opening = OPENING.match(text)
    if not opening:
        yield "doesn't open with a heading, a sentence and a fenced block"
        return
    heading, sentence, shown = opening.groups()
    block = [line.strip() for line in shown.split("\n") if line.strip()]
    if heading != name:
        yield f"has the heading {heading}"
    bare = re.sub(r"\s+", " ", re.sub(r"\(\S+\)|docs/\w+\.md", "", sentence)).strip()
    if not re.fullmatch(r"[^.]*(?:\.\w[^.]*)*\.", bare):
        yield "says what the crate is in more than one sentence"
    if not 0 < len(block) <= LONGEST_BLOCK:
        yield f"has a block of {len(block)} lines"
    if name in COMMANDS:
        if block[:1] != [COMMANDS[name]]:
            yield f"doesn't show the command {COMMANDS[name]}"
    elif not any(stands_in(block, body) for body in found):
        yield f"shows lines that no function of {ELSEWHERE.get(name, USES)} has: {block[0]}"


def faults_of_sections(text):
    headings = re.findall(r"^## (.*)$", text, re.M)
    if headings != [section for section in SECTIONS if section in headings]:
        yield f"has the sections {', '.join(headings)}"


def labels_of(crate):
    """The labels of the clauses of each function of a crate, by its name."""
    found = {}
    for file in files(f"crates/{crate}/src/**/*.rt"):
        parts = re.split(r"\bfn\s+(\w+)", blanked(text_of(file)))
        for name, part in zip(parts[1::2], parts[2::2]):
            found.setdefault(name, set()).update(re.findall(r"\bensures\*?\s+(\w+)\s*\{", part))
    return found


def words():
    """The names of definitions and of their fields, and of types and ghost members of the code."""
    found = set()
    for file in files("crates/*/specs/**/*.antt"):
        found.update(re.findall(r"^(?:(?:pub|abbrev|unfoldable|opaque|data|record) )*([\w'-]+)", text_of(file), re.M))
        found.update(re.findall(r"^\s+(?:pub )?([\w'-]+) :", text_of(file), re.M))
    for file in files("crates/*/src/**/*.rt"):
        found.update(re.findall(r"\b(?:struct|enum|trait|type|ghost)\s+(\w+)", blanked(text_of(file))))
    return found


def faults_of_promises(text, labels, known):
    """The functions and clauses that an item of what is proved names, and that aren't there."""
    proved = text.partition("## What is proved\n")[2].partition("\n## ")[0]
    for item in re.split(r"\n(?=- )|\n\n", proved):
        named = re.findall(r"`([^`]+)`", item)
        own = set().union(*(labels.get(it.split("::")[-1], ()) for it in named))
        for it in named:
            if re.fullmatch(r"\w+(::\w+)+", it) and it.split("::")[-1] not in labels.keys() | known:
                yield f"names {it}, which is no function here"
        for it in re.findall(r"`(\w+)`", " ".join(re.findall(r"\(([^()]*)\)", item))):
            if it not in own | known | labels.keys() and not it.startswith("abt_"):
                yield f"names a clause {it}, which is none of the functions there"


def faults_of(name, text, found, labels, known):
    return [*faults_of_opening(name, text, found), *faults_of_sections(text), *faults_of_promises(text, labels, known)]


def faults():
    found, known = {folder: list(bodies(folder)) for folder in {USES, *ELSEWHERE.values()}}, words()
    for name in CRATES:
        text = text_of(f"crates/{name}/README.md")
        told = faults_of(name, text, found[ELSEWHERE.get(name, USES)], labels_of(name), known)
        yield from (f"crates/{name}/README.md {fault}" for fault in told)
    for name in sorted({*ELSEWHERE, *COMMANDS} - {*CRATES}):
        yield f"{name} is listed here, and crates.txt doesn't have it"


# What the READMEs of the script's own test may name.
LABELS, KNOWN = {"one": {"err"}, "two": {"value"}}, {"IsA"}
BODIES = [["{", "let a = one();", "two(a)", "}"], ["{", "let a = one();", "}"]]
OWN = tomllib.loads(text_of(".ci/documents/cases/uses.toml"))


def faults_of_self():
    right = OWN["right"]
    if faults_of("low", right, BODIES, LABELS, KNOWN):
        yield "the test of itself: what is right is told"
    for it in OWN["wrong"]:
        if not faults_of("low", right.replace(it["old"], it["new"]), BODIES, LABELS, KNOWN):
            yield f"the test of itself: {it['what']} isn't told"


report(f"{len(CRATES)} READMEs, {len(OWN['wrong']) + 1} of its own", [*faults_of_self(), *faults()])
