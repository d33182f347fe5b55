"""Checks what no compiler looks at: the layout of the repository and its rules for files.

usage: layout.py
"""
import re
import subprocess
from os.path import dirname

from documents import CRATES, ROOT, TESTS, files, report, text_of
import kit  # documents.py has its folder

HANDLES = "Handles allowed: Threads, Wait.\n"
NAMES = ("RULES", "FORMATS", "GUARANTEES", "LAYOUT", "READING", "SCENARIOS", "THREADS", "C", "TESTING", "DECISIONS")
WANTED = ["README.md", "CONTRIBUTING.md", *(f"docs/{name}.md" for name in NAMES)]
LONGEST_FILE = 400
# The columns of a line of documents at most, but for what a program reads or prints.
LONGEST_LINE = 140
# Crates of types, laws or tests, and the program, which is `main` alone: no public function of theirs has a body that a bug of the
# program could stand in.
WITHOUT_BODIES = {"abt", "abt_disk_trial", "abt_live_laws", "abt_facts", "abt_processes", "abt_serving", *TESTS}


def faults_of_picture():
    """What the picture of docs/LAYOUT.md has wrong: each crate stands there once, and on crates below it alone. What stands beside the
    house, and the tests, come last there, and stand on all of the house."""
    picture = text_of("docs/LAYOUT.md").split("```text\n")[-1].split("```")[0]
    house, beside = (re.findall(r"^    (\w+)  +\S", part, re.M) for part in picture.split("\nBESIDE THE HOUSE\n"))
    order = beside + house
    for name in sorted({*order} ^ {*CRATES}) + sorted({name for name in order if order.count(name) > 1}):
        yield f"docs/LAYOUT.md has {name} {order.count(name)} times, crates.txt {int(name in CRATES)} times"
    for at, name in enumerate(order):
        for below in sorted({*order[:at]}.intersection(CRATES[name].uses if name in CRATES else ())):
            yield f"docs/LAYOUT.md has {name} below {below}, on which it stands"


def faults_of_crate(name):
    here = f"crates/{name}"
    if not (ROOT / here / "README.md").is_file():
        yield f"{name} has no README.md"
    edits = files(f"{here}/must-fail/*.edit")
    if name not in WITHOUT_BODIES and not edits:
        yield f"{name} has no edit that must fail"
    for edit in edits:
        _, why = kit.rt().read_edit(ROOT / edit, ROOT / here)
        yield from [f"{edit} can't be applied: {why}"] if why else []
    for source in files(f"{here}/src/**/*.rt"):
        # The numbers of a table stand one a line and aren't counted.
        length = len(re.findall(r"^(?!\s*[\d_]+,$).*\n", text_of(source), re.M))
        if length > LONGEST_FILE:
            yield f"{source} has {length} lines"
    for proof in files(f"{here}/proofs/**/*.antt", f"{here}/specs/*.antt"):
        if re.search(r"=\s*\?\s*$|\(\?\)", text_of(proof), re.M):
            yield f"{proof} has a hole"


def faults_of_links(document):
    """The files of the repository that a document names in backquotes or links are there."""
    text = text_of(document)
    named = re.findall(r"`((?:crates|docs|scenarios|bench|tools|tests|\.ci)/[\w/.+-]+\.\w+)`", text)
    linked = [f"{dirname(document) or '.'}/{it}" for it in re.findall(r"\]\(([\w/.+-]+\.\w+)\)", text) if not it.startswith("http")]
    for file in [*named, *linked]:
        if not (ROOT / file).exists():
            yield f"{document} names {file}, which isn't there"


def faults_of_width(document):
    is_shown = False
    for number, line in enumerate(text_of(document).split("\n"), 1):
        is_shown ^= line.startswith("```")
        if len(line) > LONGEST_LINE and not is_shown and not line.startswith("<!--"):
            yield f"{document}:{number} has {len(line)} columns"


def faults_of_citations(file):
    """The documents that a file cites, as docs/NAME.md, are there, with the heading of docs/NAME.md, "Heading", which may stand in the
    next line of a comment, or an empty one."""
    plain = re.sub(r"\n\s*(?://[/!]?|--)?\s*", " ", text_of(file))
    for name, heading in re.findall(r'(docs/[\w/.-]+\.md)(?:, "([^"]*)")?', plain):
        if not (ROOT / name).is_file():
            yield f"{file} cites {name}, which isn't there"
        elif heading and heading not in {line.lstrip("#").strip() for line in text_of(name).split("\n") if line.startswith("#")}:
            yield f'{file} cites {name}, "{heading}", which is no heading there'


def faults():
    if text_of("HANDLES") != HANDLES:
        yield "HANDLES isn't its one line"
    yield from (f"{name} is missing" for name in WANTED if not (ROOT / name).is_file())
    folders = {path.name for path in (ROOT / "crates").iterdir() if (path / "src").is_dir()}
    yield from (f"{name} stands in only one of crates.txt and crates/" for name in sorted(folders ^ CRATES.keys()))
    yield from faults_of_picture()
    for name in sorted(folders):
        yield from faults_of_crate(name)
    documents = files("README.md", "CONTRIBUTING.md", "docs/*.md", "crates/*/README.md")
    for document in documents:
        yield from faults_of_links(document)
    for document in {*documents, *files("*.md", "bench/*.md", "c/**/*.md")}:
        yield from faults_of_width(document)
    for file in [*documents, *files("crates/*/src/**/*.rt", "crates/*/specs/**/*.antt")]:
        yield from faults_of_citations(file)
    if subprocess.run(["sh", "-n", ROOT / "abt"]).returncode:
        yield "abt isn't a shell script"


report(f"{len(CRATES)} crates", list(faults()))
