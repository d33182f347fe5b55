"""Tests what `tools/release` refuses, on a small repository with stand-ins for the proved program and library. Otherwise it makes
packages whose receipt has commit, kit and what the gate said, the same octets each time.

usage: release.py
"""
import os
import shutil
import subprocess
import sys
import tarfile
import time

from harness import claims, copy_parts, put, run

PARTS = ("tools", "c", "include", "man", "completions", "docs", "wrappers", "README.md", "CHANGELOG.md", "HANDLES", ".gitignore")
GIT = ["git", "-c", "user.name=test", "-c", "user.email=test"]
LOG = "gate: rattle-kit logic 1, 2 processors, drawn by {commit}\ngate: more\n{last}\n"


class Repository:
    def __init__(self, folder):
        self.root, self.log = folder, folder.with_name("log")
        copy_parts(self.root, *PARTS)
        put(self.root, {f"crates/{crate}/src/lib.rt": "// nothing\n" for crate in ("abt", "abt_low", "abt_c")})
        put(self.root, {"crates.txt": "abt:\nabt_low:\nabt_c staticlib: abt_low\n"})
        self.program, self.library = (self.root / "crates" / it for it in ("abt/out/abt", "abt_c/out/libabt_c.a"))
        self.git("init", "-q")
        self.git("add", "-A")
        self.git("commit", "-qm", "all")
        self.commit = self.git("rev-parse", "HEAD").strip()
        self.make_well()

    def git(self, *words):
        return subprocess.run([*GIT, *words], cwd=self.root, check=True, capture_output=True, text=True).stdout

    def make_well(self):
        """All that a release needs, newer than each source."""
        past = time.time() - 60
        for file in self.root.rglob("crates*"):
            for source in [file, *file.rglob("*")]:
                os.utime(source, (past, past))
        os.utime(self.root / "HANDLES", (past, past))
        self.program.parent.mkdir(exist_ok=True)
        self.program.write_text("#!/bin/sh\n")
        (self.program.parent / "abt.built").touch()
        self.make_library("int abt_raw_one(void) { return 1; }", "int abt_raw_one(void); int abt_raw_two(void) { return abt_raw_one(); }")
        self.write_log("1 passed, 0 failed")

    def make_library(self, *codes):
        """A library of these members, which may use one another."""
        self.library.parent.mkdir(exist_ok=True)
        self.library.unlink(missing_ok=True)
        for number, code in enumerate(codes):
            source = self.library.with_name(f"member{number}.c")
            source.write_text(code)
            subprocess.run(["cc", "-O1", "-fPIC", "-c", "-o", source.with_suffix(".o"), source], check=True)
            subprocess.run(["ar", "rcD", self.library, source.with_suffix(".o")], check=True)

    def write_log(self, last, commit=None):
        self.log.write_text(LOG.format(commit=commit or self.commit, last=last))

    def release(self, to):
        ended = run(sys.executable, ["-B", self.root / "tools" / "release", self.log, "--to", to])
        return ended.status, ended.output + ended.told

    def age(self, file, seconds=600):
        os.utime(file, (time.time() - seconds,) * 2)

    def age_between(self):
        """The library is older than a crate below it, and newer than its own."""
        self.age(self.library, 45)
        self.age(self.root / "crates" / "abt_low" / "src" / "lib.rt", 30)


def refusals(it):
    """What is wrong, how it is made so, and what is told of it."""
    yield "changes", lambda: (it.root / "tools" / "new").touch(), "the checkout has changes"
    (it.root / "tools" / "new").unlink()
    yield "another commit", lambda: it.write_log("1 passed, 0 failed", "1" * 40), "isn't of this commit"
    yield "no gate", lambda: it.log.write_text("1 passed, 0 failed\n"), "but of none"
    for last in ("9 passed, 1 failed", "0 passed, 0 failed", "gate: rt ci: 3 minutes"):
        yield last, lambda last=last: it.write_log(last), "the gate wasn't green"
    yield "no log", lambda: it.log.unlink(), "No such file"
    yield "no program", lambda: it.program.unlink(), "the proved program isn't there, or older"
    yield "an old program", lambda: it.age(it.program.parent / "abt.built"), "the proved program isn't there, or older"
    yield "no library", lambda: it.library.unlink(), "the proved library isn't there, or older"
    yield "an old library", lambda: it.age(it.library), "the proved library isn't there, or older"
    yield "a library older than a crate below", it.age_between, "the proved library isn't there, or older"
    code = 'int puts(const char *); int abt_raw_one(void) { return puts(""); }'
    yield "another library", lambda: it.make_library(code), "isn't the kit's: it wants puts"


def packages(folder):
    it = Repository(folder)
    for what, spoil, told in refusals(it):
        it.make_well()
        spoil()
        to = folder.with_name("none")
        status, said = it.release(to)
        yield f"{what} is refused, but: status {status}, {said}", status == 1 and told in said and not to.exists()
    it.make_well()
    made = []
    for to in (folder.with_name("one"), folder.with_name("two")):
        status, said = it.release(to)
        yield f"a release is made, but: {said}", status == 0
        made.append({file.name: file.read_bytes() for file in to.iterdir()})
    yield "two runs make the same octets", made[0] == made[1]
    archive = next(file for file in to.iterdir() if file.name.endswith(".tar.gz"))
    with tarfile.open(archive) as tar:
        receipt = tar.extractfile(f"{archive.name.removesuffix('.tar.gz')}/share/doc/abt/RECEIPT").read().decode()
    for line in (f"commit {it.commit}", "kit rattle-kit logic 1", "gate 1 passed, 0 failed"):
        yield f"the receipt has {line!r}, but: {receipt[:300]}", line in receipt.split("\n")


if all(map(shutil.which, ("cc", "ar", "make", "git", "nm"))):
    claims(packages)
else:
    print("release: no cc, ar, make, git or nm here, so nothing was looked at")
