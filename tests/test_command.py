"""Tests `./abt --test` on a small repository of its own, with the real kit: one test that passes, one that fails, one without an end, a
script that passes with the program and one with that of the tests, and one that fails.

usage: test_command.py
"""
import os
import shutil
import signal
import sys

from harness import case_file, claims, copy_parts, interrupted, is_at_work, put, run

# Less than any program has, in the units of sh.
LITTLE_ROOM = 64
# How much of the last that a run told is shown where it isn't as wanted.
TOLD = 1000


class Repository:
    """A copy of the script and its tools, with the crates and scripts of tests/cases/repository.toml."""

    def __init__(self, folder):
        self.root, self.out, self.program = folder, folder / "crates/abt/out", folder / "crates/abt/src/main.rt"
        put(folder, case_file("repository")["files"])
        copy_parts(folder, "abt", "tools", "man")

    def words(self, *more):
        return [str(self.root / "abt"), "--test", "--seconds", "5", *more]

    def run(self, *more, shell="", path=None):
        words = ["sh", "-c", f'{shell} exec "$@"', "", *self.words(*more)] if shell else self.words(*more)
        environment = {**os.environ, **({"PATH": path} if path else {})}
        ended = run("sh", ["-c", 'exec "$@" 2>&1', "", *words], env=environment, timeout=600)
        return ended.status, ended.output

    def left(self):
        """What lies in out/ that isn't whole."""
        return sorted(file.name for file in self.out.iterdir() if file.name.startswith("making-")) if self.out.is_dir() else []


def last_line(told):
    return told.rstrip("\n").split("\n")[-1]


def whole(folder):
    it = Repository(folder)
    status, told = it.run()
    yield "all parts are counted", (status, last_line(told)) == (1, "3 passed, 3 failed")
    yield "a script that passes is told", "passed tests/good.py in" in told
    yield "a script is handed the program of all tests", "passed tests/of_tests.py in" in told
    again = "FAILED tests/bad.py: status 1; again: ./abt --test tests/bad.py\nthis one fails"
    yield "a script that fails is told with its words", again in told
    yield "a test that fails is told", "FAILED abt_few_tests_tests::one_fails: status" in told
    yield "a test without an end is told", "FAILED abt_few_tests_tests::one_has_no_end: no end after 5 seconds" in told
    behind = told.split("compiled all tests")[-1]
    yield "what fails stands once more at the end", behind.count("FAILED") >= 3 and "test: FAILED tests/bad.py" in behind
    status, told = it.run("abt_few_tests_tests::one_passes")
    yield "one test runs alone", (status, last_line(told)) == (0, "1 passed, 0 failed")
    yield "nothing is compiled again", "compiling the program" not in told
    status, told = it.run("tests/bad.py")
    yield "one script runs alone", (status, last_line(told)) == (1, "0 passed, 1 failed")
    status, told = it.run("nothing_of_this_name")
    yield "a name that nothing has is told", status == 1 and "no script or test has such a name" in told
    yield f"nothing is left half made, but {it.left()}", it.left() == []


def faults(folder):
    it = Repository(folder)
    source = it.program.read_text()
    it.program.write_text(source.replace("println!(rt;", "print_line!(rt;"))
    status, told = it.run("tests/good.py")
    yield f"a source that can't be compiled is told, but {(status, told[-TOLD:])}", status == 1 and "FAILED compiling the program" in told and "print_line" in told
    it.program.write_text(source)
    shutil.rmtree(it.out)
    status, told = it.run(shell=f"ulimit -f {LITTLE_ROOM};")
    yield "without room the end is clear", status == 1 and "FAILED compiling all tests" in told and last_line(told).endswith("failed")
    made = [file.name for file in it.out.iterdir() if file.name != "making.lock"]
    yield f"without room nothing is made, but {made}", made in ([], ["compile.log"])
    status, told = it.run(path=f"/usr/bin:/bin:{os.path.dirname(sys.executable)}")
    yield "without the kit the status is 70", status == 70 and "the command rt of the Rattle kit has to be on PATH" in told


def interrupts(folder):
    it = Repository(folder)
    for number in (signal.SIGINT, signal.SIGTERM):
        status, told = interrupted(it.words(), number, it.left)
        yield f"{number.name} ends it, but {(status, told[-TOLD:])}", status == 128 + number and "nothing is left half made" in told
        yield f"{number.name} leaves nothing behind, but {it.left()}", it.left() == []
        yield f"{number.name} ends what it started", not is_at_work(str(it.out))


claims(whole, faults, interrupts)
