"""Runs the program in terminals of their own: the line that tells how far it is, and where there is none (docs/FORMATS.md, "Progress");
and advice, which is told on a terminal alone ("Checks").

A window of 20 columns shows what it would without the line, and the line in one row as long as it stands. Where the system gives no
pseudo-terminals nothing is looked at.

usage: progress.py PROGRAM..
"""
import os
import re
import signal
import sys
import tempfile

from harness import ROOT, main, put, run, scenario
from terminal import Terminal, Window

sys.path.insert(0, str(ROOT / "bench"))
import audits  # noqa: E402

PACE = 262_144
DRAWN = re.compile(rb"\r\x1b\[\?7labt: (\d+) octets read(, at work)?\x1b\[K\x1b\[\?7h")
CLEARED = b"\r\x1b[K"
NARROW = 20
# What a scenario has, and a line of it that says nothing.
EVENTS = [f"start 0 {moment}" for moment in range(300)]
FILLING = "# " + 61 * "." + "\n"
THREADS = "threads --workers 2"
PLAY = "play --seed 1"
OF_LONG = ("run", "run --json", "run --explain", "explain", "explain --json", THREADS, f"{THREADS} --journals OUT", f"{THREADS} --explain")
# A net of a port and a connection, and what makes a scenario of it.
NET = b"ports = [512000]\n%s\n[[connection]]\nvpi = 1\nvci = 100\npath = [0]\ndelay = 0\ntau = 0\n%s\n"
SCRIPTS, OPERATOR, EVENT = NET % (b"", b"script = ['start 0']"), NET % (b"operator = ['capacity 0 5']", b""), NET % (b"events = ['start 0 0']", b"")
BOTH, NOTHING = NET % (b"events = ['start 0 0']", b"script = ['start 0']"), NET % (b"", b"script = []")
TOO_LONG, LIMIT = b"#" * ((16 << 20) + 1), "a text may have at most 16777216 octets\n"
FOR_SCRIPTS = "this scenario has only scripts: use abt threads, or abt play\n"
FOR_EVENTS = "this scenario has only events: use abt run\n"
FOR_NOTHING = "nothing runs: there are no events and no scripts\n"
# Commands over these, and what is told on a terminal alone; with --explain the advice is told anywhere.
ADVISED = [
    ("run", SCRIPTS, FOR_SCRIPTS),
    ("run", OPERATOR, FOR_SCRIPTS),
    ("run --json", SCRIPTS, ""),
    ("run --explain", SCRIPTS, ""),
    *(("run", text, "") for text in (EVENT, BOTH)),
    (THREADS, EVENT, FOR_EVENTS),
    *((THREADS, text, "") for text in (SCRIPTS, OPERATOR, BOTH)),
    ("run", NET % (b"events = ['akk 0']", b""), "abt check says why\n"),
    (THREADS, NET % (b"events = ['akk 0']", b""), "abt check says why\n"),
    *((words, text, FOR_SCRIPTS) for words in ("explain", "draw -o -") for text in (SCRIPTS, OPERATOR)),
    *((words, text, "") for words in ("explain", "draw -o -") for text in (EVENT, BOTH, b"\xff")),
    *((words, SCRIPTS, "") for words in ("explain --json", "draw --workers 1 -o -")),
    (PLAY, EVENT, FOR_EVENTS),
    *((PLAY, text, "") for text in (SCRIPTS, OPERATOR, BOTH, b"\xff")),
    *((words, NOTHING, FOR_NOTHING) for words in ("run", "explain", "draw -o -", THREADS, PLAY)),
    *((words, NOTHING, "") for words in ("run --json", "run --explain", "run --strict")),
    *((words, TOO_LONG, LIMIT) for words in ("run --quiet", "explain --quiet", "draw -o -", f"{THREADS} --quiet", PLAY)),
    *((words, TOO_LONG, "") for words in ("run --json --quiet", "check")),
    *((words, NET % (b"events = ['akk 0']", b""), "abt check says why\n") for words in ("explain", "draw -o -", PLAY)),
    ("run", b"\xff", ""),
    ("check", SCRIPTS, ""),
]
# Cells of 53 octets and of others, on a terminal.
HEC = "a cell has 52 octets here: of 53, the fifth may be the HEC octet, which is left out\n"
ADVISED += [(f"cell {'00' * octets}", b"", HEC if octets == 53 else "") for octets in (51, 52, 53, 54)]
ADVISED += [(f"cell {'00' * 53} --json", b"", "")]
CASES = [*((words, "long.toml") for words in OF_LONG), ("audit", "run.jsonl"), ("run", "faulty.toml"), ("run --explain", "faulty.toml")]


def lines_in(shown):
    """The lines that were drawn, each with its octets and whether the input had ended; and what else was shown, beside none of them."""
    drawn = [(int(octets), bool(ended)) for octets, ended in DRAWN.findall(shown)]
    rest = DRAWN.sub(b"\x00", shown)
    beside = re.search(rb"\x00(?!\x00|\r\x1b\[K).*", rest, re.S)
    assert not beside, f"a line stands, and behind it: {beside[0][1:80]}"
    return drawn, rest.replace(b"\x00", b"").replace(CLEARED, b"")


def look_at_drawn(what, told, plain, length):
    """Looks at what was told of a long input with the line, beside what is told without."""
    status, out, shown = told
    drawn, other = lines_in(shown)
    assert (status, out, other) == plain, (what, status, other[:80])
    assert drawn[0][0] >= PACE and drawn[-1] == (length, True), (what, drawn[0], drawn[-1], length)
    # It stands at work, and again behind the lines that go out.
    assert sum(ended for _, ended in drawn) > bool(out), (what, drawn)
    octets = [count for count, ended in drawn if not ended]
    assert len(octets) >= length // (2 * PACE), f"too few lines of {what}"
    assert all(second - first >= PACE for first, second in zip(octets, octets[1:])), f"too many lines of {what}"


def advice(words, file, name):
    """What is advised on a terminal alone."""
    if words == ["run"] and file.name == "faulty.toml":
        return f"abt check{name} says why\n"
    return FOR_EVENTS if words == THREADS.split() else ""


def look_at_advice(program, words, text, told):
    """A short scenario as standard input in a terminal: what is told there, and that nothing is without one."""
    with tempfile.TemporaryFile() as stdin:
        stdin.write(text)
        stdin.seek(0)
        shown = Terminal([program, *words], stdin=stdin).end()
    plain = run(program, words, text)
    assert shown == (plain.status, plain.output.encode(), f"{plain.told}{told}".replace("\n", "\r\n").encode()), (words, shown)


def look_at_long(program, words, file):
    """Runs a command over a long input, by name and as standard input; then with --quiet, in a dumb terminal, and in a narrow window."""
    status, out, told = run(program, [*words, file])
    assert "\x1b" not in told, ("no terminal", told[:80])
    length = os.path.getsize(file)

    def with_advice(name):
        return status, out.encode(), (told + advice(words, file, name)).replace("\n", "\r\n").encode()

    with open(file, "rb") as stdin:
        look_at_drawn("standard input", Terminal([program, *words], stdin).end(), with_advice(""), length)
    plain = with_advice(f" {file}")
    look_at_drawn("a file", Terminal([program, *words, file]).end(), plain, length)
    for more, term in ((["--quiet"], "xterm"), ([], "dumb"), ([], None)):
        silent = Terminal([program, *words, *more, file], term=term).end()
        assert silent == plain, (more, term, silent[2][:80])
    look_at_narrow(program, words, file)


def look_at_narrow(program, words, file):
    """In a narrow window the line stands in one row, and what the window shows in the end is what it does without the line."""
    window, without = Window(NARROW), Window(NARROW)
    without.tell(Terminal([program, *words, "--quiet", file], columns=NARROW, both=True).end()[2])
    shown = Terminal([program, *words, file], columns=NARROW, both=True).end()[2]
    assert len(DRAWN.findall(shown)) > 1, "a narrow window has no line"
    for drawn in re.split(rb"(?<=\x1b\[\?7h)", shown):
        rows = len(window.rows)
        window.tell(drawn)
        if drawn.startswith(b"\r\x1b[?7l"):
            assert len(window.rows) == rows and window.wraps, f"the line takes more than one row: {drawn}"
    assert window.lines() == without.lines(), "a narrow window shows something else"


def look_at_interrupt(program):
    """Ctrl-C while the program waits for more of a long input: it ends by the signal, with the line whole and the settings as before."""
    reader, writer = os.pipe()
    terminal = Terminal([program, "run"], stdin=reader)
    os.close(reader)
    for _ in range(10):
        os.write(writer, b"#" * 40_000)
    terminal.read(until=b"octets read")
    assert DRAWN.search(terminal.shown), "nothing is drawn while the program waits"
    os.write(terminal.master, b"\x03")
    status, out, shown = terminal.end()
    os.close(writer)
    assert (status, out) == (-signal.SIGINT, b""), (status, out)
    assert DRAWN.sub(b"", shown) == b"^C", f"a line isn't whole: {shown[-80:]}"


def look_at_none(program, words, text):
    """No line is drawn of a short input, or by a command that reads no long one."""
    with tempfile.TemporaryFile() as stdin:
        stdin.write(text)
        stdin.seek(0)
        status, _, shown = Terminal([program, *words], stdin=stdin).end()
    assert (status, shown) == (0, b""), (status, shown[:80])


def look(trial):
    try:
        for side in os.openpty():
            os.close(side)
    except OSError as error:
        return f"nothing was looked at, since there are no pseudo-terminals here: {error}"
    long = scenario([512000], EVENTS) + FILLING * (5 * PACE // len(FILLING) + 1)
    put(trial.folder, {"long.toml": long, "faulty.toml": "#" * (2 * PACE) + "\nports = 1\n"})
    audits.written(trial.folder / "run.jsonl", 16, 1, 12_000, False)
    for words, file in CASES:
        words = words.replace("OUT", str(trial.folder / "out.jsonl")).split()
        trial.checks(f"{words} of {file}", look_at_long, trial.program, words, trial.folder / file)
    for words, text in ((["run"], EVENT), (["shape", "--rate", "53e8"], b"0\n" * 300_000)):
        trial.checks(f"{words} of a short input", look_at_none, trial.program, words, text)
    for words, text, told in ADVISED:
        trial.checks(f"advice on {words}", look_at_advice, trial.program, words.split(), text, told)
    trial.checks("an interrupt", look_at_interrupt, trial.program)
    return f"{len(CASES) + len(ADVISED) + 3} kinds of commands"


main(look)
