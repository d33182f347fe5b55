"""Runs the parts by hand: the policer's worked table of docs/RULES.md, the test cells of docs/FORMATS.md, lines that can't be served,
pipes, 100,000 cells, and codes that are nearest to rates.

A unit of the table is 100,000,000 picoseconds: its spacing of 10 is that of the rate 53e8, and its tolerance of 2 is 200000000. 100,000
cells, some 10 MB, may take 2 MiB more memory than 1,000 do.

usage: parts.py PROGRAM..
"""
import os
import re
import subprocess
import tempfile
from collections import deque
from fractions import Fraction

from harness import End, main, worked

UNIT = 100_000_000
POLICE = ["police", "--tau", str(2 * UNIT), "--rate", "53e8"]
SHAPE = ["shape", "--rate", "53e8"]
CELL = ["cell", "--stdin"]
PORT = ["port", "512000", "--stdin"]
FLAT = 2048
# What a unit of a rate in words is, in cells per second.
WORDS = {"cps": Fraction(1), "bps": Fraction(1, 424), "kbps": Fraction(1000, 424), "Mbps": Fraction(10**6, 424), "Gbps": Fraction(10**9, 424)}
# What a policer and a shaper tell at rate 0.
ZERO = "this rate is 0, so no cell passes; cells per second are written as 1000cps\n"
RATES = """500cps 1.3Mbps 64kbps 149.76Mbps 424bps 0cps 000.000000000Mbps 0.000000001bps 0.5cps 0.999999999cps 1cps 1.000000001cps
1023.5cps 4290772992cps 4290772992.000000001cps 9999999999999999999Mbps 9999999999999999999.999999999Mbps
1Gbps 0.000000001Gbps 1.23456789Gbps 1819.28Gbps 9999999999999999999.999999999Gbps""".split()
# Tolerances, and what they are in picoseconds.
TOLERANCES = {"200ps": 200, "200ns": 200_000, "0200us": 200_000_000, "1000ms": 10**12, "0ns": 0}


def worked_table():
    """The rows of the table: the moment of an arrival in picoseconds, and its answer."""
    for at, tat, verdict, after in worked("RULES.md", r"^\| (\d+) \| (\d+|absent) \| (Conforming|TooEarly) \| (\d+) \| ", 5):
        at, before, after = int(at) * UNIT, None if tat == "absent" else int(tat) * UNIT, int(after) * UNIT
        early = 0 if before is None else max(0, before - at)
        yield str(at), f"at {at} {verdict} early {early} tat {'absent' if before is None else before} then {after}"


def test_cells():
    """The test cells by name, and what each is said to be: message, vpi, vci, number, floor, ask."""
    said = r", ".join(("(request|yes|no)", r"vpi (\d+)", r"vci (\d+)", r"number (\d+)", r"floor (\w+)", r"ask (\w+)"))
    rows = worked("FORMATS.md", rf"^\| (A|B|B2|NB|YA|LA) \| [^\n]* \| {said} \|$", 6)
    return dict(worked("FORMATS.md", r"^(A|B|B2|NB|YA|LA)=([0-9a-f]{104})$", 6)), {name: words for name, *words in rows}


def reading(kind, vpi, vci, seq, floor, ask):
    """What `abt cell` says of a message."""
    return f"{'request' if kind == 'request' else f'answer {kind}'} vpi {vpi} vci {vci} seq {seq} floor {floor} ask {ask}"


def try_cells(trial, cells, read):
    """Cells on lines: by case files with the test cells, and what the words of the same commands are answered."""
    lines = [cells["A"], "zz", cells["B"], cells["B2"].upper()]
    trial.wants("cells as words", trial.run(*PORT, text="\n".join(lines)), trial.run("port", "512000", *lines))
    values = cells | {f"{name}_": cell.upper() for name, cell in cells.items()} | {f"read_{name}": told for name, told in read.items()}
    values |= {"wrong": cells["A"][:-1] + "d", "short": "00" * 51, "long": "0" * 4097, "digits": "1" * 4097, "garbled": "\udcff" * 104}
    return trial.cases("parts", **values)


def peak_of(program, words, line, count):
    """The status, how many answers there are, the last two of them, and the peak of memory in KiB. That is at least what this script
    itself takes, so neither the lines nor the answers are held here."""
    with tempfile.TemporaryFile() as given, tempfile.TemporaryFile() as answered:
        for _ in range(count // 1_000):
            given.write(line * 1_000)
        given.seek(0)
        # A checked build keeps what was freed, unless it is told not to.
        settings = os.environ | {"ASAN_OPTIONS": "quarantine_size_mb=0:thread_local_quarantine_size_kb=0:detect_leaks=0"}
        process = subprocess.Popen([program, *words], stdin=given, stdout=answered, env=settings)
        _, status, usage = os.wait4(process.pid, 0)
        process.returncode = os.waitstatus_to_exitcode(status)
        answered.seek(0)
        number, last = 0, deque(maxlen=2)
        for number, text in enumerate(answered, 1):
            last.append(text.decode())
        return process.returncode, number, "".join(last), usage.ru_maxrss


def try_many(trial, cells):
    """A request and its repeats, and a cell that is read: the last answers, and memory that doesn't grow."""
    line, said = cells["A"].encode() + b"\n", "request vpi 1 vci 100 seq 1 floor 0000 ask 5258"
    for words, answers, last in [
        (PORT, 100_001, f"100000 pass {cells['A']}\ntotal 307200\n"),
        (CELL, 100_000, f"99999 {said}\n100000 {said}\n"),
    ]:
        few, many = peak_of(trial.program, words, line, 1_000), peak_of(trial.program, words, line, 100_000)
        trial.wants(f"100,000 lines for {words}", (0, answers, last), many[:3])
        if many[3] > few[3] + FLAT:
            trial.fail(f"{words}: 1,000 lines take {few[3]} KiB, and 100,000 lines {many[3]} KiB")


def rates():
    """The canonical codes and their units (docs/RULES.md, "Rates")."""
    yield 0, 0
    for code in range(0x4000, 0x8000):
        yield code, (512 + code % 512) << (code >> 9) % 32


def code_line(side, found):
    if found is None:
        return f"{side} none\n"
    code, units = found
    return f"{side} {code:04x} units {units} spacing {'none' if units == 0 else -(-512 * 10**12 // units)}\n"


def try_rates(trial):
    """The codes nearest to rates, by exact fractions over all codes; and these rates for a policer and a shaper."""
    known = list(rates())
    for text in RATES:
        number, word = re.fullmatch(r"([\d.]+)([a-zA-Z]+)", text).groups()
        cells = Fraction(number) * WORDS[word]
        below = max((rate for rate in known if rate[1] <= 512 * cells), key=lambda rate: rate[1])
        above = min((rate for rate in known if rate[1] >= 512 * cells), key=lambda rate: rate[1], default=None)
        trial.wants(f"code {text}", End(0, code_line("below", below) + code_line("above", above)), trial.run("code", text))
        # A policer and a shaper take the code below, and tell it if it isn't just that, or is 0.
        exact = below[1] == 512 * cells
        told = (ZERO if below[1] == 0 else "") if exact else f"no code says this rate: {code_line('below', below)}"
        for words in (["police", "--tau", "5", "--rate"], ["shape", "--rate"]):
            end = trial.run(*words, f"{below[0]:04x}", text="0\n7\n")
            trial.wants(f"{words} {text}", End(end.status, end.output, told), trial.run(*words, text, text="0\n7\n"))


def try_units(trial, request):
    """Tolerances in words, and a port whose capacity is a rate: a request for 600 cells per second fits into just that."""
    for word, tau in TOLERANCES.items():
        wanted = trial.run("police", "--tau", tau, "--rate", "53e8", text=f"0\n{10**9 - tau}\n")
        trial.wants(f"--tau {word}", wanted, trial.run("police", "--tau", word, "--rate", "53e8", text=f"0\n{10**9 - tau}\n"))
    for word, units in [("600cps", 307_200), ("599.999cps", 307_199), ("0.2544Mbps", 307_200), ("0.2543999Mbps", 307_199), ("155Mbps", 187_169_811)]:
        wanted = trial.run("port", units, request)
        trial.wants(f"port {word}", wanted, trial.run("port", word, request))


def look(trial):
    rows, (cells, said) = list(worked_table()), test_cells()
    read = {name: reading(*words) for name, words in said.items()}
    count = try_cells(trial, cells, read)
    table = trial.run(*POLICE, text="".join(f"{at}\n" for at, _ in rows))
    trial.wants("the worked table", End(0, "".join(f"{number} {told}\n" for number, (_, told) in enumerate(rows, 1))), table)
    for words, lines, last in [
        (POLICE, rows, ""),
        (SHAPE, [("0", "ready 0 leaves 0 next 1000000000"), ("x", "fault number")], ""),
        (CELL, [(cells["NB"], read["NB"]), ("zz", "fault hex"), (cells["LA"], read["LA"])], ""),
        (PORT, [(cells["A"], f"pass {cells['A']}"), ("", "fault Length"), (cells["B"], f"refuse {cells['NB']}")], "total 307200\n"),
    ]:
        trial.pipe(words, [(line, f"{number} {told}") for number, (line, told) in enumerate(lines, 1)], last)
    try_rates(trial)
    try_units(trial, cells["A"])
    for name, words in said.items():
        trial.wants(f"the cell {name}, written", End(0, cells[name] + "\n"), trial.run("write", *words))
    try_many(trial, cells)
    return f"{len(rows)} rows of the worked table, {len(cells)} test cells, {count} cases"


main(look)
