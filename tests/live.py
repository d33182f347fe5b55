"""Runs three sources and two ports as processes over a bad network (tests/network.py), and has `abt audit` find that their journals are
woven and safe: as they are, but for `about` lines, which are left out.

A second run has the messages go as cells behind an octet (`--binary`).

Before that, stores, journals, ports and connections that can't be had are told by name, a journal that can't grow ends its switch with no
answer that it doesn't have, and SIGTERM ends processes as a kill does. Three runs of each of two controls have to be found behind it: a
source whose store is put back to an older file after each kill, and requests that overtake cells on an access line.

With --long it goes on so for an hour, or for so many minutes: run after run, each with the next seed.

usage: live.py PROGRAM.. [--steps N] [--seed N] [--long [MINUTES]]
"""
import argparse
import json
import os
import re
import resource
import shutil
import signal
import subprocess
import sys
import time
from pathlib import Path

from network import CONNECTIONS, PORTS, Live, Run, lines_of, played

ROOT = Path(__file__).resolve().parent.parent
sys.path.insert(0, str(ROOT / "tools"))
import processes  # noqa: E402

# How many steps a control takes.
CONTROL = 3000
# For how many seconds at most a process may look at a FIFO.
SOON = 10
# How an audit tells that journals are wrong.
WRONG = re.compile(r"fault: (?:Mismatch|NoOrder)\naudited\.\w+\.jsonl:\d+: \{")
# Lines of a source's journal: it started, was about to ask, asked with a write that failed, and crashed.
STARTED = '{"source":0,"did":{"start":0},"outcome":"started"}\n'
ABOUT = '{"about":0,"ask":"5120"}\n'
FAILED = '{"source":0,"did":{"ask":"5120","store":"failed"},"outcome":{"refused":"Keep"}}\n'
CRASHED = '{"source":0,"did":"crash","outcome":"crashed"}\n'


def audited(run):
    """The texts for the audit, by their names: the net, and each journal as it is, without `about` lines."""
    texts = {"net.jsonl": [json.dumps({"net": {"ports": PORTS, "connections": CONNECTIONS}}).encode(), b""]}
    for journal in [*run.ports, *(source.journal for source in run.sources)]:
        texts[f"audited.{journal.name}"] = [line for line in journal.read_bytes().split(b"\n") if not line.startswith(b'{"about"')]
    return texts


def audit(program, run):
    """The status and the texts of an audit of a run's journals, and how many lines it reads."""
    texts = audited(run)
    for name, lines in texts.items():
        (run.folder / name).write_bytes(b"\n".join(lines))
    done = subprocess.run([program, "audit", *texts], cwd=run.folder, capture_output=True, text=True, timeout=600)
    return done.returncode, done.stdout, done.stderr, sum(len(lines) - 1 for lines in texts.values())


def refusals(program, folder):
    """Lines that aren't served, and a journal that can't be written: none changes anything, and nothing goes out that isn't in a journal."""
    run = Run(program, folder, 1)
    source, switch = run.sources[0].live, run.switches[0]
    told = [source.ask(line) for line in ["emit 5", "start 0", "start 1", "ask 512", "ask 5120 works", "x" * 5000, "ff", "again", "emit x"]]
    wanted = ["fault Down", "started", "fault Running", "fault words", "fault words", "fault TooLong", "fault Length", "fault NotAsking", "fault words"]
    request = source.ask("ask 5120")[1]
    told += [switch.ask(line) for line in [f"1 {request}", "0 data 0 9 9 5", "0 capacity", f"0 {request} ", "0 zz"]] + [source.ask(request)]
    wanted += ["fault port", "fault UnknownVc", "fault words", "fault words", "fault hex", "fault request"]
    run.end()
    bad = [(" ".join(said), right) for said, right in zip(told, wanted) if " ".join(said) != right]
    if bad or lines_of(run.ports[0]):
        return f"FAILED: {bad or 'a line with a fault is in a journal'}"
    return None


def told(program, words, **more):
    """The status of a process without input, and the lines of its faults."""
    more = {"timeout": 60, **more}
    done = subprocess.run([str(word) for word in (program, *words)], stdin=subprocess.DEVNULL, capture_output=True, text=True, **more)
    return done.returncode, done.stderr.splitlines()


def sourced(net, conn, store, journal, *more):
    return ["source", net, conn, "--store", store, "--journal", journal, *more]


def file_faults(program, folder):
    """Stores and journals that can't be had, and what a net lacks: each is told by its name, and no store and no journal changes."""
    run = Run(program, folder, 1)
    source, net, other = run.sources[0], run.net, folder / "other"
    store, journal, whole = source.store, source.journal, source.oldest
    source.live.ask("start 5")
    (folder / "copy").write_bytes(whole)
    cases = [
        ("store", store, "another process uses it", sourced(net, 0, store, other)),
        ("journal", journal, "another process uses it", sourced(net, 0, folder / "copy", journal)),
        ("journal", journal, "another process uses it", sourced(net, 0, folder / "none", journal, "--new")),
    ]
    alive = journal.read_bytes()
    found = [(case, told(program, case[3])) for case in cases]
    if journal.read_bytes() != alive:
        return "FAILED: a process wrote into the journal of another one"
    run.end()
    lines = journal.read_bytes()
    spoiled = {
        "short": (whole[:5000], "it hasn't the 16384 octets of a store"),
        "format": (b"y" + whole[1:], "it is no store of a source"),
        "version": (whole[:23] + b"\x02" + whole[24:], "it is a store of another version"),
        "damaged": (whole[:8192] + b"\xff" + whole[8193:12288] + b"\xff" + whole[12289:], "it is damaged"),
    }
    for name, (octets, _) in spoiled.items():
        (folder / name).write_bytes(octets)
    foreign, early = folder / "foreign.jsonl", folder / "early.jsonl"
    foreign.write_bytes(lines.replace(b'"source":0', b'"source":1'))
    early.write_text(STARTED + '{"source":0,"did":{"emit":5},"outcome":{"emitted":{"cell":0,"next":9}}}\n')
    (folder / "left.new").touch()
    unfinished = "a file of its name with .new is there, which was left or is being made"
    cases = [
        ("store", store, "it is there already; without --new it is used", sourced(net, 0, store, other, "--new")),
        ("store", folder / "none", "there is no such store, or no such folder; --new makes a store in a folder that is there", sourced(net, 0, folder / "none", journal)),
        ("store", folder, "it is no regular file", sourced(net, 0, folder, journal)),
        *[("store", folder / name, why, sourced(net, 0, folder / name, journal)) for name, (_, why) in spoiled.items()],
        ("journal", folder / "none", "there is no such journal; --new begins one", sourced(net, 0, store, folder / "none")),
        ("journal", journal, "it has lines already, and a new source has none", sourced(net, 0, folder / "none", journal, "--new")),
        ("journal", foreign, "it is no journal of this source", sourced(net, 0, store, foreign)),
        ("journal", folder, "it is a folder", sourced(net, 0, store, folder)),
        ("journal", early, "it tells more cells than fit before its last moment", sourced(net, 0, store, early)),
        ("journal", "/dev/null", "the system doesn't open it", sourced(net, 0, store, "/dev/null")),
        ("journal", "/dev/null", "the system doesn't open it", sourced(net, 0, folder / "none", "/dev/null", "--new")),
        ("store", folder / "left", unfinished, sourced(net, 0, folder / "left", folder / "begun", "--new")),
        ("connection", 7, "the net has no such connection", sourced(net, 7, store, journal)),
        (
            "journal",
            run.ports[0],
            "it is there already; a switch that ended lost its reservations: end its sources, and begin all with new journals",
            ["switch", net, "--journal", run.ports[0], "--port", 0],
        ),
        ("journal", other / "j", "there is no such folder", ["switch", net, "--journal", other / "j", "--port", 0]),
        ("port", 9, "the net has no such port", ["switch", net, "--journal", folder / "none", "--port", 0, "--port", 9]),
    ]
    found += [(case, told(program, case[3])) for case in cases]
    for (kind, name, why, words), said in found:
        if said != (1, [f"fault: {kind}", f"{name}: {why}"]):
            return f"FAILED: {[str(word) for word in words]} gave {said}"
    if store.read_bytes() != whole or journal.read_bytes() != lines:
        return "FAILED: a store or a journal changed"
    if other.exists() or (folder / "none").exists() or (folder / "begun").read_bytes():
        return "FAILED: a journal was made beside a store that is there, or for a switch that has no port, or it has a line"
    return None


def mended(program, folder):
    """What a source finds in its journal when it starts again, and what it leaves there before its first line."""
    run = Run(program, folder, 1)
    run.end()
    store, journal = run.sources[0].store, run.sources[0].journal
    for found, left in {
        "": "",
        STARTED[:9]: "",
        STARTED: STARTED + CRASHED,
        STARTED[:-1]: STARTED + CRASHED,
        STARTED + CRASHED: STARTED + CRASHED,
        (STARTED + CRASHED)[:-1]: STARTED + CRASHED,
        STARTED + CRASHED[:20]: STARTED + CRASHED,
        STARTED + ABOUT: STARTED + ABOUT + FAILED + CRASHED,
        (STARTED + ABOUT)[:-1]: STARTED + ABOUT + FAILED + CRASHED,
        STARTED + ABOUT[:10]: STARTED + CRASHED,
        ABOUT: ABOUT + FAILED,
        ABOUT + FAILED: ABOUT + FAILED,
    }.items():
        journal.write_text(found)
        status, said = told(program, sourced(run.net, 0, store, journal))
        if (status, said, journal.read_text()) != (0, [], left):
            return f"FAILED: the journal {found!r} became {journal.read_text()!r}, with {status} and {said}"
    journal.write_text(STARTED.replace("0}", "7}"))
    live = Live([program, *sourced(run.net, 0, store, journal)])
    said = [live.ask(f"start {moment}") for moment in (6, 7)]
    live.end()
    return None if said == [["fault", "ClockBack"], ["started"]] else f"FAILED: behind a start at 7, starts at 6 and 7 gave {said}"


def terminated(program, folder):
    """SIGTERM ends a source and a switch as a kill does: what was answered is in their journals, and the source starts again over its store
    and its journal. The others end with their input, with status 0."""
    run = Run(program, folder, 1)
    source, switch = run.sources[0], run.switches[0]
    said = [source.live.ask(line) for line in ("start 5", "ask 5258")]
    said += [switch.ask(f"0 {said[1][-1]}")]
    for live in (source.live, switch):
        live.process.terminate()
    statuses = [live.process.wait(60) for live in (source.live, switch)]
    source.begin()
    said += [source.live.ask(line) for line in ("start 6", "ask 5120")]
    ended = run.end()
    if [it[0] for it in said] != ["started", "rm", "send", "started", "rm"]:
        return f"FAILED: around a SIGTERM the answers were {said}"
    if statuses != [-signal.SIGTERM] * 2 or ended != [0, 0, 0, -signal.SIGTERM, 0]:
        return f"FAILED: a SIGTERM gave the statuses {statuses}, and all ended with {ended}"
    did = [entry["did"] for entry in lines_of(source.journal) if "did" in entry]
    deeds = [next(iter(deed)) if isinstance(deed, dict) else deed for deed in did]
    if deeds != ["again", "start", "ask", "crash", "start", "ask"] or len(lines_of(run.ports[0])) != 1:
        return f"FAILED: around a SIGTERM the journal of a source has {deeds}"
    status, output, why, _ = audit(program, run)
    return None if (status, output) == (0, "woven\nsafe\n") else f"FAILED: the journals around a SIGTERM gave {status}, {why[:600]}"


def piped(program, folder):
    """A FIFO as a journal is a fault at once, and no store is made beside it."""
    run = Run(program, folder, 1)
    run.end()
    fifo, store = folder / "ff", folder / "none"
    os.mkfifo(fifo)
    for words in (
        sourced(run.net, 0, store, fifo, "--new"),
        sourced(run.net, 0, run.sources[0].store, fifo),
        ["switch", run.net, "--journal", fifo, "--port", 0],
    ):
        try:
            status, said = told(program, words, timeout=SOON)
        except subprocess.TimeoutExpired:
            return f"FAILED: a FIFO as journal held {[str(word) for word in words]} up for {SOON} s"
        if status != 1 or len(said) != 2 or said[0] != "fault: journal" or not said[1].startswith(f"{fifo}: ") or store.exists():
            return f"FAILED: with a FIFO as journal {[str(word) for word in words]} gave {status}, {said}"
    return None


def limit_files():
    resource.setrlimit(resource.RLIMIT_FSIZE, (3000, resource.RLIM_INFINITY))
    signal.signal(signal.SIGXFSZ, signal.SIG_IGN)


def moments_of(journal):
    """The moments of the starts and the emissions that a journal has."""
    deeds = [entry["did"] for entry in lines_of(journal) if isinstance(entry.get("did"), dict)]
    return [deed[kind] for deed in deeds for kind in ("start", "emit") if kind in deed]


def clocked(program, folder):
    """Moments are those of the machine's clock, over a restart too, in lines and in cells: they rise, lie between two readings of it, and a
    cell leaves a second after the start, and not before. Before its epoch a source does nothing, and what is no epoch is refused."""
    run = Run(program, folder, 1)
    run.end()
    journal, ahead = run.sources[0].journal, folder / "ahead.jsonl"
    words = [program, *sourced(run.net, 0, run.sources[0].store, journal), "--clock"]
    yes = subprocess.run([program, "write", "yes", "1", "100", "1", "0000", "5258"], capture_output=True, text=True, timeout=60)
    epoch, said = time.monotonic_ns() - 10**9, []
    began = (time.monotonic_ns() - epoch) * 1000
    first = ("start", "emit 5", "start 5", " start", "emit", "ask 5258", yes.stdout.strip(), "emit")
    for lines, pause, binary in [(first, 1.2, True), (("start", "emit"), 0, False)]:
        live = Live([*words, epoch], binary)
        said += [live.ask(line) for line in lines]
        time.sleep(pause)
        said += [live.ask("emit")]
        live.end()
    elapsed, moments = (time.monotonic_ns() - epoch) * 1000, moments_of(journal)
    kinds = [" ".join(it[:1] if it[:1] != ["fault"] else it) for it in said]
    wanted = ["started", *["fault words"] * 3, "fault Zero", "rm", "heard", "toosoon", "cell", "started", "fault Zero", "fault Zero"]
    if kinds != wanted or int(said[8][2]) not in moments or int(said[8][2]) < moments[0] + 10**12:
        return f"FAILED: the clock gave {said}"
    if moments != sorted(moments) or len(moments) != 7 or not began <= moments[0] <= moments[-1] <= elapsed:
        return f"FAILED: between {began} and {elapsed} the clock left the moments {moments} in the journal"
    live = Live([program, *sourced(run.net, 0, folder / "ahead", ahead, "--new", "--clock"), time.monotonic_ns() + 10**15])
    said = [live.ask(line) for line in ("start", "emit", "emit 5")]
    live.end()
    if said != [["fault", "ClockBack"], ["fault", "ClockBack"], ["fault", "words"]] or ahead.read_bytes():
        return f"FAILED: before its epoch a source gave {said}, and {ahead.read_bytes()} in the journal"
    kept = journal.read_bytes()
    status = [told(program, [*words[1:], word])[0] for word in ("", "x", "1s", "-1", "0.5", "1" * 20)]
    if set(status) != {2} or journal.read_bytes() != kept:
        return f"FAILED: what is no epoch gave {status}"
    return None


def full_journal(program, folder):
    """A journal whose file can't grow: the process ends, and every answer that went out is in it."""
    run = Run(program, folder, 2)
    run.end()
    journal = folder / "full.jsonl"
    lines = "".join(f"0 capacity {512 * number}\n" for number in range(1, 200))
    words = [str(word) for word in (program, "switch", run.net, "--journal", journal, "--port", 0)]
    done = subprocess.run(words, input=lines, capture_output=True, text=True, timeout=60, preexec_fn=limit_files, restore_signals=False)
    written = lines_of(journal)
    wanted = (1, f"fault: journal\n{journal}: it can't be written\n")
    if (done.returncode, done.stderr) != wanted or len(done.stdout.splitlines()) > len(written) or not written:
        return f"FAILED: a journal that can't grow: {done.returncode}, {done.stderr!r}, {len(done.stdout.splitlines())} answers, {len(written)} lines"
    return None


def binary_faults(program, folder):
    """Cells that aren't served, and lines among cells: each has its answer, and the journal has the step of the cell that is served alone."""
    run = Run(program, folder, 3)
    run.end()
    journal, store = folder / "cells.jsonl", run.sources[0].store
    request, yes = [
        bytes.fromhex(subprocess.run([program, "write", kind, "1", "100", "1", "0000", "5258"], capture_output=True, text=True, timeout=60).stdout)
        for kind in ("request", "yes")
    ]
    sent = [
        (b"\x80" + request, b"\x81" + request),
        (b"\x81" + request, b"fault port\n"),
        (b"\xff" + request, b"fault port\n"),
        (b"\x80" + request[:51] + b"\n", b"fault Crc\n"),
        (b"0 capacity 512001\r\n", b"nothing\n"),
        (b"\xfe" + b"\n" * 52, b"fault NotRm\n"),
        (b"0 data\n", b"fault words\n"),
        (b"0 " + b"x" * 5000 + b"\n", b"fault TooLong\n"),
        (b"\x80" + yes[:51], b"fault cut\n"),
    ]
    heard = [
        (b"start 0\n", b"started\n"),
        (b"ask 5258\n", b"\x80" + request),
        (b"\x80" + yes, b"fault port\n"),
        (b"\xff" + request, b"fault request\n"),
        (b"\xff" + yes, b"heard\n"),
        (b"\xff", b"fault cut\n"),
    ]
    switch = ["switch", run.net, "--journal", journal, "--port", 0]
    for words, cases in [(switch, sent), (sourced(run.net, 0, store, run.sources[0].journal), heard)]:
        given, wanted = (b"".join(part) for part in zip(*cases))
        done = subprocess.run([str(word) for word in (program, *words, "--binary")], input=given, capture_output=True, timeout=60)
        if (done.returncode, done.stdout, done.stderr) != (0, wanted, b""):
            return f"FAILED: cells as octets gave {done.returncode}, {done.stderr}, {done.stdout}, and not {wanted}"
    steps = [next(iter(entry["input"])) for entry in lines_of(journal)]
    return None if steps == ["request", "capacity"] else f"FAILED: cells as octets left {steps} in the journal"


def far_ports(program, folder):
    """A port from 127 on has no octet: what goes to it, and what comes to it, is a line. Cells that come octet by octet are answered too."""
    folder.mkdir()
    net = folder / "net.toml"
    net.write_text(f"ports = {[512000] * 130}\n[[connection]]\nvpi = 1\nvci = 100\npath = [128, 126, 129]\ndelay = 0\ntau = 0\n")
    ports = [word for port in (126, 128, 129) for word in ("--port", port)]
    words = [program, "switch", net, "--journal", folder / "journal.jsonl", *ports, "--binary"]
    done = subprocess.run([program, "write", "request", "1", "100", "1", "0000", "5258"], capture_output=True, text=True, timeout=60)
    line = done.stdout.strip().encode()
    cell = b"\xfe" + bytes.fromhex(done.stdout)
    live = subprocess.Popen([str(word) for word in words], stdin=subprocess.PIPE, stdout=subprocess.PIPE, bufsize=0)
    for octet in b"128 " + line + b"\n" + cell:
        live.stdin.write(bytes([octet]))
    live.stdin.close()
    said, wanted = live.stdout.read(), cell + b"send 129 " + line + b"\n"
    return None if (live.wait(), said) == (0, wanted) else f"FAILED: ports without an octet gave {said}, and not {wanted}"


def controls(program, room):
    """Runs whose audits have to find that something is wrong, each by the status and the words of the audit."""
    missed = []
    for number in range(3):
        for kind in ("puts_back", "overtakes"):
            run, _ = played(program, room / f"{kind}{number}", 100 + number, CONTROL, **{kind: True})
            status, output, said, _ = audit(program, run)
            if (status, output) != (1, "") or not WRONG.match(said):
                missed.append(f"{kind}{number}: {status}, {output!r}, {said[:300]!r}")
    print(f"live: controls: 3 stores that were put back, 3 overtaken cells, {len(missed)} not found")
    return f"FAILED: controls weren't found: {missed}" if missed else None


def ran(program, room, seed, steps, binary=False):
    """A run, and what its audit finds."""
    began = time.time()
    run, statuses = played(program, room, seed, steps, binary=binary)
    status, output, told, lines = audit(program, run)
    count = ", ".join(f"{number} {name}" for name, number in sorted(run.count.items()))
    print(f"live: {'cells, ' if binary else ''}seed {seed}, {steps} steps in {time.time() - began:.0f} s, {lines} lines of journals: {count}", flush=True)
    if status or output != "woven\nsafe\n" or any(statuses):
        kept = Path.cwd() / "live.failed"
        shutil.copytree(run.folder, kept, dirs_exist_ok=True)
        return f"FAILED: seed {seed}, status {status}, {told[:600]} {statuses}; the journals are in {kept}"
    shutil.rmtree(run.folder)
    return None


def tried(program, room, words):
    fault = refusals(program, room / "refusals") or file_faults(program, room / "files") or full_journal(program, room / "full")
    fault = fault or mended(program, room / "mended") or clocked(program, room / "clocked") or binary_faults(program, room / "binary")
    fault = fault or far_ports(program, room / "far") or terminated(program, room / "terminated")
    fault = fault or ran(program, room / "run", words.seed, words.steps) or ran(program, room / "cells", words.seed + 1, words.steps // 4, True)
    fault = fault or controls(program, room) or piped(program, room / "piped")
    until, seed = time.time() + 60 * (words.long or 0), words.seed
    while not fault and time.time() < until:
        seed += 1
        fault = ran(program, room / "run", seed, words.steps, seed % 2 == 0)
    return fault


def main():
    reader = argparse.ArgumentParser(description=__doc__, formatter_class=argparse.RawDescriptionHelpFormatter)
    reader.add_argument("program", nargs="+")
    reader.add_argument("--steps", type=int, default=12000)
    reader.add_argument("--seed", type=int, default=7)
    reader.add_argument("--long", type=float, nargs="?", const=60, metavar="MINUTES")
    words = reader.parse_args()
    room = processes.room(None, "live-")
    try:
        faults = []
        for number, program in enumerate(words.program):
            folder = Path(room, f"program{number}")
            folder.mkdir()
            faults.append(tried(Path(program).resolve(), folder, words))
    finally:
        processes.clear_rooms()
    if any(faults):
        sys.exit(f"live: {next(filter(None, faults))}")


if __name__ == "__main__":
    main()
