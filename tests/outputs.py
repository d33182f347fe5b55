"""Commands that write files: whether each OUT is written whole or not at all, and nothing else is touched (docs/FORMATS.md, "Files").

The cases of tests/cases/outputs.toml name one file by two names, in every way that the system has. Beside these: links, modes and owners,
pipes and devices as OUT, runs at once, calls that fail, a run that is killed, standard streams that are closed, and names with characters
that a terminal would obey. Calls fail only if there is a C compiler, and rights are only tried as root.

usage: outputs.py PROGRAM..
"""
import itertools
import os
import resource
import shlex
import shutil
import signal
import stat
import subprocess
import time
import unicodedata
import xml.etree.ElementTree
from pathlib import Path

from harness import SCENARIOS, End, Trial, case_file, files_in, main, put
from preload import Faults

REFUSAL = "error: an output can't be a file that is read or written already, nor - where lines are printed\n\nFor more information, try '--help'.\n"
SCENARIO, OTHER = ((SCENARIOS / f"{name}.toml").read_text() for name in ("threads_one_source", "two_ports"))
JOURNALS = '{"net":{"ports":[1],"connections":[]}}\n{"port":0,"place":0,"input":{"capacity":2},"reply":"set"}\n{"end":true}\n'
# A port has served a request that nobody sent.
STUCK = '''{"net":{"ports":[512000],"connections":[{"vpi":1,"vci":100,"path":[0],"delay":1000,"tau":200}]}}
{"port":0,"place":0,"input":{"request":{"vpi":1,"vci":100,"seq":1,"floor":"0000","ask":"5120"}},"reply":"passed"}
{"end":true}
'''
# Commands with an OUT, by the words before it, with how each kind of OUT begins and ends.
PICTURE, EVENTS, RUN = ("<svg ", "</svg>\n"), ("ports = ", "\n"), ('{"net"', '{"end":true}\n')
WRITING = {
    "draw s.svg -o": PICTURE,
    "draw s.svg --workers 1 -o": PICTURE,
    "audit j.svg --draw": PICTURE,
    "audit j.svg --events": EVENTS,
    "play s.svg --seed 1 --events": EVENTS,
    "play s.svg --seed 1 --draw": PICTURE,
    "threads s.svg --workers 1 --events": EVENTS,
    "threads s.svg --workers 1 --journals": RUN,
}
# Commands that tell the name of a FILE which isn't there.
READING = ("check", "explain", "play --seed 1", "step", "audit")
OUT = "out.svg"
# Characters that a terminal obeys, that no reader sees, or that XML has in no text.
UNSEEN = "\x1b\n\t\x7f\x85\u00ad\u061c\u200b\u200f\u202e\u2028\u2060\u2066\ufeff\ufffe\uffff\U000e0041"
NOBODY, PAIRS, SECONDS = 65534, 60, 60


def is_whole(kind, text):
    return text is not None and text.startswith(kind[0]) and text.endswith(kind[1])


def nobody():
    os.setgid(NOBODY)
    os.setuid(NOBODY)


# Runs a room's own copy of the program without any rights: the program itself may lie where only its owner comes.
WITHOUT_RIGHTS = {"executable": "./program", "preexec_fn": nobody}


class Files(Trial):
    """A program, tried in rooms of its own."""

    rooms = itertools.count()

    def room(self, **more):
        room = self.folder / f"room{next(self.rooms)}"
        room.mkdir()
        room.chmod(0o777)
        put(room, {"s.svg": SCENARIO, "o.svg": OTHER, "j.svg": JOURNALS, **more})
        return room

    def start(self, words, room, **more):
        self.runs += 1
        return subprocess.Popen([self.program, *shlex.split(words)], cwd=room, **more)

    def at(self, words, room, **more):
        return self.run(*shlex.split(words), folder=room, **{"timeout": SECONDS, **more})

    def shell(self, words, room):
        """Runs a command with the streams that a shell gives it."""
        self.runs += 1
        line = f"exec {shlex.quote(str(self.program))} {words}"
        done = subprocess.run(["sh", "-c", line], cwd=room, stdin=subprocess.DEVNULL, capture_output=True, timeout=SECONDS)
        return End(done.returncode, done.stdout.decode(), done.stderr.decode())

    def writes(self, what, command, room, out=OUT, changes=None, **more):
        """Runs a command that has to write OUT, and to change nothing else; what OUT has then."""
        before, end = files_in(room), self.at(f"{command} {out}", room, **more)
        self.wants(f"{what}: {command} {out}", (0, ""), (end.status, end.told))
        after = files_in(room)
        changed = {name for name in before.keys() | after.keys() if before.get(name) != after.get(name)}
        self.wants(f"{what}: {command} {out}, files", sorted(changes or [out]), sorted(changed))
        return after.get(out, b"").decode()

    def fails(self, what, command, room, out, why, **more):
        """Runs a command that can't write OUT: that is told, with the name and the reason, and no file changes."""
        before, end = files_in(room), self.at(f"{command} {out}", room, **more)
        if end.status != 1 or not end.told.startswith("fault: ") or not end.told.endswith(f"\n{out}: {why}\n") or end.told.count("\n") != 2:
            self.fail(f"{what}: {command} {out}: {end}")
        self.wants(f"{what}: {command} {out}, files", [before], [files_in(room)])


def try_cases(files):
    """Names of one file: nothing is done."""
    read = case_file("outputs", scenario=SCENARIO, journals=JOURNALS)
    for case in [{"words": words} for words in read["refused"]] + read["streamed"]:
        room = files.room(**read["files"])
        for name, target in read["links"].items():
            (room / name).symlink_to(target)
        for name, other in read["same"].items():
            (room / name).hardlink_to(room / other)
        (room / "out.svg").touch()
        before, words = files_in(room), case["words"].replace("{room}", str(room))
        words += "".join(f" {sign}{case[stream]}" for stream, sign in (("input", "<"), ("output", ">")) if stream in case)
        end = files.shell(words, room)
        files.wants(words, (2, REFUSAL), (end.status, end.told))
        files.wants(f"{words}, files", [before], [files_in(room)])
    for words in read["printed"]:
        room = files.room()
        before, end = files_in(room), files.at(words, room)
        files.wants(words, (2, ""), (end.status, end.output))
        files.wants(f"{words}, files", [before], [files_in(room)])
    for case, command in itertools.product(read["unwritten"], WRITING):
        room = files.room(**read["files"])
        (room / "round.svg").symlink_to("round.svg")
        (room / "full.svg").symlink_to("/dev/full")
        files.fails("a name that can't be written", command, room, case["out"], case["why"])


def try_places(files):
    """What OUT may be: a new file, one that is there, a link; and what may lie beside it."""
    for command, kind in WRITING.items():
        room = files.room(**{OUT: "old" * 1000, "victim": "victim"})
        (room / OUT).chmod(0o640)
        for name in (f"{OUT}.part", ".abt.0.part", ".abt.1.part"):
            (room / name).symlink_to("victim")
        assert is_whole(kind, files.writes("a file that is there", command, room)), command
        assert stat.S_IMODE((room / OUT).stat().st_mode) == 0o640, "the mode of OUT"
        (room / "link.svg").symlink_to("far.svg")
        old = os.umask(0o027)
        files.writes("a link to no file", command, room, "link.svg", ["link.svg", "far.svg"])
        os.umask(old)
        (room / "far.svg").write_text("old")
        files.writes("a link", command, room, "link.svg", ["link.svg", "far.svg"])
        assert (room / "link.svg").is_symlink() and stat.S_IMODE((room / "far.svg").stat().st_mode) == 0o640, "the mode of a new file"
        assert (room / "victim").read_text() == "victim", "a file that isn't named"
    room = files.room(**{"a.svg.part": SCENARIO})
    files.writes("an input with the name of a part", "draw a.svg.part -o", room, "a.svg")


def try_rights(files):
    """A file or a folder that may not be written."""
    for command in WRITING if os.getuid() == 0 else ():
        room = files.room(**{OUT: "old"})
        shutil.copy(files.program, room / "program")
        (room / OUT).chmod(0o444)
        files.fails("a file that may not be written", command, room, OUT, "it may not be written", **WITHOUT_RIGHTS)
        os.chown(room / OUT, NOBODY, NOBODY)
        (room / OUT).chmod(0o600)
        files.writes("somebody's file", command, room)
        there = (room / OUT).stat()
        assert (there.st_uid, there.st_gid, stat.S_IMODE(there.st_mode)) == (NOBODY, NOBODY, 0o600), "owner, group and mode of OUT"
        room.chmod(0o555)
        files.fails("a folder that takes no file", command, room, OUT, "its folder takes no new file", **WITHOUT_RIGHTS)
        room.chmod(0o777)


def try_streams(files):
    """A pipe or a device is written straight, and so is what a process holds open."""
    for command, kind in WRITING.items():
        room = files.room()
        os.mkfifo(room / "pipe.svg")
        for name in ("null", "stdout"):
            (room / f"{name}.svg").symlink_to(f"/dev/{name}")
        running = files.start(f"{command} pipe.svg", room, stdout=subprocess.DEVNULL)
        text = subprocess.run(["cat", "pipe.svg"], cwd=room, capture_output=True, timeout=SECONDS).stdout.decode()
        files.wants(f"{command} to a pipe", (0, True, True), (running.wait(SECONDS), is_whole(kind, text), (room / "pipe.svg").is_fifo()))
        files.wants(f"{command} null.svg", (0,), (files.at(f"{command} null.svg", room).status,))
        end = files.at(f"{command} stdout.svg", room)
        files.wants(f"{command} stdout.svg", (0, "", True), (end.status, end.told, kind[0] in end.output))
    room = files.room()
    text = files.writes("a picture", "draw s.svg -o", room)
    (room / "stdout.svg").symlink_to("/dev/stdout")
    (room / "log").write_text("first\n")
    files.shell("draw s.svg -o stdout.svg >>log", room)
    files.wants("a file that is held open", ("first\n" + text,), ((room / "log").read_text(),))


def try_faults(files):
    """Whatever call fails for OUT, it stays as it was, and nothing is left beside it."""
    faults = Faults(files.folder)
    for command in WRITING:
        room = files.room(**{OUT: "old"})
        small = lambda: (signal.signal(signal.SIGXFSZ, signal.SIG_IGN), resource.setrlimit(resource.RLIMIT_FSIZE, (20, 20)))
        files.fails("a file that grows too long", command, room, OUT, "it may not be so long", preexec_fn=small)
        for call in ("SYNC", "RENAME") if faults.library else ():
            environment = {**os.environ, "LD_PRELOAD": str(faults.library), f"FAULTS_{call}": "1"}
            files.fails(f"{call} that fails", command, room, OUT, "the system doesn't write it", env=environment)


def try_together(files):
    """Two runs at once, with one OUT: it is that of one of them."""
    room = files.room()
    wanted = {files.writes("alone", f"draw {name}.svg -o", room) for name in "so"}
    for _ in range(PAIRS):
        running = [files.start(f"draw {name}.svg -o {OUT}", room) for name in "so"]
        statuses = [it.wait(SECONDS) for it in running]
        if statuses != [0, 0] or (room / OUT).read_text() not in wanted:
            files.fail(f"two runs at once: {statuses}")
    files.wants("what two runs leave", ["j.svg", "o.svg", OUT, "s.svg"], sorted(files_in(room)))


def try_killed(files):
    """A run that is killed while it writes leaves OUT as it was, and the next one writes it."""
    room = files.room(**{OUT: "old"})
    # Its first line waits for somebody to read what stands before it, and the file of the journals is made by then.
    reading, writing = os.pipe()
    os.set_blocking(writing, False)
    try:
        while os.write(writing, bytes(1)):
            pass
    except BlockingIOError:
        os.set_blocking(writing, True)
    running = files.start(f"threads s.svg --workers 1 --journals {OUT}", room, stdout=writing)
    until = time.time() + SECONDS
    while not (room / ".abt.0.part").exists() and time.time() < until:
        time.sleep(0.05)
    running.kill()
    running.wait(SECONDS)
    os.close(reading)
    os.close(writing)
    files.wants("what a run leaves that was killed", [".abt.0.part", "j.svg", "o.svg", OUT, "s.svg"], sorted(files_in(room)))
    files.wants("OUT of a run that was killed", ("old",), ((room / OUT).read_text(),))
    assert is_whole(PICTURE, files.writes("the next run", "draw s.svg -o", room)), "OUT of the next run"


def try_closed(files):
    """Standard streams that are closed get nothing of OUT's, and OUT nothing of theirs."""
    subsets = [it for count in (1, 2, 3) for it in itertools.combinations((0, 1, 2), count)]
    for (command, kind), closed in itertools.product(WRITING.items(), subsets):
        room = files.room()
        words = f"{command} {OUT} " + " ".join(f"{number}>&-" for number in closed)
        end, text = files.shell(words, room), files_in(room).get(OUT, b"").decode()
        is_told = 1 in closed and not command.startswith("draw")
        # The journals of a run whose lines can't go out are written all the same.
        is_left = not is_told or "--journals" in command
        wanted = (int(is_told), "fault: write\n" * (is_told and 2 not in closed), True)
        files.wants(words, wanted, (end.status, end.told, is_whole(kind, text) if is_left else text == ""))
    room = files.room()
    for words, told in (("run s.svg >&-", "fault: write\n"), ("run <&-", "fault: read\n"), (f"draw -o {OUT} <&-", "fault: read\n")):
        files.wants(words, End(1, "", told), files.shell(words, room))
    files.wants("what closed streams leave", ["j.svg", "o.svg", "s.svg"], sorted(files_in(room)))


def try_left(files):
    """A command whose reader goes away ends quietly, also one whose input never ends, and what goes to OUT is whole."""
    for words in ("run s.svg", "run s.svg --json", "explain s.svg", "audit j.svg", f"threads s.svg --workers 1 --journals {OUT}"):
        room, (reading, writing) = files.room(), os.pipe()
        os.close(reading)
        running = files.start(words, room, stdout=writing, stderr=subprocess.PIPE)
        os.close(writing)
        told = running.communicate(timeout=SECONDS)[1].decode()
        files.wants(f"{words}, whose reader is gone", (141, ""), (running.returncode, told))
        is_left = OUT not in words or is_whole(RUN, files_in(room).get(OUT, b"").decode())
        files.wants(f"{words}, whose reader is gone, OUT", (True,), (is_left,))
    for words, line in (("shape --rate 53e8", "0"), ("cell --stdin", "no cell"), ("port 512000 --stdin", "no cell")):
        shell = f"yes '{line}' | {shlex.quote(str(files.program))} {words} | head -1; echo ${{PIPESTATUS[1]}}"
        done = subprocess.run(["bash", "-c", shell], cwd=files.room(), capture_output=True, timeout=SECONDS)
        lines = done.stdout.decode().splitlines()
        files.wants(f"{words} | head -1", (2, "141", b""), (len(lines), lines[-1], done.stderr))


def is_seen(text):
    """Whether a text has no character, but line feeds, that Unicode calls a control or formatting one, a separator of lines, or none."""
    return not [it for it in text if it != "\n" and unicodedata.category(it) in ("Cc", "Cf", "Zl", "Zp", "Cn")]


def is_xml(text):
    try:
        return xml.etree.ElementTree.fromstring(text).tag.endswith("svg")
    except xml.etree.ElementTree.ParseError:
        return False


def try_names(files):
    """In the names that are told a question mark stands for each character that isn't seen."""
    for letter in UNSEEN:
        room, name = files.room(), f"a{letter}b"
        for command in (*WRITING, *READING):
            named = f"{name}/x.svg" if command in WRITING else name
            end = files.run(*shlex.split(command), named, folder=room)
            if end.status != 1 or not is_seen(end.told) or f"\n{named.replace(letter, '?')}: " not in f"\n{end.told}":
                files.fail(f"{command} with {ascii(named)}: {ascii(end)}")
        (room / name).write_text(STUCK)
        end = files.run("audit", name, "--draw", OUT, folder=room)
        text = files_in(room).get(OUT, b"").decode()
        files.wants(f"stuck journals of {ascii(name)}", (1, True, True), (end.status, is_seen(text), is_xml(text)))


def look(files):
    for test in (try_cases, try_places, try_rights, try_streams, try_faults, try_together, try_killed, try_closed, try_left, try_names):
        files.checks(test.__name__, test, files)
    return f"{len(WRITING)} kinds of OUT, {len(UNSEEN)} characters in names"


main(look, Files)
