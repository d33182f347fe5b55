"""Audits journals: the run of docs/JOURNALS.md, those that the slow model writes of each sample of scenarios/, and the same with one
entry wrong. Those that `abt threads --journals` writes of each sample for threads come back through `abt audit`.

Damaged journals (`tests/damage.py`) are beside a slow search of scenarios/model, which is given the entries that sources lack
(`tests/completing.py`): where entries are in no order, the lines that are told are just those at which it ends, each with what it waits for
(`tests/waits.py`), and an entry that mismatches is one of them.

usage: audits.py PROGRAM..
"""
import json
import random
from pathlib import Path

from harness import SCENARIOS, End, Trial, main, sample_runs, samples, worked
from damage import actor, changed, damaged, later, swapped
from journals import entries, journals, texts_of
from search import Search
from waits import Waits

WHOLE = End(0, "woven\nsafe\n")
END = '{"end":true}'
# The longest line.
LONGEST = b" " * 16_777_215


def worked_run():
    """The lines of the run that docs/JOURNALS.md shows."""
    return worked("JOURNALS.md", r"\A.*?^```\n(\{\"net\".*?)^```$")[0].splitlines()


def worked_faults():
    """The logs of docs/AUDITS.md in which something is wrong: their names, their texts, and what is told of them."""
    shown = r"^```\n(\{\"net\"[^`]*)^```\n\n```console\n\$ abt audit (\S+)\n(fault:.*?)^```$"
    return [(name, text.encode(), told) for text, name, told in worked("AUDITS.md", shown, 2)]


def sample_journals():
    """The journals that the events of each sample leave, by its name."""
    return ((name, texts_of(entries(*run))) for name, *run in sample_runs())


class Auditor(Trial):
    answers = damaged = waits = 0

    def put(self, texts):
        """Texts as files, and the names of these."""
        for number, octets in enumerate(texts):
            (self.folder / str(number)).write_bytes(octets)
        return map(str, range(len(texts)))

    def audit(self, *texts):
        """How an audit of these texts ends, each in a file of its own."""
        return self.run("audit", *self.put(texts))

    def save(self, out, *texts):
        """The same, where the events go out to a file."""
        return self.run("audit", *self.put(texts), "--events", out)

    def unwoven(self, what, text):
        """What is told of a text, which has to be a fault of weaving."""
        status, out, told = self.audit(text)
        if status != 1 or out or not told.startswith(("fault: Mismatch\n", "fault: NoOrder\n")):
            self.fail(f"{what}: {(status, out, told)} in place of a fault of weaving")
        return told

    def wants_unwoven(self, what, text, line, right):
        """A fault of weaving. If it is a mismatch at the entry of this line, what the protocol answers there is what the right entry
        has."""
        told = self.unwoven(what, text)
        if told.startswith("fault: Mismatch\n"):
            _, entry, protocol, *more = told.splitlines()
            is_told = all(one.startswith("why: ") for one in more) and len(more) < 2 and protocol.startswith("protocol: ")
            self.answers += is_told and entry.startswith(f"0:{line}: ")
            if not is_told or entry.startswith(f"0:{line}: ") and json.loads(protocol.removeprefix("protocol: ")) != answer_in(right):
                self.fail(f"{what}: {told} in place of the answer of {right}")


def text_of(lines):
    return "".join(one + "\n" for one in lines).encode()


def mixed(lines, seed):
    """The same journals as two texts, with the actors in another order."""
    draw = random.Random(seed)
    queues = {}
    for one in lines[1:-1]:
        queues.setdefault(actor(one), []).append(one)
    texts = ([lines[0]], [])
    where = {who: draw.randrange(2) for who in queues}
    while queues:
        who = draw.choice(sorted(queues))
        texts[where[who]].append(queues[who].pop(0))
        if not queues[who]:
            del queues[who]
    return [text_of([*text, END]) for text in texts]


def answer_in(one):
    """The reply or the outcome that an entry has."""
    read = json.loads(one)
    return read["reply"] if "reply" in read else read["outcome"]


def by_actor(lines):
    """The entries of each actor, in its order, but for who had a step done; a store that is missing works."""
    return Search(lines).journals


def try_events(auditor, name, lines):
    """The woven events go out as a scenario: it is run, and its journals, by the slow model, are those that were audited."""
    out = auditor.folder / "events.toml"
    out.unlink(missing_ok=True)
    given = auditor.save(out, text_of(lines))
    auditor.wants(f"the events of {name}", WHOLE, given)
    if given != WHOLE:
        return
    text = out.read_bytes()
    left = journals(text)
    if json.loads(left[0]) != json.loads(lines[0]) or by_actor(left) != by_actor(lines):
        auditor.fail(f"the events of {name} have other journals")
    status, report, told = auditor.run("run", out)
    auditor.wants(f"the events of {name}, run", (0, "safe", ""), (status, report.splitlines()[-1], told))


def try_sample(auditor, name, lines):
    auditor.wants(name, WHOLE, auditor.audit(text_of(lines)))
    auditor.wants(f"{name}, mixed", WHOLE, auditor.audit(*mixed(lines, name)))
    try_events(auditor, name, lines)
    for at in range(1, len(lines) - 1):
        if other := changed(lines[at]):
            text = text_of([*lines[:at], other, *lines[at + 1 :]])
            auditor.wants_unwoven(f"{name}, line {at + 1} changed", text, at + 1, lines[at])
        if '"port"' not in lines[at]:
            continue
        wrong = [("twice", at + 2, [*lines[: at + 1], *lines[at:]])]
        if behind := later(lines, at):
            wrong += [("missing", behind[0], [*lines[:at], *lines[at + 1 :]]), ("later", at + 1, swapped(lines, at, behind[0]))]
        for what, line, left in wrong:
            wanted = (1, "", f"fault: 0:{line}: Place\n")
            auditor.wants(f"{name}, line {at + 1} {what}", wanted, auditor.audit(text_of(left)))


def try_damaged(auditor, name, lines):
    """Journals with one entry changed, missing, there twice or elsewhere are stuck just where a slow search ends."""
    for what, left in damaged(lines, random.Random(name), 2):
        auditor.damaged += 1
        waits = Waits(left)
        stuck = waits.lines()
        status, out, told = auditor.audit(text_of(left))
        fault, *entries = told.splitlines() or [""]
        spots = [int(one.split(":")[1]) for one in entries if one.startswith("0:")]
        if not stuck:
            right = (status, out, told) == WHOLE
        elif fault == "fault: Mismatch":
            right = (status, out) == (1, "") and len(spots) == 1 and spots[0] in stuck
        else:
            right = (status, out, fault) == (1, "", "fault: NoOrder") and waits.are(entries)
            auditor.waits += len(stuck)
        if not right:
            auditor.fail(f"{name}, {what}: {(status, out, told)}, and the slow search ends at the lines {stuck}")


def try_texts(auditor, lines, faults):
    """Each fault of a text, files that aren't there or can't be written; and texts that no case file can have."""
    net, *entries, end = (one + "\n" for one in lines)
    far = json.dumps({"net": {**json.loads(net)["net"], "ports": []}}) + "\n"
    step = next(one for one in entries if '"port"' in one)
    crossing = SCENARIOS / "threads_crossing.toml"
    auditor.cases("audits", run=text_of(lines).decode(), net=net, far=far, step=step, end=end, crossing=crossing)
    for line, fault in [(b"\xff\n", "NotUtf8"), (LONGEST + b" \n", "TooLong"), (LONGEST + b" ", "TooLong")]:
        auditor.wants(f"a line that is {fault}", (1, "", f"fault: 0:2: {fault}\n"), auditor.audit(net.encode() + line))
    cut = (0, "woven\nsafe\nnote: text 1 ends in the middle of line 2\n", "")
    auditor.wants("a line that is cut, as long as one can be", cut, auditor.audit(net.encode() + LONGEST))
    kept = auditor.folder / "kept.toml"
    for name, text, told in faults:
        kept.write_text("kept")
        wanted = (1, "", told.replace(f"{name}:", "0:"))
        auditor.wants(f"{name} of docs/AUDITS.md", wanted, auditor.audit(text))
        auditor.wants(f"an audit of {name} that keeps events", wanted, auditor.save(kept, text))
        try_kept(auditor, name, told, kept)
    auditor.run("audit", "--events", kept, text=text_of(lines))
    if not kept.read_bytes().startswith(b"ports = ["):
        auditor.fail("events of the standard input: they aren't in the file")


def try_kept(auditor, name, told, kept):
    """Of journals that got stuck the events before that are kept, all of which happen; of a text with a fault none are."""
    if told.startswith(("fault: Mismatch\n", "fault: NoOrder\n")):
        auditor.wants(f"a strict run of the events of {name}", (0,), (auditor.run("run", "--strict", kept).status,))
    else:
        auditor.wants(f"events of {name}", ("kept",), (kept.read_text(),))


def try_threads(auditor):
    """The journals of each sample for threads go out and come back."""
    runs, out = 0, auditor.folder / "journals"
    for sample in samples("threads_*"):
        shown = Path(f"{sample}.stdout").read_text()
        for workers in (1, 4, 64):
            out.unlink(missing_ok=True)
            done = auditor.run("threads", sample, "--workers", workers, "--journals", out)
            if not shown:
                if done.status != 1 or done.output or not done.told or out.exists():
                    auditor.fail(f"{sample.name}, which can't run: {done}")
                continue
            runs += 1
            auditor.wants(sample.name, End(0, shown), done)
            text = out.read_bytes()
            auditor.wants(f"the journals of {sample.name}", WHOLE, auditor.audit(text))
            auditor.wants(f"the journals of {sample.name}, mixed", WHOLE, auditor.audit(*mixed(text.decode().splitlines(), sample.name)))
    return runs


def look(auditor):
    worked, faults = worked_run(), worked_faults()
    every = [("docs/JOURNALS.md", worked), *sample_journals()]
    for name, lines in every:
        try_sample(auditor, name, lines)
        try_damaged(auditor, name, lines)
    try_texts(auditor, worked, faults)
    told = f"{len(every)} runs, {try_threads(auditor)} in threads, {auditor.answers} answers of the protocol"
    return f"{told}, {auditor.damaged} damaged journals beside a slow search"


if __name__ == "__main__":
    main(look, Auditor)
