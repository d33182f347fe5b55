"""Draws audits by `abt audit --draw`, reads the pictures by Python's own XML parser, and compares them with the slow model.

The journals of each sample are drawn whole: the picture has to be that of the events that `--events` writes. Damaged ones
(`tests/damage.py`) are drawn up to the entries at which they are stuck: a slow search says which these are, and each has to have its mark
on its actor's lifeline.

usage: drawn_audits.py PROGRAM..
"""
import json
import random
import re

from harness import SCENARIOS, Trial, main, scenario
from audits import END, WHOLE, sample_journals, text_of, worked_faults, worked_run
from completing import CompletedSearch
from damage import damaged
from journals import entries, texts_of
from picture import SVG, Page, Picture, Run, tenths
from reading import event, read
from search import bare


class Drawer(Trial):
    whole = stuck = events = 0

    def audit(self, text, *words):
        (self.folder / "0").write_bytes(text)
        return self.run("audit", "0", *words)

    def drawn(self, text, *words):
        """The picture of an audit that prints what it prints without one."""
        out = self.folder / "drawn.svg"
        out.unlink(missing_ok=True)
        without = self.audit(text)
        assert self.audit(text, "--draw", "drawn.svg", *words) == without, "what is printed"
        assert not (self.folder / "drawn.svg.part").exists(), "a part is left"
        return without, out.read_text()

    def check_whole(self, text):
        answer, picture = self.drawn(text, "--events", "woven.toml")
        assert answer == WHOLE, answer
        assert self.drawn(text) == (answer, picture), "the picture without --events"
        ports, conns, woven, _ = read((self.folder / "woven.toml").read_bytes())
        seen = Picture(picture, Run(ports, conns, woven), 0, len(woven), ())
        assert seen.stuck == [], "marks of journals that are woven"
        seen.check()
        assert seen.words == self.explained("woven.toml"), "the words of a picture"
        if len(woven) > 4:
            words = ("--from", "3", "--to", str(len(woven) - 1), "--only", "0")
            Picture(self.drawn(text, *words)[1], Run(ports, conns, woven), 2, len(woven) - 1, (0,)).check()
        self.whole += 1
        self.events += len(woven)

    def check_stuck(self, lines, text):
        search = CompletedSearch(lines)
        stuck = search.run()
        if not stuck:
            self.check_whole(text)
            return
        answer, picture = self.drawn(text)
        assert answer[0] == 1 and not answer[1], answer
        told = [line for line in Picture(picture, None, 0, 0, ()).words.splitlines() if not line.startswith("stuck: ")]
        events = [event(found[1]) for line in told if (found := re.match(r"\d+ ([^:]*): ", line))]
        assert None not in events, told
        seen = Picture(picture, Run(search.ports, search.conns, events), 0, len(events), ())
        seen.check()
        self.check_marks(seen, stuck, search)
        made = CompletedSearch(texts_of(entries(search.ports, search.conns, events))).journals
        wanted = {actor: search.journals[actor][:number] for actor, number in search.placed.items() if number}
        assert made == wanted, ("events", made, wanted)
        first = [line.split(" ", 1)[0] for line in answer[2].splitlines()[1:2]]
        assert seen.words.splitlines()[-len(stuck)].split(" ")[1:2] == first, "the first mark isn't the entry that is told first"
        self.stuck += 1
        self.events += len(events)

    def check_marks(self, picture, stuck, search):
        """Each actor that is stuck has one mark: on its lifeline, in a row of its own, with the entry."""
        places = picture.lifelines()
        found = {}
        for number, group in enumerate(picture.stuck, 1):
            assert group.get("id") == f"s{number}", "the rows of marks"
            (circle,) = picture.shapes(group, "circle", "stuck")
            told = picture.shapes(group, "text", "told")[0].text
            kind, actor = re.fullmatch(r"stuck: (source|port) (\d+)", told).groups()
            who = (kind, int(actor))
            assert who not in found, ("two marks", who)
            if who in places:
                assert tenths(circle.get("cx")) == places[who], ("a mark beside its lifeline", who)
            level = picture.last - picture.first + 1 + number
            assert tenths(circle.get("cy")) == picture.y(level), ("the row of a mark", who)
            text, line, entry = group.find(SVG + "title").text.split(":", 2)
            assert text == "0" and bare(json.loads(entry)) == search.next(who), ("the words of a mark", who)
            found[who] = int(line)
        assert found == stuck, ("marks", found, stuck)


def check_documents(drawer):
    """The logs of docs/AUDITS.md in which something is wrong, as pages too."""
    for name, text, told in worked_faults():
        drawer.check_stuck(text.decode().splitlines(), text)
        status, out, errors = drawer.audit(text, "--draw", "page.html")
        assert (status, out, errors) == (1, "", told.replace(f"{name}:", "0:")), (status, out, errors)
        page = Page((drawer.folder / "page.html").read_text())
        assert page.outside == [] and "\nstuck: 0:" in page.words, name
    check_escapes(drawer, worked_faults()[0][1])


def check_escapes(drawer, text):
    """A file whose name is full of signs stands in a page and in a picture as it is called."""
    name = "<b>&amp;'\".jsonl"
    (drawer.folder / name).write_bytes(text)
    for out in ("signs.html", "signs.svg"):
        done = drawer.run("audit", name, "--draw", out)
        octets = (drawer.folder / out).read_text()
        assert done.status == 1 and "<b>" not in octets and "&lt;b&gt;&amp;amp;" in octets, (out, done)
    page = Page((drawer.folder / "signs.html").read_text())
    assert f"\nstuck: {name}:" in page.words, page.words[-300:]


def check_refusals(drawer, lines):
    """Each way in which there is no picture, which leaves the file as it was; and a picture whose events can't be written, which is
    whole."""
    text, (name, wrong, told) = text_of(lines), worked_faults()[0]
    (drawer.folder / "many.toml").write_text(scenario([1], ["capacity 0 1"] * 2001))
    files = {"sample": SCENARIOS / "two_ports.toml", "threads": SCENARIOS / "threads_crossing.toml", "many": drawer.folder / "many.toml"}
    texts = {"run": text.decode(), "net": f"{lines[0]}\n", "end": f"{END}\n", "wrong": wrong.decode()}
    drawer.cases("undrawn", scenarios=SCENARIOS, **files, **texts, told=told.replace(f"{name}:", "wrong:"))
    drawer.run("audit", "--draw", "kept.svg", "--events", "none/x.toml", text=text)
    assert (drawer.folder / "kept.svg").read_text().endswith("</svg>\n"), "the picture where its events can't be written"
    done = drawer.run("audit", "--draw", "kept.svg", text=wrong)
    assert done.status == 1 and "stuck: -:4: " in (drawer.folder / "kept.svg").read_text(), done
    drawer.run("audit", "--events", "alone.toml", text=wrong)
    both = drawer.run("audit", "--events", "both.toml", "--draw", "both.svg", text=wrong)
    assert both == done and (drawer.folder / "both.svg").read_bytes() == (drawer.folder / "kept.svg").read_bytes(), both
    assert (drawer.folder / "both.toml").read_bytes() == (drawer.folder / "alone.toml").read_bytes(), "the events beside a picture"


def check_run(drawer, name, lines):
    drawer.check_whole(text_of(lines))
    for _, left in damaged(lines, random.Random(f"{name}, drawn"), 1):
        drawer.check_stuck(left, text_of(left))


def look(drawer):
    for name, lines in [("docs/JOURNALS.md", worked_run()), *sample_journals()]:
        drawer.checks(name, check_run, drawer, name, lines)
    drawer.checks("the logs of docs/AUDITS.md", check_documents, drawer)
    drawer.checks("no picture", check_refusals, drawer, worked_run())
    return f"{drawer.whole} pictures of woven journals, {drawer.stuck} of stuck ones, {drawer.events} events"


main(look, Drawer)
