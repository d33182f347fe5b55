"""Draws each sample of scenarios/ by `abt draw`, whole, in part and as a page, and compares what stands in the picture with a run of the
model (tests/picture.py). Each sample for threads is drawn by `abt draw --workers` too. A picture that can't be written leaves the one
that was there, and nothing beside it; a C compiler is needed for that.

usage: pictures.py PROGRAM..
"""
import os
import xml.etree.ElementTree as ElementTree

from colours import check_colours
from harness import ROOT, SCENARIOS, End, Trial, files_in, main, samples, scenario, section
from ladder import Ladder
from picture import SVG, Page, Picture, Run
from preload import Faults
from reading import Fault, read
from terminal import Terminal

COLUMNS = "fault: Columns: at most 1024 lifelines are drawn, so choose connections by --only\n"
JOURNALS = '{"net":{"ports":[1],"connections":[]}}\n{"port":0,"place":0,"input":{"capacity":2},"reply":"set"}\n{"end":true}\n'


class Drawer(Trial):
    def drawn(self, file, name, *words):
        """The text of a picture, which is drawn without a word."""
        out = self.folder / name
        out.unlink(missing_ok=True)
        end = self.run("draw", file, "-o", name, *words)
        assert end == End(0) and out.is_file(), end
        return out.read_text()

    def draws_none(self, what, told, *words):
        """No picture is drawn, which is told, and no file is left."""
        self.wants(what, End(1, "", told), self.run("draw", *words, "-o", "none.svg"))
        assert not list(self.folder.glob("none*")), "a fault left a file"


def check_sample(drawer, sample):
    """Draws a sample as a whole, in part and as a page; how many events it has."""
    try:
        ports, conns, events, _ = read(sample.read_bytes())
    except Fault as fault:
        drawer.draws_none(sample.name, f"fault: {fault}\n", sample)
        return 0
    run, explained = Run(ports, conns, events), drawer.run("explain", sample).output
    parts = [((), 0, len(events), ())]
    if len(events) > 4:
        parts.append((("--from", 3, "--to", len(events) - 1), 2, len(events) - 1, ()))
    if len(conns) > 1:
        parts.append((("--only", len(conns) - 1), 0, len(events), (len(conns) - 1,)))
    for words, first, last, only in parts:
        picture = Picture(drawer.drawn(sample, "picture.svg", *words), run, first, last, only)
        picture.check()
        assert picture.words == explained, "the words of a picture"
        text = drawer.drawn(sample, "picture.txt", *words)
        assert text == Ladder(run, first, last, only).text(explained), "the drawing as text"
        page = Page(drawer.drawn(sample, "picture.html", *words))
        page.check(explained)
        assert page.steps() == (len(picture.kept), first, last - first), ("steps", page.steps())
    return len(events)


def check_woven(drawer, sample):
    """Draws a run of a sample's scripts in threads; how many events were woven. The faults are those of `abt threads`."""
    events, threads, woven = drawer.folder / "woven.toml", drawer.run("threads", sample, "--workers", 4), []
    for workers in (1, 4, 64):
        words = ("--workers", workers, "--events", events.name)
        if threads.status:
            drawer.draws_none(sample.name, threads.told, sample, *words)
            assert not events.exists(), "a fault left a file"
            continue
        text = drawer.drawn(sample, "woven.html" if workers == 4 else "woven.svg", *words)
        ports, conns, woven, _ = read(events.read_bytes())
        explained = drawer.explained(events.name)
        if workers == 4:
            Page(text).check(explained)
        else:
            picture = Picture(text, Run(ports, conns, woven), 0, len(woven), ())
            picture.check()
            assert picture.words == explained, "the words of a woven run"
        events.unlink()
    if not threads.status:
        drawer.drawn(sample, "woven.svg", "--workers", 4)
    return len(woven)


def check_kept(drawer):
    """Whichever write of a picture fails, the one that was there is left, and nothing else; how many were tried."""
    preload, folder = Faults(drawer.folder).library, drawer.folder / "kept"
    folder.mkdir()
    kept, old, tried = folder / "kept.svg", "kept" * 100_000, 0
    (folder / "run.jsonl").write_text(JOURNALS)
    play = ["play", SCENARIOS / "threads_one_source.toml", "--seed", "1"]

    def ends(words, wanted, picture, **more):
        kept.write_text(old)
        drawer.wants(f"{words} {more}", wanted, drawer.run(*words, folder=folder, env={**os.environ, **more}))
        assert sorted(files_in(folder)) == ["kept.svg", "run.jsonl"], ("a picture leaves a file beside it", words, more)
        assert picture(kept.read_text()), ("the picture isn't as it has to be", words, more)

    for words, told in [
        (["draw", SCENARIOS / "two_ports.toml", "-o", "kept.svg"], ""),
        (["draw", SCENARIOS / "threads_one_source.toml", "--workers", "1", "-o", "kept.svg"], ""),
        (["audit", "run.jsonl", "--draw", "kept.svg"], "woven\nsafe\n"),
        ([*play, "--draw", "kept.svg"], drawer.run(*play).output),
    ]:
        ends(words, End(0, told), lambda text: text.startswith("<svg ") and text.endswith("</svg>\n"))
        # What is printed may be written before the picture. The fault's own line is written behind it.
        first, length = len(told) + 1, len(kept.read_text())
        for number in (first, first + 1, first + 1000, first + length - 200) if preload else ():
            preloaded = {"LD_PRELOAD": str(preload), "FAULTS_SHORT": "1", "FAULTS_WRITE": str(number)}
            ends(words, End(1, told, "fault: write\nkept.svg: the system doesn't write it\n"), lambda text: text == old, **preloaded)
            tried += 1
    return tried


def check_shown(drawer):
    """The picture that README.md shows is the one that is drawn."""
    drawn = drawer.drawn(SCENARIOS / "two_ports.toml", "shown.svg")
    assert drawn == (ROOT / "docs" / "two_ports.svg").read_text(), "docs/two_ports.svg isn't what is drawn"


def check_printed(drawer):
    """A picture goes to the standard output too, as it goes to a file; how it is drawn of the standard input is the same."""
    sample = SCENARIOS / "two_ports.toml"
    text = drawer.drawn(sample, "printed.svg", "--only", "0")
    drawer.wants("a picture that is printed", End(0, text), drawer.run("draw", sample, "-o", "-", "--only", "0"))
    drawer.wants("one of the input", End(0, text), drawer.run("draw", "-", "-o", "-", "--only", "0", text=sample.read_bytes()))
    end = drawer.run("draw", SCENARIOS / "threads_one_source.toml", "--workers", "2", "-o", "-")
    assert end.status == 0 and not end.told and end.output.startswith("<svg ") and end.output.endswith("</svg>\n"), end
    text = drawer.drawn(sample, "printed.txt", "--only", "0")
    status, _, shown = Terminal([drawer.program, "draw", str(sample), "-o", "-", "--only", "0"], both=True).end()
    assert status == 0 and shown.decode().replace("\r\n", "\n") == text, "what is drawn on a terminal"
    assert "-" not in files_in(drawer.folder), "a file is made for the standard output"


def check_schemes(drawer):
    """What a picture and a page show can be read in the light and in the dark scheme; how many colours were measured."""
    picture = ElementTree.fromstring(drawer.drawn(SCENARIOS / "two_ports.toml", "colours.svg"))
    page = Page(drawer.drawn(SCENARIOS / "two_ports.toml", "colours.html"))
    return sum(map(check_colours, [picture.findtext(SVG + "style"), *page.styles[:1]]))


def check_columns(drawer):
    """A picture of 1,024 columns is drawn, and none of more."""
    for count in (511, 512):
        sections = [section(32 + conn, [0, 1]) for conn in range(count)]
        (drawer.folder / "wide.toml").write_text(scenario([1, 1], ["start 0 0"], sections))
        if count == 511:
            assert drawer.drawn("wide.toml", "wide.svg").count("class='life'") == 2 * count + 2, "the lifelines of a wide picture"
    drawer.draws_none("too wide", COLUMNS, "wide.toml")


def look(drawer):
    events = [drawer.checks(sample.name, check_sample, drawer, sample) or 0 for sample in samples()]
    woven = [drawer.checks(f"{sample.name}, woven", check_woven, drawer, sample) or 0 for sample in samples("threads_*")]
    drawer.checks("the picture of README.md", check_shown, drawer)
    drawer.checks("pictures that are printed", check_printed, drawer)
    colours = drawer.checks("the colours", check_schemes, drawer)
    drawer.checks("a wide picture", check_columns, drawer)
    writes = drawer.checks("writes that fail", check_kept, drawer)
    return f"{len(events)} samples with {sum(events)} events, {len(woven)} in threads with {sum(woven)} events, {colours} colours, {writes} writes that fail"


main(look, Drawer)
