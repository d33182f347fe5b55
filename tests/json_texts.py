"""Reads what `--json` prints by Python's parser, puts each object into the words of docs/FORMATS.md, and compares these with what the
same command prints without it, with the same faults and the same status. Objects of `explain` have to be those of `run` too; those of
`threads` have to be what the slow model of scenarios/model reports, and `abt explain` tells, of the events that they name. Each object has
to be as docs/abt.schema.json says, by which each object that is spoilt in one member is refused.

usage: json_texts.py PROGRAM..
"""
import json
import re
import tomllib
from pathlib import Path

from harness import ROOT, SCENARIOS, case_file, main, samples
from json_schema import Kinds
from model import run as model_run

FORMATS = ROOT / "docs" / "FORMATS.md"
CODES = [f"{code:04x}" for code in range(0, 65536, 97)] + ["0000", "53e8", "5258", "ffff", "53E8", "", "5", "53e8 ", "g000"]
CELLS = ["", "0", "00", "zz", "6a" * 51, "00" * 52]
RATES = ["500cps", "1.3Mbps", "0cps", "0.000000001bps", "4290772992cps", "4290772993cps", "500", "53e8", ""]
# Moments on lines: up to 2^53 and above, up to the greatest that are served and above, back, and no moments.
MOMENTS = [0, 5, "x", "", "+6", 4, 2**53, 2**53 + 1, 2**61, 2**61 + 1, 2**62, 2**62 + 1, "9" * 4097, 2**64 - 1, 7]
# Words of messages, right ones and some with each fault.
MESSAGES = [f"{kind} {vpi} {vci} {seq} {rates}" for kind in ("request", "yes", "no") for vpi, vci, seq, rates in (
    (0, 32, 1, "0000 5258"), (4095, 65535, 2**32 - 1, "5120 5120"), (4096, 1, 1, "0000 5258"), (1, 65536, 1, "0000 5258"),
    (1, 1, 2**32, "0000 5258"), (1, 1, 1, "000 5258"), (1, 1, 1, "0000 525"), (1, 1, 0, "0000 5258"), (1, 1, 1, "5258 5120"))]


KINDS = Kinds("rate", "code", "cell", "write", "run", "explain", "threads", "check", "port", "police", "shape")


def objects(command, text):
    """The objects of what a command prints, one a line, each of a kind of this command, with no key that comes twice."""

    def members(pairs):
        if len({key for key, _ in pairs}) != len(pairs):
            raise ValueError("a key comes twice")
        return dict(pairs)

    found = [json.loads(line, object_pairs_hook=members) for line in text.splitlines()]
    KINDS.look(command, found)
    return found


def pairs(members):
    """Keys and values as words; a list is the words of its values."""
    for key, value in members.items():
        yield key
        yield from map(str, value if isinstance(value, list) else [value])


def without_texts(each):
    """An object without the texts of its numbers."""
    return {name: value for name, value in each.items() if not name.endswith("_text")}


def members_of(each):
    """What an object says beside its kind."""
    return {name: value for name, value in without_texts(each).items() if name != "kind"}


def report_of(found):
    """The report that the objects of a run say."""
    lines = []
    for each in map(members_of, found):
        if "event" in each:
            lines.append(" ".join(map(str, each.values())))
        elif "safe" in each:
            lines.append("safe" if each["safe"] is True else "unsafe")
        else:
            lines.append(" ".join(pairs(each)))
    count = sum("event" in each for each in found)
    return "".join(f"{line}\n" for line in [f"events {count}", *lines] if found)


def rate_of(found):
    return "".join(f"{' '.join(pairs(each))}\n".removeprefix("code ").replace("spacing None", "spacing none") for each in map(members_of, found))


def cell_of(found):
    texts = [" ".join(pairs(members_of(each))).removeprefix("message ") for each in found]
    return "".join(re.sub("^(yes|no)", r"answer \1", text) + "\n" for text in texts)


def code_of(found):
    lines = []
    for each in found:
        none = [each["code"], each["units"], each["spacing"]] == [None] * 3
        spacing = "none" if each["spacing"] is None else each["spacing"]
        lines.append(f"{each['kind']} none" if none else f"{each['kind']} {each['code']} units {each['units']} spacing {spacing}")
    return "".join(f"{line}\n" for line in lines)


def written_of(found):
    return "".join(f"{each['cell']}\n" for each in found)


def answers_of(found):
    """The lines that the objects of answers to lines say."""
    return "".join(f"{answer_of(without_texts(each))}\n" for each in found)


def answer_of(each):
    match each:
        case {"kind": "total", "total": total}:
            return f"total {total}"
        case {"kind": "arrival", "line": line, "at": at, "verdict": verdict, "early": early, "tat": tat, "then": then}:
            tat, then = ("absent" if time is None else time for time in (tat, then))
            return f"{line} at {at} {verdict} early {early} tat {tat} then {then}"
        case {"kind": "message", "line": line, **said}:
            return f"{line} {cell_of([said])}".rstrip()
        case {"kind": "leaving", "line": line, **said}:
            return f"{line} {' '.join(pairs(said))}"
        case {"kind": kind, "line": line, **said}:
            return f"{line} {kind} {' '.join(map(str, said.values()))}"


def with_header(cell, vpi, vci):
    """A cell of another connection: the check doesn't cover the header."""
    return f"{vpi << 20 | vci << 4 | 12:08x}{cell[8:]}"


def answered(cells):
    """Commands that answer lines, with lines of each kind."""
    moments, stream = "\n".join(map(str, MOMENTS)), "\n".join([*cells, "0" * 4097, *cells])
    many = "\n".join(with_header(cells[0], place // 512, place % 512) for place in range(1026))
    for rate in ("53e8", "0000", "7fff"):
        yield ["police", "--tau", "200000000", "--rate", rate], answers_of, moments
        yield ["shape", "--rate", rate], answers_of, moments
    yield ["cell", "--stdin"], answers_of, stream
    for capacity in (0, 512000, 2**60):
        yield ["port", str(capacity), "--stdin"], answers_of, stream
        yield ["port", str(capacity), *(cell for cell in cells if cell)], answers_of
    yield ["port", str(2**60), "--stdin"], answers_of, many
    yield ["port", "5", "--stdin"], answers_of, ""


def try_words(trial, words, said, text=b""):
    """A command says as JSON what it says in words."""
    in_words, as_json = run(trial, words, text), run(trial, [*words, "--json"], text)
    trial.wants(words, in_words, as_json._replace(output=said(objects(words[0], as_json.output))))


# How a reason says at which hop a message lies, and what comes next of it.
LIES = re.compile(r": (request|yes|no) (\d+) lies at (hop (\d+)|its source|the end of the path): `([^`]*)` comes next$")


def try_sighting(trial, words, event):
    """What an event says of its message as numbers is what it says in words; both are taken out."""
    at, following = event.pop("lies_at", None), event.pop("comes_next", None)
    found = LIES.search(event["words"])
    said = (found[3], found[5]) if found else ()
    place = "its source" if at == 0 else "the end of the path" if following and following.startswith("turn ") else f"hop {at}"
    trial.wants(f"explain {words}, where a message lies", said, () if at is None else (place, following))


def try_explained(trial, words, text=b""):
    """`explain` says as JSON what `explain` and `run` say in words."""
    as_json, in_words, report = (run(trial, given, text) for given in (["explain", *words, "--json"], ["explain", *words], ["run", *words]))
    found = objects("explain", as_json.output)
    events = [each for each in found if "event" in each]
    for each in events:
        try_sighting(trial, words, each)
    told = [f"{each['event']} line {each.pop('line')} {each.pop('text')}: {each.pop('words')}" for each in events]
    explained = in_words.output.splitlines()[: len(told)]
    trial.wants(f"explain {words}, and run", (report.status, report.output), (as_json.status, report_of(found)))
    trial.wants(f"explain {words}", (in_words.status, in_words.told, explained), (as_json.status, as_json.told, told))
    trial.wants(f"explain {words}, and what run tells", [True], [as_json.told.startswith(report.told)])


def scenario_of(sample, events):
    """A scenario of a sample's net, without scripts, and of these events."""
    read = tomllib.loads(sample.read_text())
    conns = [{key: conn[key] for key in ("vpi", "vci", "path", "delay", "tau")} for conn in read.get("connection", [])]
    tables = ["".join(f"{key} = {value}\n" for key, value in conn.items()) for conn in conns]
    return "".join([f"ports = {read['ports']}\nevents = {json.dumps(events)}\n", *(f"[[connection]]\n{table}" for table in tables)])


def try_threads(trial, sample, workers):
    """The events of a run in threads, as JSON: what they are called by other means; a run that there isn't has the fault of the words."""
    words = ["threads", sample.name, "--workers", workers]
    if Path(f"{sample}.stdout").read_text() != "gathered\nwoven\nsafe\n":
        trial.wants(f"{words}, a fault", run(trial, words, b""), run(trial, [*words, "--json"], b""))
        return
    as_json = run(trial, [*words, "--json"], b"")
    found = objects("threads", as_json.output)
    events = [each for each in found if "event" in each]
    text = scenario_of(sample, [each["text"] for each in events])
    for each in events:
        try_sighting(trial, words, each)
    told = [f"{each['event']} {each.pop('text')}: {each.pop('words')}" for each in events]
    explained = run(trial, ["explain"], text).output.splitlines()[: len(told)]
    trial.wants(f"{words}, explained", [re.sub(r"^(\d+) line \d+", r"\1", line) for line in explained], told)
    trial.wants(f"{words}, and the slow model", model_run(text.encode()), (as_json.status, report_of(found), as_json.told))


def named(found):
    """The name of a fault of `check`, with what it names, as it is written on standard error."""
    names = ("fault", "net", "key", "connection", "event", "command", "operation")
    return " ".join(str(found[name]) for name in names if name in found)


def line_of(found):
    """The line that an object of `check` says."""
    if "faults" in found:
        counts = [f"{number} or more" if number == 100 else str(number) for number in (found["faults"], found["warnings"])]
        return f"faults: {counts[0]}, warnings: {counts[1]}\n"
    place = f"line {found['line']}, column {found['column']}: " if "line" in found else ""
    what = {"fault": f"fault {named(found)}: ", "warning": "warning: "}[found["kind"]]
    return f"{place}{what}{found['message']}\n"


def located_of(found):
    """The line that an object of `check` says of one of several files."""
    name = found["file"]
    if "faults" in found:
        return f"{name}: {line_of(found)}"
    place = f"{name}:{found['line']}:{found['column']}" if "line" in found else name
    what = {"fault": f"fault: {named(found)}", "warning": "warning"}[found["kind"]]
    return f"{place}: {what}: {found['message']}\n"


def run(trial, words, text):
    return trial.run(*words, text=text, folder=SCENARIOS)


def look(trial):
    run_ones = [it for it in samples() if not it.with_name(it.name + ".args").is_file()]
    cells = re.findall(r"\b[0-9a-f]{104}\b", FORMATS.read_text()) + CELLS
    if not run_ones or len(cells) == len(CELLS):
        raise SystemExit("json_texts: there is no sample, or no cell")
    runs = [([sample.name], b"") for sample in run_ones] + [([], sample.read_bytes()) for sample in run_ones] + [(["none.toml"], b"")]
    faulty = [case.get("input", "") for case in case_file("check")["case"] if case["words"] == "check"]
    faulty.append("ports = []\nevents = [" + "'x'," * 150 + "]\n")
    tried = [(["run", *words], report_of, text) for words, text in runs if words != ["none.toml"]]
    tried += [(["rate", code], rate_of) for code in CODES] + [(["cell", cell], cell_of) for cell in cells]
    checked = [*(([], text) for text in faulty), *(([sample.name], b"") for sample in samples()), (["none.toml"], b"")]
    tried += [(["code", rate], code_of) for rate in RATES] + [(["write", *words.split()], written_of) for words in MESSAGES]
    tried += answered(cells)
    tried += [(["check", *words], lambda found: "".join(map(line_of, found)), text) for words, text in checked]
    several = [["none.toml"], [*(sample.name for sample in samples()), "none.toml", "."]]
    tried += [(["check", "--located", *words], lambda found: "".join(map(located_of, found)), faulty[0]) for words in several]
    tried += [(["check", "--located"], lambda found: "".join(map(located_of, found)), text) for text in faulty]
    for check, all_given in ((try_words, tried), (try_explained, runs)):
        for given in all_given:
            trial.checks(given, check, trial, *given)
    for sample in samples("threads_*"):
        for workers in (1, 4):
            trial.checks(sample.name, try_threads, trial, sample, workers)
    trial.wants("kinds of objects that nothing printed", [], KINDS.missing())
    return f"{len(run_ones)} samples, {len(CODES)} codes, {len(cells)} cells, {len(faulty)} texts with faults"


main(look)
