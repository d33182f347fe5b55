"""Reads what `abt audit --json` prints by Python's parser, puts each object into the words of docs/AUDITS.md, and compares these with
what the same command tells without it, with the same status: of the cases of tests/cases, also of one log, of journals of each sample, and
of damaged ones. Each object has to be as docs/abt.schema.json says, by which each object that is spoilt in one member is refused.

usage: audit_objects.py PROGRAM..
"""
import json
import random
import shlex
import tempfile
from pathlib import Path

from harness import SCENARIOS, case_file, main, put
from audits import Auditor, sample_journals, text_of, worked_faults, worked_run
from damage import damaged
from json_schema import Kinds
from loose_audits import stuck_pieces

KINDS = Kinds("audit")
# Names of files that JSON and a terminal have other signs for.
ODD = ['quoted "a".jsonl', "back\\slash.jsonl", "tab\t.jsonl", "ä ö.jsonl", "line\nfeed.jsonl"]


def objects(text):
    """The objects that an audit prints, one a line, each of a kind of it, with `kind` first and no key that comes twice."""

    def members(pairs):
        if pairs and pairs[0][0] != "kind" and "kind" in dict(pairs):
            raise ValueError("kind isn't first")
        if len({key for key, _ in pairs}) != len(pairs):
            raise ValueError("a key comes twice")
        return dict(pairs)

    found = [json.loads(line, object_pairs_hook=members) for line in text.split("\n")[:-1]]
    KINDS.look("audit", found)
    return found


def compact(value):
    return json.dumps(value, separators=(",", ":"), ensure_ascii=False)


def seconds(moment):
    whole, part = divmod(moment, 10**12)
    return f"{whole}.{part:012}".rstrip("0").rstrip(".")


def spot(each):
    return f"{each['file']}:{each['line']}"


def whose(each):
    return ("port", each["port"]) if "port" in each else ("source", each["source"])


def entry_of(each):
    """The lines of an entry. Whose it is stands in it too, and so does a port's place."""
    entry = each["entry"]
    if whose(entry) != whose(each) or "place" in entry and entry["place"] != each["place"]:
        raise ValueError(f"{each} is of another entry")
    return f"{spot(each)}: {compact(entry)}\n"


def why_of(each):
    if "cell" in each and f" is {each['cell']}, from {seconds(each['from'])} s to {seconds(each['to'])} s" not in each["why"]:
        raise ValueError(f"{each} has another window in words")
    since = f" since {spot(each['since'])}" if "since" in each else ""
    return f"why: {each['why']}{since}\n" if "why" in each else ""


def words_of(each):
    """What is told of an object in words."""
    match each:
        case {"kind": "woven", "safe": True}:
            return "woven\nsafe\n"
        case {"kind": "obeys", "entries": count}:
            return f"{' '.join(map(str, whose(each)))} obeys: entries {count}\n"
        case {"kind": "note", "note": "cut", "text": text, "line": line}:
            return f"note: text {text} ends in the middle of line {line}\n"
        case {"kind": "text", "fault": fault}:
            return f"fault: {spot(each)}: {fault}\n"
        case {"kind": "fault", "fault": "Nothing"}:
            return "fault: Nothing\n"
        case {"kind": "fault", "fault": fault}:
            return f"fault: {fault}\n{whose(each)[1]}: the net has no such {fault}\n"
        case {"kind": "mismatch", "protocol": answer}:
            return f"fault: Mismatch\n{entry_of(each)}protocol: {compact(answer)}\n{why_of(each)}"
        case {"kind": "stuck"}:
            return f"{entry_of(each)}{why_of(each)}"


def told_by(found, as_json):
    """How an audit ends in words, by its objects: they are told where they show a fault, and else go out."""
    text = "".join(map(words_of, found))
    if not found or found[0]["kind"] in ("woven", "obeys"):
        return as_json._replace(output=text)
    first = "fault: NoOrder\n" if found[0]["kind"] == "stuck" else ""
    return as_json._replace(output="", told=f"{first}{text}{as_json.told}")


def try_words(trial, words, text, folder):
    """An audit says as JSON what it says in words."""
    in_words, as_json = (trial.run(*words, *more, text=text, folder=folder) for more in ([], ["--json"]))
    found = objects(as_json.output)
    trial.wants(f"{words} of {text[:200]!r}", in_words, told_by(found, as_json))
    return found


def try_cases(trial, name, **values):
    """The audits of a file of cases, but for those whose words are refused."""
    read = case_file(name, **values)
    asked = [case for case in read["case"] if case["words"].startswith("audit") and "--json" not in case["words"] and case.get("status") != 2]
    for case in asked:
        with tempfile.TemporaryDirectory(prefix="case-") as room:
            put(Path(room), read.get("files", {}))
            trial.checks(case["words"], try_words, trial, shlex.split(case["words"]), case.get("input", ""), room)
    return len(asked)


def try_journals(trial, name, lines):
    """The events of a sample's journals are counted; damaged ones, and each log by itself, are told as in words."""
    found = try_words(trial, ["audit"], text_of(lines), None)
    events = sum(len(one.keys() & {"did", "input"}) for one in map(json.loads, lines))
    trial.wants(f"{name}, woven", ["woven"], [each["kind"] for each in found])
    if found and found[0].get("events", 0) < events:
        trial.fail(f"{name}: {found[0]} of {events} entries that are events")
    for what, left in damaged(lines, random.Random(name), 2):
        for words in ([], ["--port", "0"], ["--source", "0"]):
            trial.checks(f"{name}, {what}", try_words, trial, ["audit", *words], text_of(left), None)


def try_names(trial, lines):
    """Names of files of any text."""
    for name in ODD:
        (trial.folder / name).write_bytes(text_of([lines[0], "{]"]))
        found = objects(trial.run("audit", name, "--json").output)
        trial.wants(f"{name!r}", [{"kind": "text", "file": name, "line": 2, "fault": "Json"}], found)


def look(trial):
    net, *entries, end = (one + "\n" for one in worked_run())
    far = json.dumps({"net": {**json.loads(net)["net"], "ports": []}}) + "\n"
    step = next(one for one in entries if '"port"' in one)
    texts = {name.removesuffix(".jsonl"): text.decode() for name, text, _ in worked_faults()}
    run = "".join([net, *entries, end])
    cases = try_cases(trial, "audits", run=run, net=net, far=far, step=step, end=end, crossing=SCENARIOS / "threads_crossing.toml")
    cases += try_cases(trial, "one_log", run=run, net=net, end=end, **texts)
    cases += try_cases(trial, "stuck", **stuck_pieces())
    every = [("docs/JOURNALS.md", worked_run()), *sample_journals()]
    for name, lines in every:
        trial.checks(name, try_journals, trial, name, lines)
    try_names(trial, worked_run())
    for words in (["audit"], ["audit", "--port", "0"]):
        trial.to_full(*words, "--json", text=text_of(worked_run()))
        trial.to_full(*words, "--json", text=b"{]\n")
    trial.wants("kinds of objects that nothing printed", [], KINDS.missing())
    return f"{cases} cases, {len(every)} runs"


if __name__ == "__main__":
    main(look, Auditor)
