"""Damages journals: one entry is changed, missing, there twice, or in the place of another one of the same actor.

The places of ports' steps are numbered anew, so that the texts stay journals.
"""
import json
from itertools import islice


def actor(one):
    read = json.loads(one)
    return ("port", read["port"]) if "port" in read else ("source", read["source"])


def changed(one):
    """The entry with another reply or outcome, or None."""
    read = json.loads(one)
    if "reply" in read:
        word = "arrived" if "arrive" in read["input"] else None
        other = {"refused": "BelowSum"} if "capacity" in read["input"] else {word: "NoRate"} if word else {"dropped": "Stale"}
        read["reply"] = "passed" if read["reply"] == other and not word else {word: "TooEarly"} if read["reply"] == other else other
        if "capacity" in read["input"] and read["reply"] == "passed":
            read["reply"] = "set"
    elif "outcome" in read:
        read["outcome"] = "crashed" if read["outcome"] != "crashed" else "started"
    else:
        return None
    return json.dumps(read, separators=(",", ":"))


def later(lines, at):
    """Where the later entries of an entry's actor stand."""
    return [other for other in range(at + 1, len(lines) - 1) if actor(lines[other]) == actor(lines[at])]


def swapped(lines, at, other):
    left = list(lines)
    left[at], left[other] = lines[other], lines[at]
    return left


def numbered(lines):
    """The lines with the steps of each port numbered by their order."""
    counts, found = {}, [lines[0]]
    for line in lines[1:-1]:
        entry = json.loads(line)
        if "port" in entry:
            entry["place"] = counts.get(entry["port"], 0)
            counts[entry["port"]] = entry["place"] + 1
        found.append(json.dumps(entry, separators=(",", ":")))
    return [*found, lines[-1]]


def left_by(kind, lines, at, draw):
    """The lines that a damage of an entry leaves, or None if it has none of this kind."""
    match kind:
        case "changed":
            other = changed(lines[at])
            return other and [*lines[:at], other, *lines[at + 1 :]]
        case "dropped":
            return numbered([*lines[:at], *lines[at + 1 :]])
        case "doubled":
            return numbered([*lines[: at + 1], *lines[at:]])
    places = later(lines, at)
    return numbered(swapped(lines, at, draw.choice(places))) if places else None


def damaged(lines, draw, most):
    """Of each kind of damage at most so many, at lines that are drawn: its name, the line, and the lines that it leaves."""
    for kind in ("changed", "dropped", "doubled", "swapped"):
        places = list(range(1, len(lines) - 1))
        draw.shuffle(places)
        left = ((at, left) for at in places if (left := left_by(kind, lines, at, draw)))
        yield from ((f"line {at + 1} {kind}", lines) for at, lines in islice(left, most))
