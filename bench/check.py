#!/usr/bin/env python3
"""Says whether each kind of scenario does what its name says, by the slow model of `scenarios/model`."""
import sys
from collections import Counter
from pathlib import Path

sys.path.insert(0, str(Path(__file__).resolve().parent.parent / "scenarios" / "model"))
from model import run
from scenarios import KINDS, eventful, too_many

# Outcomes that a scenario of the kind has.
EXPECTED = {
    "one-port": {"asked", "passed", "refuses", "turned", "told Raised", "told Refused"},
    "many-ports": {"asked", "passed", "refuses", "turned", "told Raised", "told Refused"},
    "long-paths": {"asked", "passed", "refuses", "turned", "told Raised", "told Refused"},
    "repeats": {"refuses", "dropped Stale", "turned", "told Ignored"},
    "cells": {"emitted", "arrived Conforming"},
    "again": {"again"},
    "asks": {"asked"},
    "requests": {"asked", "passed"},
    "not-enabled": {"not-enabled NotSent"},
}


def outcome(line):
    """The names of an outcome, without its numbers."""
    return " ".join(word for word in line.split(" ")[1:] if word.isalpha() or "-" in word)


def fault(kind, connections, events):
    """What is wrong with a scenario, or None."""
    status, report, _ = run(eventful(kind, connections, events, None).encode())
    if status != 0:
        return "it is no scenario"
    lines = report.split("\n")
    found = Counter(outcome(line) for line in lines[1 : 1 + events])
    if lines[0] != f"events {events}":
        return f"it has other events: {lines[0]}"
    if kind != "not-enabled" and any(name.startswith("not-enabled") for name in found):
        return f"an event isn't enabled: {found}"
    if missing := {name for name in EXPECTED[kind] if not any(one.startswith(name) for one in found)}:
        return f"nothing is answered {missing}: {found}"
    return None if lines[-2] == "safe" else "it isn't safe"


def main():
    tried = [(kind, connections, events) for kind in KINDS for connections, events in ((1, 300), (4, 1200), (16, 2400))]
    faults = [f"{' '.join(map(str, one))}: {told}" for one in tried if (told := fault(*one))]
    told = run(too_many(1500, None).encode())[2]
    if not told.startswith("fault: Net Limit"):
        faults.append(f"too-many: {told}")
    print("\n".join([*faults, f"check: {len(tried) + 1} scenarios, {len(faults)} faults"]))
    sys.exit(1 if faults else 0)


if __name__ == "__main__":
    main()
