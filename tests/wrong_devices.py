"""Audits the logs of wrong devices (`tests/devices`): of each fault that is planted in a port or in a source, the logs of a run up to the
first event at which the device does something else. The entry of that event has to be named, with what the protocol answers there, by an
audit of all logs and by one of that device's log alone, also of logs as devices write them.

usage: wrong_devices.py PROGRAM..
"""
import json
import random

from harness import ROOT, case_file, main, sys
from audits import Auditor, text_of
from completing import KINDS, dumps, stripped
from journals import Writer

for folder in (ROOT / "tools", ROOT / "tests" / "devices"):
    sys.path.insert(0, str(folder))
import device
from edges import Events, draw_net, world_of
from reading import event as event_of

# A port that doesn't look at the floor is wrong only where a source is too: no run of a net shows it.
UNSEEN = "floor_not_looked_at"
# Faults in how a cell is read or written: a log has what it says.
OF_CELLS = {"maintenance_not_looked_at", "codes_as_they_came"}
FAULTS = sorted({fault for role in case_file("conform")["faults"].values() for fault in role} - {UNSEEN} - OF_CELLS)
NET = '{"net":{"ports":[512000],"connections":[{"vpi":1,"vci":100,"path":[0],"delay":1000,"tau":200}]}}'
ABOVE = '{"port":0,"input":{"request":{"vpi":1,"vci":100,"seq":1,"floor":"5120","ask":"5120"}},"reply":"passed"}'
# How many events a run may have until the device is wrong, and at how many runs of each fault it is looked.
MOST, RUNS = 120, 3


class Outcomes:
    """A world in which an event has the outcome that it is given, and else happens as in the slow model."""

    def __init__(self, scenario):
        self.world, self.given = world_of(scenario), None
        self.courses = self.world.courses

    def step(self, event):
        outcome = self.world.step(event)
        return outcome if self.given is None else self.given


def written(scenario, events, last):
    """The lines of the journals of events, of which the last has another outcome, if one is given."""
    conns = [{"vc": (it.vpi, it.vci), "path": list(it.path), "delay": it.delay, "tau": it.tau} for it in scenario.connections]
    writer = Writer(list(scenario.ports), conns)
    writer.world = Outcomes(scenario)
    for event in events[:-1]:
        writer.happen(event)
    writer.world.given = last
    writer.happen(events[-1])
    return writer.lines


def wrong_run(fault, chosen):
    """The net and the events of a run up to the first at which the device with a fault does something else, and that."""
    device.FAULT = fault
    try:
        while True:
            scenario = draw_net(chosen)
            drawn, events = Events(chosen, scenario), []
            lines = [{"vpi": it.vpi, "vci": it.vci, "path": it.path, "tau": it.tau} for it in scenario.connections]
            wrong = device.Net({"ports": scenario.ports, "connection": lines})
            while len(events) < MOST:
                text, outcome = drawn.draw()
                events.append(event_of(text))
                if (given := wrong.step(*text.split(" "))) != outcome:
                    break
            # What a store was to do, which a device doesn't know, isn't to decide it.
            if given != outcome and events[-1][-1] not in ("before", "after"):
                return scenario, events, given
    finally:
        device.FAULT = ""


def is_step(line):
    """Whether a line says what a device did."""
    return bool(line.keys() & {"input", "did"})


def try_fault(audit, fault, chosen):
    scenario, events, given = wrong_run(fault, chosen)
    wrong, right = (written(scenario, events, last) for last in (given, None))
    place = max(at for at, line in enumerate(wrong) if is_step(line))
    who = next((f"--{kind}", wrong[place][kind]) for kind in ("port", "source") if kind in wrong[place])
    answer = right[place].get("reply") or right[place].get("outcome")
    whole = [dumps(line) for line in wrong]
    for what, lines in (("whole", whole), ("as devices write them", stripped(whole, KINDS))):
        for words in ((), who):
            wants_named(audit, f"{fault}, logs {what}", lines, words, answer)


def wants_named(audit, what, lines, words, answer):
    """The last step in these lines is named, with what the protocol answers there."""
    number = max(at for at, line in enumerate(lines, 1) if is_step(json.loads(line)))
    told = audit.run("audit", *audit.put([text_of(lines)]), *words).told.splitlines() + ["", "", ""]
    said = json.loads(told[2].removeprefix("protocol: ")) if told[2].startswith("protocol: ") else None
    if told[0] != "fault: Mismatch" or not told[1].startswith(f"0:{number}: ") or said != answer:
        audit.fail(f"{what} {words}: {told[:4]}, and line {number} has to say {answer}")


def look(audit):
    for fault in FAULTS:
        for seed in range(RUNS):
            try_fault(audit, fault, random.Random(f"{fault} {seed}"))
    wants_named(audit, UNSEEN, [NET, ABOVE], ("--port", 0), {"dropped": "FloorAbove"})
    return f"{len(FAULTS) + 1} faults, {RUNS} runs of each"


if __name__ == "__main__":
    main(look, Auditor)
