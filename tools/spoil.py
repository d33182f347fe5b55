"""Spoils one thing of a scenario, so that it has a fault of docs/FORMATS.md, "Scenario", or is at the edge of having one."""
import sys
from dataclasses import replace
from pathlib import Path

from draw_net import MOST_CAPACITY, MOST_CONNECTIONS, MOST_DELAY, MOST_HOPS, MOST_PORTS, MOST_TAU

sys.path.insert(0, str(Path(__file__).resolve().parent.parent / "tests"))
from harness import case_file  # noqa: E402

KEYS = ("vpi", "vci", "path", "delay", "tau")
# Values that a key can't have, or only just can.
ODD_VALUES = {
    "vpi": (4095, 4096, -1, "1.0", "'1'", None),
    "vci": (65535, 65536, 2**63 - 1, "true", None),
    "path": ((), (65535,), (65536,), (-1,), (256,), "0", "[0, 'x']", "[[0]]", None),
    "delay": (MOST_DELAY, MOST_DELAY + 1, 2**63 - 1, 2**63, -1, "1e3", None),
    "tau": (MOST_TAU, MOST_TAU + 1, 2**63 - 1, 2**64, "{}", "2026-11-23", None),
}
ODD = case_file("odd")


def spoil_connection(chosen, scenario):
    """One value of one connection is odd."""
    conns = list(scenario.connections)
    at, key = chosen.randrange(len(conns)), chosen.choice(KEYS)
    conns[at] = replace(conns[at], **{key: chosen.choice(ODD_VALUES[key])})
    return replace(scenario, connections=tuple(conns))


def spoil_path(chosen, scenario):
    """A path is too long, visits a port twice, or names a port that isn't there."""
    conns = list(scenario.connections)
    at, ports = chosen.randrange(len(conns)), range(len(scenario.ports))
    path = chosen.choice([
        tuple(chosen.choice(ports) for _ in range(chosen.choice([2, MOST_HOPS, MOST_HOPS + 1]))),
        tuple(ports[: MOST_HOPS + chosen.randrange(2)]),
        (*conns[at].path, len(ports)),
    ])
    conns[at] = replace(conns[at], path=path)
    return replace(scenario, connections=tuple(conns))


def spoil_channel(chosen, scenario):
    """Two connections may have one channel."""
    conns = list(scenario.connections)
    first, second = chosen.choice(conns), chosen.randrange(len(conns))
    conns[second] = replace(conns[second], vpi=first.vpi, vci=first.vci)
    return replace(scenario, connections=tuple(conns))


def spoil_ports(chosen, scenario):
    ports = list(scenario.ports)
    ports[chosen.randrange(len(ports))] = chosen.choice([MOST_CAPACITY, MOST_CAPACITY + 1, 2**63 - 1, 2**63, -1])
    longer = tuple(ports + [0] * (chosen.choice([MOST_PORTS, MOST_PORTS + 1]) - len(ports)))
    return replace(scenario, ports=chosen.choice([tuple(ports), tuple(ports), longer, None, (), "[1.5]", "7"]))


def spoil_count(chosen, scenario):
    """As many connections as there may be, or one more."""
    count = MOST_CONNECTIONS + chosen.randrange(2)
    added = [replace(scenario.connections[0], vpi=number // 256, vci=number % 256) for number in range(count)]
    return replace(scenario, connections=tuple(added))


def spoil_event(chosen, scenario):
    events = list(scenario.events)
    events.insert(chosen.randint(0, len(events)), chosen.choice(ODD["events"]))
    return replace(scenario, events=tuple(events))


def spoil_script(chosen, scenario):
    conns = list(scenario.connections)
    at = chosen.randrange(len(conns))
    conns[at] = replace(conns[at], script=(*conns[at].script, chosen.choice(ODD["commands"])))
    return replace(scenario, connections=tuple(conns))


def spoil_head(chosen, scenario):
    return replace(scenario, head=chosen.choice(ODD["heads"]))


SPOILS = (spoil_connection, spoil_path, spoil_channel, spoil_ports, spoil_count, spoil_event, spoil_script, spoil_head)


def spoiled(chosen, scenario):
    """The scenario with one or two things spoiled, of which the first fault has to be told."""
    changed = chosen.choice(SPOILS)(chosen, scenario)
    if chosen.random() < 0.3:
        other = chosen.choice((spoil_event, spoil_script, spoil_head))
        changed = other(chosen, changed)
    return changed
