"""An oracle for tests: a net of the program's, which tells the outcome of each event (docs/SCENARIOS.md, docs/FORMATS.md).

A test that drives its own implementation asks the oracle the same, in lock step:

>>> net = {"ports": [512000], "connection": [{"vpi": 1, "vci": 100, "path": [0], "delay": 1000, "tau": 200}]}
>>> step = Step(net)
>>> step.take("start 0 0"), step.take("ask 0 5258"), step.take("request 0 1 1")
('started', 'asked 1 0000 5258', 'passed')
>>> step.state()
['connection 0 rate 0000 held 5258', 'port 0 total 307200 capacity 512000', 'safe']
>>> step.take("no event")
Traceback (most recent call last):
abt.program.ProgramFault: fault: EventText 4
"""
from __future__ import annotations

import json
from collections.abc import Iterable, Mapping
from typing import Any

from .program import ProgramFault, run


def scenario(net: Mapping[str, Any], events: Iterable[str]) -> str:
    """The text of a scenario: `ports`, and the tables of `connection`, with events. Values are whole numbers, texts and lists of them."""
    heads = {key: value for key, value in net.items() if key != "connection"} | {"events": list(events)}
    lines = [f"{key} = {json.dumps(value)}" for key, value in heads.items()]
    for connection in net.get("connection", []):
        lines += ["[[connection]]", *(f"{key} = {json.dumps(value)}" for key, value in connection.items())]
    return "\n".join(lines) + "\n"


class Step:
    """A net to which events happen one by one. Each `take` has `abt run` carry out the whole list so far, so it costs as much as there are
    events; `take_all` carries out many in one run."""

    def __init__(self, net: Mapping[str, Any]):
        self.net, self.events, self._lines = dict(net), [], []  # type: ignore[var-annotated]
        self._carry_out([])

    def _carry_out(self, more: list[str]) -> list[str]:
        ran = run(["run", "--quiet"], scenario(self.net, [*self.events, *more]))
        if ran.returncode != 0:
            raise ProgramFault(ran.stderr.strip())
        self._lines, self.events = ran.stdout.splitlines(), [*self.events, *more]
        told = self._lines[1 + len(self.events) - len(more) : 1 + len(self.events)]
        return [line.partition(" ")[2] for line in told]

    def take(self, event: str) -> str:
        """The outcome of an event. A text that is none raises ProgramFault, and the net stays as it was."""
        return self._carry_out([event])[0]

    def take_all(self, events: Iterable[str]) -> list[str]:
        """The outcomes of events."""
        return self._carry_out(list(events))

    def state(self) -> list[str]:
        """The lines of the report behind the outcomes: rates and holds, totals and capacities, and whether all is safe."""
        return self._lines[1 + len(self.events) :]
