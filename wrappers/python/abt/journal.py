"""Journals of any system that speaks the protocol, and their audit by the program (docs/JOURNALS.md).

>>> net = {"ports": [512000], "connections": [{"vpi": 1, "vci": 100, "path": [0], "delay": 1000, "tau": 200}]}
>>> journal = Journal(net)
>>> journal.source(0, did={"start": 0}, outcome="started")
>>> journal.port(0, input={"capacity": 1000}, reply="set")
0
>>> journal.audit()
Audit(woven=True, told=['woven', 'safe'])
>>> journal.port(0, input={"capacity": 1 << 62}, reply="set")
1
>>> journal.audit().told[0]
'fault: Mismatch'
"""
from __future__ import annotations

import json
from collections import Counter
from collections.abc import Mapping
from typing import Any, NamedTuple

from .faults import untested
from .program import ProgramFault, run


class Audit(NamedTuple):
    """Whether journals are those of one safe run, and the lines that the program told. Its woven is tested; to test it itself is a TypeError."""

    woven: bool
    told: list[str]

    def __bool__(self) -> bool:
        raise untested(self, "test .woven, as `audit(..).woven`")


def audit(text: str) -> Audit:
    """Has `abt audit` look at journals, a text of JSON lines. A text that is none raises ProgramFault."""
    ran = run(["audit", "--quiet"], text)
    told = (ran.stdout + ran.stderr).splitlines()
    if ran.returncode != 0 and not ran.stdout and not any(line.startswith(("fault: NoOrder", "fault: Mismatch")) for line in told):
        raise ProgramFault(ran.stderr.strip())
    return Audit(ran.returncode == 0, told)


class Journal:
    """The journals of a net, as a system under test writes them; the places of ports' steps are counted here."""

    def __init__(self, net: Mapping[str, Any]):
        self.lines = [json.dumps({"net": net})]
        self._places: Counter[int] = Counter()

    def port(self, port: int, input: Mapping[str, Any], reply: Any, caller: int = 0) -> int:
        """Writes a step of a port, and gives its place."""
        place = self._places[port]
        self._places[port] += 1
        self.lines.append(json.dumps({"port": port, "place": place, "caller": caller, "input": input, "reply": reply}))
        return place

    def source(self, source: int, **entry: Any) -> None:
        """Writes an entry of a source: `did` with `outcome`, or `sent`, or `arrived`."""
        self.lines.append(json.dumps({"source": source, **entry}))

    def text(self) -> str:
        """The text, with its end."""
        return "\n".join([*self.lines, json.dumps({"end": True}), ""])

    def audit(self) -> Audit:
        """Has `abt audit` look at it."""
        return audit(self.text())
