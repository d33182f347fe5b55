"""Why a call was refused, by the names and numbers of abt.h."""
from __future__ import annotations

NAMES = {
    32: "Null",
    33: "NoState",
    34: "Length",
    35: "TauRange",
    36: "SpacingRange",
    37: "UnitsRange",
    38: "ClockBack",
    39: "TimeRange",
    40: "Zero",
    41: "TooSoon",
    48: "NotRm",
    49: "Crc",
    50: "Protocol",
    51: "Maintenance",
    52: "Elastic",
    53: "Direction",
    54: "SeqZero",
    55: "RateOrder",
    56: "Kind",
    57: "VpiRange",
    64: "Down",
    65: "Running",
    66: "Writing",
    67: "NotWriting",
    68: "NotAsking",
    69: "SeqExhausted",
    70: "NotKept",
    71: "RecordSpacing",
    72: "BelowSum",
    73: "CapacityRange",
    74: "Known",
    75: "Full",
    76: "Damaged",
    77: "Held",
    78: "NotIngress",
}
FIRST = 32


class Fault(Exception):
    """A call was refused, and nothing that was handed in has changed. `name` is that of `abt_outcome_name`, `number` that of abt.h; `next` is
    the earliest moment of the next cell, after TooSoon; `judged` what became of the cells of a burst before the one that was refused.

    >>> Fault(41, 7)
    Fault('TooSoon')
    >>> Fault(41, 7).next
    7
    """

    def __init__(self, number: int, next: int | None = None, judged: list | None = None):
        self.number, self.name, self.next, self.judged = number, NAMES.get(number, f"unknown {number}"), next, judged
        super().__init__(self.name)


def carried_out(outcome: int) -> int:
    """The outcome of a call that was carried out; another one is raised."""
    if outcome >= FIRST:
        raise Fault(outcome)
    return outcome


def untested(it: object, instead: str) -> TypeError:
    """What is raised where a tuple with an outcome is tested, as a tuple is true whatever its outcome is."""
    return TypeError(f"{type(it).__name__} can't be tested, it would always be true: {instead}")


def whole(value: int, bits: int, what: str) -> int:
    """A number that has room in so many bits; C would take the lower bits of another one for it."""
    if not isinstance(value, int) or isinstance(value, bool):
        raise TypeError(f"{what} is a whole number, not {type(value).__name__}")
    if not 0 <= value < 1 << bits:
        raise OverflowError(f"{what} is from 0 to {(1 << bits) - 1}, not {value}")
    return value


def moment(value: int, what: str = "a moment") -> int:
    return whole(value, 64, what)
