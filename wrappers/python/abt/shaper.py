"""When the next cell may leave."""
from __future__ import annotations

from ctypes import byref, c_uint64

from .faults import FIRST, Fault, carried_out, moment
from .library import LIB, SHAPER
from .rates import Rate, code_of

_TOO_SOON = 41


def emission(outcome: int, next_moment: c_uint64) -> int:
    """The earliest moment of the next cell, which the fault TooSoon has too."""
    if outcome >= FIRST:
        raise Fault(outcome, next_moment.value if outcome == _TOO_SOON else None)
    return next_moment.value


class Shaper:
    """A shaper that lets no cell leave before a moment: `abt_shaper_init`."""

    def __init__(self, not_before: int = 0):
        self._state = SHAPER()
        carried_out(LIB.abt_raw_shaper_init(byref(self._state), moment(not_before)))

    def emit(self, now: int, rate: Rate) -> int:
        """Lets a cell leave now, at this rate, and gives the earliest moment of the next one: `abt_shaper_emit`.

        >>> shaper = Shaper()
        >>> shaper.emit(0, "1000cps")
        1000000000
        >>> shaper.emit(1, "1000cps")
        Traceback (most recent call last):
        abt.faults.Fault: TooSoon
        """
        next_moment = c_uint64()
        return emission(LIB.abt_raw_shaper_emit(byref(self._state), moment(now), code_of(rate), byref(next_moment)), next_moment)

    @property
    def next(self) -> int:
        """The earliest moment at which the next cell may leave: `abt_shaper_next`.

        >>> Shaper(7).next
        7
        """
        next_moment = c_uint64()
        carried_out(LIB.abt_raw_shaper_next(byref(self._state), byref(next_moment)))
        return next_moment.value
