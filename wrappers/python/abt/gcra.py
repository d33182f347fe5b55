"""The generic cell rate algorithm in both forms, and the policer."""
from __future__ import annotations

import enum
from collections.abc import Sequence
from ctypes import byref, c_size_t, c_uint64, create_string_buffer

from .faults import FIRST, Fault, carried_out, moment
from .library import BUCKET, GCRA, LIB, POLICER
from .rates import Rate, code_of


class Verdict(enum.IntEnum):
    """What is found of a cell. Only a conforming one is taken, and it alone is true.

    >>> [bool(verdict) for verdict in Verdict]
    [True, False, False]
    """

    CONFORMING = 1
    TOO_EARLY = 2
    NO_RATE = 3

    def __bool__(self) -> bool:
        return self is Verdict.CONFORMING


class Gcra:
    """The algorithm by virtual scheduling: `abt_gcra_init`.

    >>> gcra = Gcra(tau=0)
    >>> [gcra.check(at, 5).name for at in (10, 14, 15)]
    ['CONFORMING', 'TOO_EARLY', 'CONFORMING']
    """

    def __init__(self, tau: int):
        self._state = GCRA()
        carried_out(LIB.abt_raw_gcra_init(byref(self._state), moment(tau, "tau")))

    def check(self, at: int, spacing: int) -> Verdict:
        """The verdict on a cell that arrives at a moment, with the spacing from it to the next one: `abt_gcra_check`."""
        return Verdict(carried_out(LIB.abt_raw_gcra_check(byref(self._state), moment(at), moment(spacing, "a spacing"))))


class Bucket:
    """The algorithm as a leaky bucket, with the same verdicts: `abt_bucket_init`.

    >>> bucket = Bucket(tau=0)
    >>> [bucket.check(at, 5).name for at in (10, 14, 15)]
    ['CONFORMING', 'TOO_EARLY', 'CONFORMING']
    """

    def __init__(self, tau: int):
        self._state = BUCKET()
        carried_out(LIB.abt_raw_bucket_init(byref(self._state), moment(tau, "tau")))

    def check(self, at: int, spacing: int) -> Verdict:
        """The verdict on a cell that arrives at a moment, with the spacing from it to the next one: `abt_bucket_check`."""
        return Verdict(carried_out(LIB.abt_raw_bucket_check(byref(self._state), moment(at), moment(spacing, "a spacing"))))


class Policer:
    """A policer, which follows the rate that is held: `abt_policer_init`."""

    def __init__(self, tau: int):
        self._state = POLICER()
        carried_out(LIB.abt_raw_policer_init(byref(self._state), moment(tau, "tau")))

    def arrive(self, at: int, held: Rate) -> Verdict:
        """The verdict on a cell that arrives at a moment, where this rate is held: `abt_policer_arrive`.

        >>> policer = Policer(tau=200)
        >>> policer.arrive(5, "1000cps").name, policer.arrive(6, 0x53e8).name, policer.arrive(7, 0).name
        ('CONFORMING', 'TOO_EARLY', 'NO_RATE')
        >>> policer.arrive(0, "1000cps")
        Traceback (most recent call last):
        abt.faults.Fault: ClockBack
        """
        return Verdict(carried_out(LIB.abt_raw_policer_arrive(byref(self._state), moment(at), code_of(held))))

    def arrive_burst(self, at: Sequence[int], held: Rate) -> list[Verdict]:
        """The verdicts on a burst of cells at these moments, where this rate is held: what as many calls of `arrive` do, up to the first that
        is refused; its Fault has the verdicts before it as `judged`: `abt_policer_arrive_burst`.

        >>> policer = Policer(tau=200)
        >>> [verdict.name for verdict in policer.arrive_burst([5, 6, 10**9 + 5], "1000cps")]
        ['CONFORMING', 'TOO_EARLY', 'CONFORMING']
        >>> policer.arrive_burst([10**9 + 6, 0], "1000cps")
        Traceback (most recent call last):
        abt.faults.Fault: ClockBack
        """
        count, judged = len(at), c_size_t()
        moments, verdicts = (c_uint64 * max(count, 1))(*map(moment, at)), create_string_buffer(max(count, 1))
        outcome = LIB.abt_raw_policer_arrive_burst(byref(self._state), code_of(held), moments, count, verdicts, count, byref(judged))
        found = [Verdict(number) for number in verdicts.raw[: judged.value]]
        if outcome >= FIRST:
            raise Fault(outcome, judged=found)
        return found
