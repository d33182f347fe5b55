"""A source over a store."""
from __future__ import annotations

import enum
import os
from ctypes import byref, c_uint16, c_uint32, c_uint64, create_string_buffer

from .cells import Answer, Request, message_of, raw_of
from .faults import carried_out, moment, whole
from .library import LIB, SOURCE, Rm
from .port import _Unmovable
from .rates import Rate, code_of
from .shaper import emission
from .store import FileStore, Store, StoreFailed

_WRITE_FIRST, _RECORD_LENGTH = 8, 12
_WRITTEN, _FAILED_BEFORE, _FAILED_AFTER = 1, 2, 3


class Heard(enum.IntEnum):
    """What a source makes of an answer: a yes or a no to its newest request, or the answer to something else. Only RAISED is true."""

    RAISED = 10
    REFUSED = 11
    IGNORED = 12

    def __bool__(self) -> bool:
        return self is Heard.RAISED


class Phase(enum.IntEnum):
    """What a source does: it isn't started, waits for nothing, for an answer, or for what became of a write."""

    DOWN = 0
    IDLE = 1
    ASKING = 2
    WRITING = 3


class Source(_Unmovable):
    """A source of a connection, down at first: `abt_source_init`. Its store is a path, or any object with `read` and `write` (abt.Store).

    >>> from abt import MemoryStore
    >>> source = Source(MemoryStore(), vpi=1, vci=100)
    >>> source.start(now=0)
    >>> request = source.ask("400cps")
    >>> source.answer(request.answered(True))
    <Heard.RAISED: 10>
    >>> source.phase.name, source.last, source.next
    ('IDLE', 1, 1000000000000)
    >>> source.emit(now=10 ** 12)
    1002500000000
    """

    def __init__(self, store: Store | str | os.PathLike[str], vpi: int, vci: int):
        self.store: Store = FileStore(store) if isinstance(store, (str, os.PathLike)) else store
        self._state = SOURCE()
        carried_out(LIB.abt_raw_source_init(byref(self._state), whole(vpi, 16, "vpi"), whole(vci, 16, "vci")))

    def start(self, now: int) -> None:
        """Starts now, from what the store holds: `abt_source_start`."""
        record = self.store.read()
        carried_out(LIB.abt_raw_source_start(byref(self._state), record, len(record), moment(now)))

    def ask(self, rate: Rate) -> Request:
        """Asks for a rate, and gives the request to be sent: `abt_source_ask`; if it says to write first, the store writes, and
        `abt_source_wrote` is told what became of it. If the write failed, the source is as before, and the store's StoreFailed is raised.
        An error of another kind from the store counts as a write that may have been made, and is raised."""
        record, raw = create_string_buffer(_RECORD_LENGTH), Rm()
        outcome = carried_out(LIB.abt_raw_source_ask(byref(self._state), code_of(rate), record, _RECORD_LENGTH, byref(raw)))
        if outcome == _WRITE_FIRST:
            try:
                self.store.write(record.raw)
            except BaseException as error:
                before = isinstance(error, StoreFailed) and not error.after
                LIB.abt_raw_source_wrote(byref(self._state), _FAILED_BEFORE if before else _FAILED_AFTER, byref(raw))
                raise
            carried_out(LIB.abt_raw_source_wrote(byref(self._state), _WRITTEN, byref(raw)))
        return message_of(raw)

    def again(self) -> Request:
        """The newest request, to be sent again: `abt_source_again`."""
        raw = Rm()
        carried_out(LIB.abt_raw_source_again(byref(self._state), byref(raw)))
        return message_of(raw)

    def answer(self, answer: Answer) -> Heard:
        """Takes an answer: `abt_source_answer`."""
        return Heard(carried_out(LIB.abt_raw_source_answer(byref(self._state), byref(raw_of(answer)))))

    def emit(self, now: int) -> int:
        """Emits a cell now, and gives the earliest moment of the next one: `abt_source_emit`. The fault TooSoon has it as `next`."""
        next_moment = c_uint64()
        return emission(LIB.abt_raw_source_emit(byref(self._state), moment(now), byref(next_moment)), next_moment)

    def crash(self) -> None:
        """Loses the rate and the newest request: `abt_source_crash`."""
        carried_out(LIB.abt_raw_source_crash(byref(self._state)))

    @property
    def rate(self) -> int:
        """The code of the rate at which it shapes: `abt_source_rate`."""
        rate = c_uint16()
        carried_out(LIB.abt_raw_source_rate(byref(self._state), byref(rate)))
        return rate.value

    @property
    def phase(self) -> Phase:
        """What it does: `abt_source_phase`."""
        phase = c_uint32()
        carried_out(LIB.abt_raw_source_phase(byref(self._state), byref(phase)))
        return Phase(phase.value)

    @property
    def last(self) -> int:
        """The last number that is used up, by a request or by a start that passed over it: `abt_source_last`."""
        number = c_uint32()
        carried_out(LIB.abt_raw_source_last(byref(self._state), byref(number)))
        return number.value

    @property
    def next(self) -> int:
        """The earliest moment at which it emits a cell, at its present rate, without trying: `abt_source_next`."""
        next_moment = c_uint64()
        carried_out(LIB.abt_raw_source_next(byref(self._state), byref(next_moment)))
        return next_moment.value
