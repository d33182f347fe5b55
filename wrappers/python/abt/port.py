"""Ports: over connections that the caller keeps, and with a table of its own."""
from __future__ import annotations

import enum
from collections.abc import Sequence
from ctypes import byref, c_size_t, c_uint16, c_uint64, create_string_buffer
from typing import NamedTuple

from .cells import CELL_LENGTH, Answer, Message, Request, message_of, octets_of, raw_of
from .faults import FIRST, Fault, carried_out, moment, untested, whole
from .gcra import Verdict
from .library import CONNECTION, LIB, PORT, TABLE, Arrival, Reservation as RawReservation, Rm

_UNKNOWN_VC = 18


class Decision(enum.IntEnum):
    """What becomes of a message: it goes on, it is refused (a request alone), or it is dropped. Only PASS is true."""

    PASS = 16
    REFUSE = 17
    UNKNOWN_VC = 18
    STALE = 19
    CONFLICT = 20
    FLOOR_ABOVE = 21

    def __bool__(self) -> bool:
        return self is Decision.PASS


class Served(NamedTuple):
    """What becomes of a cell, with the octets that go on (PASS) or back (REFUSE). Its decision is compared; to test it is a TypeError."""

    decision: Decision
    sent: bytes | None

    def __bool__(self) -> bool:
        raise untested(self, "compare .decision, as `table.cell(..).decision is Decision.PASS`")


class Taken(NamedTuple):
    """What becomes of a message, with the no that goes back after REFUSE. Its decision is compared; to test it is a TypeError."""

    decision: Decision
    back: Message | None

    def __bool__(self) -> bool:
        raise untested(self, "compare .decision, as `port.take(..).decision is Decision.PASS`")


class Reservation(NamedTuple):
    """What a port keeps of a connection: the newest request that it decided. While it is open, the connection holds ask, and else floor."""

    newest: int
    is_open: bool
    floor: int
    ask: int


def _reservation(raw: RawReservation) -> Reservation:
    return Reservation(raw.newest, raw.is_open != 0, raw.floor, raw.ask)


def _taken(outcome: int, back: Rm) -> Taken:
    decision = Decision(carried_out(outcome))
    return Taken(decision, message_of(back) if decision is Decision.REFUSE else None)


class _Unmovable:
    """What a port counts once, so it isn't copied."""

    def __copy__(self):
        raise TypeError(f"{type(self).__name__} can't be copied: a sum counts it once")

    def __deepcopy__(self, _):
        return self.__copy__()

    def __reduce__(self):
        return self.__copy__()


class Connection(_Unmovable):
    """What a connection holds at one port: `abt_connection_init`."""

    def __init__(self, vpi: int, vci: int):
        self._state = CONNECTION()
        carried_out(LIB.abt_raw_connection_init(byref(self._state), whole(vpi, 16, "vpi"), whole(vci, 16, "vci")))

    @property
    def held(self) -> int:
        """The code of the rate that it holds: `abt_connection_held`."""
        held = c_uint16()
        carried_out(LIB.abt_raw_connection_held(byref(self._state), byref(held)))
        return held.value

    @property
    def reservation(self) -> Reservation:
        """What the port keeps of it: `abt_connection_reservation`."""
        raw = RawReservation()
        carried_out(LIB.abt_raw_connection_reservation(byref(self._state), byref(raw)))
        return _reservation(raw)


class Port(_Unmovable):
    """A port of a link of a capacity in units: `abt_port_init`. Its sum is that of its connections while each is used at it alone.

    >>> port, connection = Port(512000), Connection(1, 100)
    >>> port.take(connection, Request(1, 100, 1, 0, 0x5258)).decision
    <Decision.PASS: 16>
    >>> port.total, hex(connection.held)
    (307200, '0x5258')
    >>> port.capacity, connection.reservation
    (512000, Reservation(newest=1, is_open=True, floor=0, ask=21080))
    """

    def __init__(self, capacity: int):
        self._state = PORT()
        carried_out(LIB.abt_raw_port_init(byref(self._state), whole(capacity, 64, "a capacity")))

    def take(self, connection: Connection, message: Message) -> Taken:
        """Decides a request, or takes an answer: `abt_port_request`, `abt_port_answer`."""
        if not isinstance(connection, Connection):
            raise TypeError(f"a connection is a Connection, not {type(connection).__name__}")
        raw, back = raw_of(message), Rm()
        if isinstance(message, Answer):
            return _taken(LIB.abt_raw_port_answer(byref(self._state), byref(connection._state), byref(raw)), back)
        return _taken(LIB.abt_raw_port_request(byref(self._state), byref(connection._state), byref(raw), byref(back)), back)

    def set_capacity(self, capacity: int) -> None:
        """Gives the link another capacity: `abt_port_set_capacity`."""
        carried_out(LIB.abt_raw_port_set_capacity(byref(self._state), whole(capacity, 64, "a capacity")))

    @property
    def total(self) -> int:
        """The sum of what is held, in units: `abt_port_total`."""
        total = c_uint64()
        carried_out(LIB.abt_raw_port_total(byref(self._state), byref(total)))
        return total.value

    @property
    def capacity(self) -> int:
        """The capacity of its link, in units: `abt_port_capacity`."""
        capacity = c_uint64()
        carried_out(LIB.abt_raw_port_capacity(byref(self._state), byref(capacity)))
        return capacity.value


class Table(_Unmovable):
    """A port with a table of up to 1,024 connections: `abt_table_init`.

    >>> from abt import write_cell
    >>> table = Table(512000)
    >>> table.add(1, 100)
    >>> cell = write_cell(Request(1, 100, 1, 0, 0x5258))
    >>> table.cell(cell) == (Decision.PASS, cell)
    True
    >>> table.held(1, 101) is None
    True
    """

    def __init__(self, capacity: int):
        self._state = TABLE()
        carried_out(LIB.abt_raw_table_init(byref(self._state), whole(capacity, 64, "a capacity")))

    def add(self, vpi: int, vci: int, tau: int | None = None) -> None:
        """Takes a connection in: `abt_table_add`, or with a tolerance, where the port is its ingress, `abt_table_add_ingress`."""
        channel = whole(vpi, 16, "vpi"), whole(vci, 16, "vci")
        if tau is None:
            carried_out(LIB.abt_raw_table_add(byref(self._state), *channel))
        else:
            carried_out(LIB.abt_raw_table_add_ingress(byref(self._state), *channel, moment(tau, "tau")))

    def remove(self, vpi: int, vci: int) -> bool:
        """Takes a connection away that holds no rate, and says whether it was there: `abt_table_remove`.

        >>> table = Table(512000)
        >>> table.add(1, 100)
        >>> table.remove(1, 100), table.remove(1, 100), table.count
        (True, False, 0)
        """
        return carried_out(LIB.abt_raw_table_remove(byref(self._state), whole(vpi, 16, "vpi"), whole(vci, 16, "vci"))) == 0

    def arrive(self, vpi: int, vci: int, at: int) -> Verdict | None:
        """The verdict on a cell of a connection at its ingress, None if the connection isn't in the table: `abt_table_arrive`."""
        outcome = carried_out(LIB.abt_raw_table_arrive(byref(self._state), whole(vpi, 16, "vpi"), whole(vci, 16, "vci"), moment(at)))
        return None if outcome == _UNKNOWN_VC else Verdict(outcome)

    def arrive_burst(self, cells: Sequence[tuple[int, int, int]]) -> list[Verdict | None]:
        """What becomes of a burst of cells, each a VPI, a VCI and a moment: what as many calls of `arrive` do, up to the first that is
        refused; its Fault has what became of those before it as `judged`: `abt_table_arrive_burst`.

        >>> table = Table(512000)
        >>> table.add(1, 100, tau=200)
        >>> _ = table.take(Request(1, 100, 1, 0, 0x5258))
        >>> table.arrive_burst([(1, 100, 5), (1, 101, 5), (1, 100, 6)])
        [<Verdict.CONFORMING: 1>, None, <Verdict.TOO_EARLY: 2>]
        """
        count, judged = len(cells), c_size_t()
        given = (Arrival * max(count, 1))(*((moment(at), whole(vpi, 16, "vpi"), whole(vci, 16, "vci")) for vpi, vci, at in cells))
        outcomes = create_string_buffer(max(count, 1))
        outcome = LIB.abt_raw_table_arrive_burst(byref(self._state), given, count, outcomes, count, byref(judged))
        found = [None if number == _UNKNOWN_VC else Verdict(number) for number in outcomes.raw[: judged.value]]
        if outcome >= FIRST:
            raise Fault(outcome, judged=found)
        return found

    def take(self, message: Message) -> Taken:
        """Decides a request, or takes an answer: `abt_table_request`, `abt_table_answer`."""
        raw, back = raw_of(message), Rm()
        if isinstance(message, Answer):
            return _taken(LIB.abt_raw_table_answer(byref(self._state), byref(raw)), back)
        return _taken(LIB.abt_raw_table_request(byref(self._state), byref(raw), byref(back)), back)

    def cell(self, cell: bytes) -> Served:
        """Takes an RM cell of 52 octets: `abt_table_cell`."""
        octets, sent = octets_of(cell), create_string_buffer(CELL_LENGTH)
        decision = Decision(carried_out(LIB.abt_raw_table_cell(byref(self._state), octets, len(octets), sent, CELL_LENGTH)))
        return Served(decision, sent.raw if decision in (Decision.PASS, Decision.REFUSE) else None)

    def set_capacity(self, capacity: int) -> None:
        """Gives the link another capacity: `abt_table_set_capacity`."""
        carried_out(LIB.abt_raw_table_set_capacity(byref(self._state), whole(capacity, 64, "a capacity")))

    @property
    def total(self) -> int:
        """The sum of what is held, in units: `abt_table_total`."""
        total = c_uint64()
        carried_out(LIB.abt_raw_table_total(byref(self._state), byref(total)))
        return total.value

    def held(self, vpi: int, vci: int) -> int | None:
        """The code of the rate that a connection holds, None if it isn't in the table: `abt_table_held`."""
        held = c_uint16()
        outcome = carried_out(LIB.abt_raw_table_held(byref(self._state), whole(vpi, 16, "vpi"), whole(vci, 16, "vci"), byref(held)))
        return held.value if outcome == 0 else None

    def reservation(self, vpi: int, vci: int) -> Reservation | None:
        """What the port keeps of a connection, None if it isn't in the table: `abt_table_reservation`."""
        raw = RawReservation()
        outcome = carried_out(LIB.abt_raw_table_reservation(byref(self._state), whole(vpi, 16, "vpi"), whole(vci, 16, "vci"), byref(raw)))
        return _reservation(raw) if outcome == 0 else None

    @property
    def capacity(self) -> int:
        """The capacity of its link, in units: `abt_table_capacity`."""
        capacity = c_uint64()
        carried_out(LIB.abt_raw_table_capacity(byref(self._state), byref(capacity)))
        return capacity.value

    @property
    def count(self) -> int:
        """How many connections it has: `abt_table_count`."""
        count = c_uint64()
        carried_out(LIB.abt_raw_table_count(byref(self._state), byref(count)))
        return count.value
