"""RM cells, and the messages that they carry."""
from __future__ import annotations

from ctypes import byref, c_uint16, create_string_buffer
from dataclasses import dataclass, field
from typing import Union

from .faults import carried_out, whole
from .library import LIB, Rm

CELL_LENGTH, PAYLOAD_LENGTH = 52, 48


@dataclass(frozen=True)
class Request:
    """A request for a rate: VPI and VCI, sequence number, the rate that is kept meanwhile and the one that is asked for, as codes."""

    vpi: int
    vci: int
    seq: int
    floor: int
    ask: int

    def answered(self, granted: bool) -> Answer:
        """The answer to this request."""
        return Answer(self.vpi, self.vci, self.seq, self.floor, self.ask, granted)


@dataclass(frozen=True)
class Answer(Request):
    """An answer, which repeats the request."""

    granted: bool = field(kw_only=False, default=False)


Message = Union[Request, Answer]


def raw_of(message: Message) -> Rm:
    kind = 1 if not isinstance(message, Answer) else 2 if message.granted else 3
    sixteen = [whole(getattr(message, name), 16, name) for name in ("vpi", "vci", "floor", "ask")]
    return Rm(kind, whole(message.seq, 32, "seq"), *sixteen)


def message_of(raw: Rm) -> Message:
    request = Request(raw.vpi, raw.vci, raw.seq, raw.floor, raw.ask)
    return request if raw.kind == 1 else request.answered(raw.kind == 2)


def octets_of(octets: bytes) -> bytes:
    if not isinstance(octets, (bytes, bytearray, memoryview)):
        raise TypeError(f"octets are bytes, not {type(octets).__name__}")
    return bytes(octets)


def read_cell(cell: bytes) -> Message:
    """Reads an RM cell, 52 octets without the HEC octet: `abt_rm_read`.

    >>> read_cell(write_cell(Request(1, 100, 1, 0, 0x5120)))
    Request(vpi=1, vci=100, seq=1, floor=0, ask=20768)
    >>> read_cell(bytes(52))
    Traceback (most recent call last):
    abt.faults.Fault: NotRm
    """
    raw, octets = Rm(), octets_of(cell)
    carried_out(LIB.abt_raw_rm_read(octets, len(octets), byref(raw)))
    return message_of(raw)


def write_cell(message: Message) -> bytes:
    """Writes the one cell of a message: `abt_rm_write`.

    >>> write_cell(Request(1, 100, 1, 0, 0x5120).answered(True))[:6].hex()
    '0010064c028c'
    """
    octets = create_string_buffer(CELL_LENGTH)
    carried_out(LIB.abt_raw_rm_write(byref(raw_of(message)), octets, CELL_LENGTH))
    return octets.raw


def turn(request: Request) -> Answer:
    """The yes to a request that the last port of its path passed: `abt_rm_turn`.

    >>> turn(Request(1, 100, 1, 0, 0x5120)).granted
    True
    """
    raw = Rm()
    carried_out(LIB.abt_raw_rm_turn(byref(raw_of(request)), byref(raw)))
    return message_of(raw)


def crc10(payload: bytes) -> int:
    """The CRC-10 of a payload of 48 octets, of its first 374 bits: `abt_crc10`.

    >>> crc10(bytes(48))
    0
    """
    check, octets = c_uint16(), octets_of(payload)
    carried_out(LIB.abt_raw_crc10(octets, len(octets), byref(check)))
    return check.value
