"""The shared library: where it is, its version, and the types of its calls."""
from __future__ import annotations

import ctypes
import ctypes.util
import os
from ctypes import POINTER, Structure, c_char_p, c_size_t, c_uint16, c_uint32, c_uint64
from pathlib import Path
from typing import Any

VERSION = "0.1.0"
FILE = "libabt.so.0"


class LibraryError(ImportError):
    """There is no library that this package can use, and why."""


class Rm(Structure):
    _fields_ = [("kind", c_uint32), ("seq", c_uint32), ("vpi", c_uint16), ("vci", c_uint16), ("floor", c_uint16), ("ask", c_uint16)]


class Reservation(Structure):
    _fields_ = [("newest", c_uint32), ("is_open", c_uint32), ("floor", c_uint16), ("ask", c_uint16)]


class Arrival(Structure):
    _fields_ = [("at", c_uint64), ("vpi", c_uint16), ("vci", c_uint16)]


def state(name: str, words: int) -> type[Structure]:
    """A state of so many words of 64 bits; it begins as zeros, which is the state of no kind."""
    return type(name, (Structure,), {"_fields_": [("words", c_uint64 * words)]})


GCRA, BUCKET, POLICER, SHAPER = state("GCRA", 4), state("BUCKET", 6), state("POLICER", 4), state("SHAPER", 4)
SOURCE, PORT, CONNECTION, TABLE = state("SOURCE", 9), state("PORT", 3), state("CONNECTION", 3), state("TABLE", 7685)
_octets = c_char_p
_rm, _code, _word, _number, _size = POINTER(Rm), POINTER(c_uint16), POINTER(c_uint32), POINTER(c_uint64), POINTER(c_size_t)
_reservation, _arrivals = POINTER(Reservation), POINTER(Arrival)

# What each call gives and takes, as in abt.h.
CALLS: dict[str, tuple] = {
    "abt_version": (c_char_p,),
    "abt_rate_units": (c_uint64, c_uint16),
    "abt_rate_canonical": (c_uint16, c_uint16),
    "abt_rate_spacing": (c_uint64, c_uint16),
    "abt_rate_at_most": (c_uint16, c_uint64),
    "abt_raw_rate_at_least": (c_uint32, c_uint64, _code),
    "abt_raw_crc10": (c_uint32, _octets, c_size_t, _code),
    "abt_raw_rm_read": (c_uint32, _octets, c_size_t, _rm),
    "abt_raw_rm_write": (c_uint32, _rm, _octets, c_size_t),
    "abt_raw_rm_turn": (c_uint32, _rm, _rm),
    "abt_raw_gcra_init": (c_uint32, POINTER(GCRA), c_uint64),
    "abt_raw_gcra_check": (c_uint32, POINTER(GCRA), c_uint64, c_uint64),
    "abt_raw_bucket_init": (c_uint32, POINTER(BUCKET), c_uint64),
    "abt_raw_bucket_check": (c_uint32, POINTER(BUCKET), c_uint64, c_uint64),
    "abt_raw_policer_init": (c_uint32, POINTER(POLICER), c_uint64),
    "abt_raw_policer_arrive": (c_uint32, POINTER(POLICER), c_uint64, c_uint16),
    "abt_raw_policer_arrive_burst": (c_uint32, POINTER(POLICER), c_uint16, _number, c_size_t, _octets, c_size_t, _size),
    "abt_raw_shaper_init": (c_uint32, POINTER(SHAPER), c_uint64),
    "abt_raw_shaper_emit": (c_uint32, POINTER(SHAPER), c_uint64, c_uint16, _number),
    "abt_raw_shaper_next": (c_uint32, POINTER(SHAPER), _number),
    "abt_raw_source_init": (c_uint32, POINTER(SOURCE), c_uint16, c_uint16),
    "abt_raw_source_start": (c_uint32, POINTER(SOURCE), _octets, c_size_t, c_uint64),
    "abt_raw_source_ask": (c_uint32, POINTER(SOURCE), c_uint16, _octets, c_size_t, _rm),
    "abt_raw_source_wrote": (c_uint32, POINTER(SOURCE), c_uint32, _rm),
    "abt_raw_source_again": (c_uint32, POINTER(SOURCE), _rm),
    "abt_raw_source_answer": (c_uint32, POINTER(SOURCE), _rm),
    "abt_raw_source_emit": (c_uint32, POINTER(SOURCE), c_uint64, _number),
    "abt_raw_source_crash": (c_uint32, POINTER(SOURCE)),
    "abt_raw_source_rate": (c_uint32, POINTER(SOURCE), _code),
    "abt_raw_source_phase": (c_uint32, POINTER(SOURCE), _word),
    "abt_raw_source_last": (c_uint32, POINTER(SOURCE), _word),
    "abt_raw_source_next": (c_uint32, POINTER(SOURCE), _number),
    "abt_raw_port_init": (c_uint32, POINTER(PORT), c_uint64),
    "abt_raw_connection_init": (c_uint32, POINTER(CONNECTION), c_uint16, c_uint16),
    "abt_raw_port_request": (c_uint32, POINTER(PORT), POINTER(CONNECTION), _rm, _rm),
    "abt_raw_port_answer": (c_uint32, POINTER(PORT), POINTER(CONNECTION), _rm),
    "abt_raw_port_set_capacity": (c_uint32, POINTER(PORT), c_uint64),
    "abt_raw_port_total": (c_uint32, POINTER(PORT), _number),
    "abt_raw_connection_held": (c_uint32, POINTER(CONNECTION), _code),
    "abt_raw_port_capacity": (c_uint32, POINTER(PORT), _number),
    "abt_raw_connection_reservation": (c_uint32, POINTER(CONNECTION), _reservation),
    "abt_raw_table_init": (c_uint32, POINTER(TABLE), c_uint64),
    "abt_raw_table_add": (c_uint32, POINTER(TABLE), c_uint16, c_uint16),
    "abt_raw_table_add_ingress": (c_uint32, POINTER(TABLE), c_uint16, c_uint16, c_uint64),
    "abt_raw_table_remove": (c_uint32, POINTER(TABLE), c_uint16, c_uint16),
    "abt_raw_table_request": (c_uint32, POINTER(TABLE), _rm, _rm),
    "abt_raw_table_answer": (c_uint32, POINTER(TABLE), _rm),
    "abt_raw_table_cell": (c_uint32, POINTER(TABLE), _octets, c_size_t, _octets, c_size_t),
    "abt_raw_table_set_capacity": (c_uint32, POINTER(TABLE), c_uint64),
    "abt_raw_table_total": (c_uint32, POINTER(TABLE), _number),
    "abt_raw_table_held": (c_uint32, POINTER(TABLE), c_uint16, c_uint16, _code),
    "abt_raw_table_reservation": (c_uint32, POINTER(TABLE), c_uint16, c_uint16, _reservation),
    "abt_raw_table_capacity": (c_uint32, POINTER(TABLE), _number),
    "abt_raw_table_count": (c_uint32, POINTER(TABLE), _number),
    "abt_raw_table_arrive": (c_uint32, POINTER(TABLE), c_uint16, c_uint16, c_uint64),
    "abt_raw_table_arrive_burst": (c_uint32, POINTER(TABLE), _arrivals, c_size_t, _octets, c_size_t, _size),
}


def _place() -> str:
    named = os.environ.get("ABT_LIBRARY")
    if named:
        return named
    beside = Path(__file__).resolve().parents[min(4, len(Path(__file__).resolve().parents) - 1)] / "lib" / FILE
    return str(beside) if beside.is_file() else FILE


def _load() -> ctypes.CDLL:
    place = _place()
    try:
        library = ctypes.CDLL(place)
    except OSError as error:
        raise LibraryError(f"abt {VERSION} finds no library {place} ({error}); ABT_LIBRARY may name its file") from None
    try:
        library.abt_version.restype = c_char_p
        found = library.abt_version().decode()
    except AttributeError:
        raise LibraryError(f"abt {VERSION} needs the library of its version, and {place} tells none") from None
    if found != VERSION:
        raise LibraryError(f"abt {VERSION} needs the library of its version, and {place} is of version {found}")
    for name, (gives, *takes) in CALLS.items():
        try:
            call = getattr(library, name)
        except AttributeError:
            raise LibraryError(f"abt {VERSION} needs {name}, which {place} of version {found} lacks") from None
        call.restype, call.argtypes = gives, takes
    return library


class _Library:
    """The library, which is loaded at its first call: what asks the program alone needs none."""

    def __getattr__(self, name: str) -> Any:
        if name not in CALLS:
            raise AttributeError(name)
        self.__dict__.update({call: getattr(library, call) for library in [_load()] for call in CALLS})
        return self.__dict__[name]


LIB = _Library()


def library_version() -> str:
    """The version of the library, as `abt_version` tells it.

    >>> library_version() == VERSION
    True
    """
    return LIB.abt_version().decode()
