"""Proved parts for ATM block transfer, from Python: rates, RM cells, the generic cell rate algorithm (GCRA), a policer, a shaper, a source,
a port, and a port with a table of its connections; for tests, the program as an oracle (abt.oracle) and journals (abt.journal).

Each call makes the one call of the library for C that its documentation names; that library is what is proved. The rules are those of the
header abt.h. Moments and durations are whole picoseconds. A rate is a code of 16 bits as RM cells carry it, or words as "1000cps". What is
refused is raised as Fault, with its name in C.

>>> from abt import Policer
>>> policer = Policer(tau=200)
>>> policer.arrive(0, "1000cps")
<Verdict.CONFORMING: 1>
>>> policer.arrive(5, "1000cps")
<Verdict.TOO_EARLY: 2>

The shared library libabt.so.0 is looked for at the first call of it: in the file ABT_LIBRARY, in the release that this package is a part
of, and where the system looks for libraries. abt.oracle and abt.journal need the program alone. An object isn't for two threads at once.
"""
from .cells import Answer, Request, crc10, read_cell, turn, write_cell
from .faults import Fault
from .gcra import Bucket, Gcra, Policer, Verdict
from .library import VERSION, LibraryError, library_version
from .port import Connection, Decision, Port, Reservation, Served, Table
from .rates import PICOSECONDS_PER_SECOND, UNITS_PER_CELL_PER_SECOND, canonical, rate, spacing, units
from .shaper import Shaper
from .source import Heard, Phase, Source
from .store import FileStore, MemoryStore, Store, StoreFailed

__all__ = [
    "Answer", "Bucket", "Connection", "Decision", "Fault", "FileStore", "Gcra", "Heard", "LibraryError", "MemoryStore",
    "PICOSECONDS_PER_SECOND", "Phase", "Policer", "Port", "Request", "Reservation", "Served", "Shaper", "Source", "Store", "StoreFailed", "Table",
    "UNITS_PER_CELL_PER_SECOND", "VERSION", "Verdict", "canonical", "crc10", "library_version", "rate", "read_cell", "spacing", "turn", "units", "write_cell",
]
__version__ = VERSION
