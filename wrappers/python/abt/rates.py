"""Rates: codes, units of 1/512 cell per second, and words."""
from __future__ import annotations

import re
from ctypes import byref, c_uint16
from fractions import Fraction
from typing import Literal, Union

from .faults import carried_out, whole
from .library import LIB

# A rate code, or words as "1000cps".
Rate = Union[int, str]

# As in abt.h: 400 cells per second are 400 * UNITS_PER_CELL_PER_SECOND units.
UNITS_PER_CELL_PER_SECOND = 512
PICOSECONDS_PER_SECOND = 1000000000000
# Bits of a cell on the line (docs/FORMATS.md, "Rates in words").
_BITS = 424
_BITS_OF_WORDS = {"bps": 1, "kbps": 10**3, "Mbps": 10**6, "Gbps": 10**9}
_WORDS = {"cps": Fraction(1)} | {word: Fraction(bits, _BITS) for word, bits in _BITS_OF_WORDS.items()}
_RATE = re.compile(rf"([0-9]{{1,19}}(?:\.[0-9]{{1,9}})?)({'|'.join(_WORDS)})")


def rate(words: Rate, nearest: Literal["below", "above"] | None = None) -> int:
    """The canonical code of a rate in words (docs/FORMATS.md, "Rates in words"), or of a code; by `abt_rate_at_most`, `abt_rate_at_least`.
    A rate that no code says exactly is a ValueError, unless the nearest one below or above is wanted.

    >>> hex(rate("1000cps")), hex(rate("1.3Mbps", "below")), hex(rate("1.3Mbps", "above"))
    ('0x53e8', '0x56fe', '0x56ff')
    >>> [f"{rate('1' + word, 'below'):04x} {rate('1' + word, 'above'):04x}" for word in ("cps", "bps", "kbps", "Mbps", "Gbps")]
    ['4000 4000', '0000 4000', '425b 425c', '564d 564e', '6a3f 6a40']
    >>> rate("1.3Mbps")
    Traceback (most recent call last):
    ValueError: no code says 1.3Mbps exactly
    """
    if not isinstance(words, str):
        return canonical(words)
    said = _RATE.fullmatch(words)
    if not said:
        raise ValueError(f"no rate: {words!r}")
    exact = Fraction(said[1]) * _WORDS[said[2]] * UNITS_PER_CELL_PER_SECOND
    below, above = exact.numerator // exact.denominator, -(-exact.numerator // exact.denominator)
    if nearest == "above":
        code = c_uint16()
        carried_out(LIB.abt_raw_rate_at_least(min(above, (1 << 64) - 1), byref(code)))
        return code.value
    code = LIB.abt_rate_at_most(min(below, (1 << 64) - 1))
    if nearest != "below" and units(code) != exact:
        raise ValueError(f"no code says {words} exactly")
    return code


def code_of(rate_or_words: Rate) -> int:
    """The code as it is given, or of the rate in words."""
    return rate(rate_or_words) if isinstance(rate_or_words, str) else whole(rate_or_words, 16, "a rate code")


def units(code: int) -> int:
    """The rate of a code: `abt_rate_units`.

    >>> units(0x53e8)
    512000
    """
    return LIB.abt_rate_units(whole(code, 16, "a rate code"))


def canonical(code: int) -> int:
    """The one code of its rate that is written: `abt_rate_canonical`.

    >>> hex(canonical(0xd3e8))
    '0x53e8'
    """
    return LIB.abt_rate_canonical(whole(code, 16, "a rate code"))


def spacing(rate_or_words: Rate) -> int | None:
    """The least picoseconds between two cells that keep the rate, None for the rate 0: `abt_rate_spacing`.

    >>> spacing("1000cps"), spacing(0)
    (1000000000, None)
    """
    return LIB.abt_rate_spacing(code_of(rate_or_words)) or None
