//! Moments, rates and their codes.
use crate::fault::{carried_out, Fault};
use crate::raw;

/// A moment or a duration, in picoseconds.
#[derive(Clone, Copy, Debug, Default, PartialEq, Eq, PartialOrd, Ord, Hash)]
pub struct Picoseconds(pub u64);

impl From<Picoseconds> for u64 {
    fn from(it: Picoseconds) -> u64 {
        it.0
    }
}

impl TryFrom<std::time::Duration> for Picoseconds {
    type Error = Fault;

    /// A duration of the standard library, whole nanoseconds. [`Fault::TimeRange`] if its picoseconds aren't a number of 64 bits.
    fn try_from(it: std::time::Duration) -> Result<Self, Fault> {
        it.as_nanos().checked_mul(1000).and_then(|it| u64::try_from(it).ok()).map(Picoseconds).ok_or(Fault::TimeRange)
    }
}

/// Units in one cell per second, as in `abt.h`: 400 cells per second are `Units(400 * UNITS_PER_CELL_PER_SECOND)`.
pub const UNITS_PER_CELL_PER_SECOND: u64 = 512;

/// Picoseconds in a second, as in `abt.h`.
pub const PICOSECONDS_PER_SECOND: u64 = 1000000000000;

/// A rate in units of 1/512 cell per second.
#[derive(Clone, Copy, Debug, Default, PartialEq, Eq, PartialOrd, Ord, Hash)]
pub struct Units(pub u64);

/// A rate as RM cells carry it, a code of 16 bits. Two codes may say one rate: [`Code::canonical`].
///
/// ```
/// use abt::{Code, Picoseconds, Units};
///
/// assert_eq!(Code(0x53e8).units(), Units(512_000));
/// assert_eq!(Code(0x53e8).spacing(), Some(Picoseconds(1_000_000_000)));
/// assert_eq!(Code::at_most(Units(512_000)), Code(0x53e8));
/// assert_eq!(Code::at_least(Units(u64::MAX)), Err(abt::Fault::UnitsRange));
/// ```
#[derive(Clone, Copy, Debug, Default, PartialEq, Eq, Hash)]
pub struct Code(pub u16);

impl Code {
    /// The rate of the code: `abt_rate_units`.
    pub fn units(self) -> Units {
        // SAFETY: the call takes a number.
        Units(unsafe { raw::abt_rate_units(self.0) })
    }

    /// The one code of its rate that is written: `abt_rate_canonical`.
    pub fn canonical(self) -> Code {
        // SAFETY: the call takes a number.
        Code(unsafe { raw::abt_rate_canonical(self.0) })
    }

    /// The least time between two cells that keeps the rate, none for the rate 0: `abt_rate_spacing`.
    pub fn spacing(self) -> Option<Picoseconds> {
        // SAFETY: the call takes a number.
        match unsafe { raw::abt_rate_spacing(self.0) } {
            0 => None,
            spacing => Some(Picoseconds(spacing)),
        }
    }

    /// The canonical code of the greatest rate that isn't above so many units: `abt_rate_at_most`.
    pub fn at_most(units: Units) -> Code {
        // SAFETY: the call takes a number.
        Code(unsafe { raw::abt_rate_at_most(units.0) })
    }

    /// The canonical code of the least rate that isn't below so many units: `abt_rate_at_least`.
    pub fn at_least(units: Units) -> Result<Code, Fault> {
        let mut code = 0;
        // SAFETY: a reference (raw.rs).
        carried_out(unsafe { raw::abt_raw_rate_at_least(units.0, &mut code) })?;
        Ok(Code(code))
    }
}
