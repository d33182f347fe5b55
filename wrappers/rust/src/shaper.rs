//! When the next cell may leave.
use crate::fault::{carried_out, emission, EmitFault, Fault};
use crate::rate::{Code, Picoseconds};
use crate::raw;

/// A shaper.
///
/// ```
/// use abt::{Code, EmitFault, Picoseconds, Shaper};
///
/// let mut shaper = Shaper::new(Picoseconds(0))?;
/// let next = shaper.emit(Picoseconds(0), Code(0x53e8))?;
/// assert_eq!(next, Picoseconds(1_000_000_000));
/// assert_eq!(shaper.emit(Picoseconds(1), Code(0x53e8)), Err(EmitFault::TooSoon { next }));
/// assert_eq!(shaper.next(), Ok(next));
/// # Ok::<(), Box<dyn std::error::Error>>(())
/// ```
#[derive(Clone, Debug)]
pub struct Shaper(raw::Shaper);

impl Shaper {
    /// A shaper that lets no cell leave before a moment: `abt_shaper_init`.
    pub fn new(not_before: Picoseconds) -> Result<Self, Fault> {
        let mut shaper = Shaper(raw::Shaper::zeroed());
        // SAFETY: a reference (raw.rs).
        carried_out(unsafe { raw::abt_raw_shaper_init(&mut shaper.0, not_before.0) })?;
        Ok(shaper)
    }

    /// Lets a cell leave now, at this rate, and gives the earliest moment of the next one: `abt_shaper_emit`.
    pub fn emit(&mut self, now: Picoseconds, rate: Code) -> Result<Picoseconds, EmitFault> {
        let mut next = 0;
        // SAFETY: references (raw.rs).
        emission(unsafe { raw::abt_raw_shaper_emit(&mut self.0, now.0, rate.0, &mut next) }, next)
    }

    /// The earliest moment at which the next cell may leave: `abt_shaper_next`.
    pub fn next(&self) -> Result<Picoseconds, Fault> {
        let mut next = 0;
        // SAFETY: references (raw.rs).
        carried_out(unsafe { raw::abt_raw_shaper_next(&self.0, &mut next) })?;
        Ok(Picoseconds(next))
    }
}
