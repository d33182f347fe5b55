//! The generic cell rate algorithm, and the policer that follows a rate as it changes.
use crate::fault::{carried_out, Fault};
use crate::rate::{Code, Picoseconds};
use crate::raw;
use std::error::Error;
use std::fmt;

/// What a policer finds of a cell.
#[derive(Clone, Copy, Debug, PartialEq, Eq, Hash)]
#[must_use]
pub enum Verdict {
    /// The cell keeps every window with the cells that were taken before it, and is taken.
    Conforming,
    /// The cell comes too early, and isn't taken.
    TooEarly,
    /// No rate is held, so the cell isn't taken.
    NoRate,
}

impl Verdict {
    fn of(outcome: u32) -> Result<Self, Fault> {
        match carried_out(outcome)? {
            1 => Ok(Verdict::Conforming),
            2 => Ok(Verdict::TooEarly),
            3 => Ok(Verdict::NoRate),
            other => Err(Fault::Other(other)),
        }
    }

    /// The verdict of a number that a burst wrote, none of another number.
    pub fn of_number(number: u8) -> Option<Self> {
        Verdict::of(number.into()).ok()
    }
}

/// Why a burst ended at a cell: those before it have their outcomes, and the state is as after them.
#[derive(Clone, Copy, Debug, PartialEq, Eq, Hash)]
pub struct Stopped {
    /// How many cells were judged, and so the place of the cell that wasn't.
    pub judged: usize,
    /// Why it wasn't.
    pub fault: Fault,
}

impl Stopped {
    pub(crate) fn of(outcome: u32, judged: usize) -> Result<(), Self> {
        carried_out(outcome).map(|_| ()).map_err(|fault| Stopped { judged, fault })
    }
}

impl fmt::Display for Stopped {
    fn fmt(&self, to: &mut fmt::Formatter<'_>) -> fmt::Result {
        write!(to, "{} at cell {}", self.fault, self.judged)
    }
}

impl Error for Stopped {
    fn source(&self) -> Option<&(dyn Error + 'static)> {
        Some(&self.fault)
    }
}

/// The algorithm of I.371 by virtual scheduling.
///
/// ```
/// use abt::{Fault, Gcra, Picoseconds, Verdict};
///
/// let mut gcra = Gcra::new(Picoseconds(0))?;
/// assert_eq!(gcra.check(Picoseconds(10), Picoseconds(5))?, Verdict::Conforming);
/// assert_eq!(gcra.check(Picoseconds(14), Picoseconds(5))?, Verdict::TooEarly);
/// assert_eq!(gcra.check(Picoseconds(13), Picoseconds(5)), Err(Fault::ClockBack));
/// # Ok::<(), Fault>(())
/// ```
#[derive(Clone, Debug)]
pub struct Gcra(raw::Gcra);

impl Gcra {
    /// The algorithm of a tolerance, which has met no cell: `abt_gcra_init`.
    pub fn new(tau: Picoseconds) -> Result<Self, Fault> {
        let mut gcra = Gcra(raw::Gcra::zeroed());
        // SAFETY: a reference (raw.rs).
        carried_out(unsafe { raw::abt_raw_gcra_init(&mut gcra.0, tau.0) })?;
        Ok(gcra)
    }

    /// The verdict on a cell that arrives at a moment, with the spacing from it to the next one: `abt_gcra_check`.
    pub fn check(&mut self, at: Picoseconds, spacing: Picoseconds) -> Result<Verdict, Fault> {
        // SAFETY: a reference (raw.rs).
        Verdict::of(unsafe { raw::abt_raw_gcra_check(&mut self.0, at.0, spacing.0) })
    }
}

/// The algorithm of I.371 as a leaky bucket, with the same verdicts.
#[derive(Clone, Debug)]
pub struct Bucket(raw::Bucket);

impl Bucket {
    /// The algorithm of a tolerance, which has met no cell: `abt_bucket_init`.
    pub fn new(tau: Picoseconds) -> Result<Self, Fault> {
        let mut bucket = Bucket(raw::Bucket::zeroed());
        // SAFETY: a reference (raw.rs).
        carried_out(unsafe { raw::abt_raw_bucket_init(&mut bucket.0, tau.0) })?;
        Ok(bucket)
    }

    /// The verdict on a cell that arrives at a moment, with the spacing from it to the next one: `abt_bucket_check`.
    pub fn check(&mut self, at: Picoseconds, spacing: Picoseconds) -> Result<Verdict, Fault> {
        // SAFETY: a reference (raw.rs).
        Verdict::of(unsafe { raw::abt_raw_bucket_check(&mut self.0, at.0, spacing.0) })
    }
}

/// A policer, which follows the rate that is held.
///
/// ```
/// use abt::{Code, Fault, Picoseconds, Policer, Verdict};
///
/// let mut policer = Policer::new(Picoseconds(200))?;
/// assert_eq!(policer.arrive(Picoseconds(0), Code(0))?, Verdict::NoRate);
/// assert_eq!(policer.arrive(Picoseconds(0), Code(0x5120))?, Verdict::Conforming);
/// assert_eq!(Policer::new(Picoseconds(u64::MAX)).err(), Some(Fault::TauRange));
/// # Ok::<(), Fault>(())
/// ```
#[derive(Clone, Debug)]
pub struct Policer(raw::Policer);

impl Policer {
    /// A policer of a tolerance, which has met no cell: `abt_policer_init`.
    pub fn new(tau: Picoseconds) -> Result<Self, Fault> {
        let mut policer = Policer(raw::Policer::zeroed());
        // SAFETY: a reference (raw.rs).
        carried_out(unsafe { raw::abt_raw_policer_init(&mut policer.0, tau.0) })?;
        Ok(policer)
    }

    /// The verdict on a cell that arrives at a moment, where this rate is held: `abt_policer_arrive`.
    pub fn arrive(&mut self, at: Picoseconds, held: Code) -> Result<Verdict, Fault> {
        // SAFETY: a reference (raw.rs).
        Verdict::of(unsafe { raw::abt_raw_policer_arrive(&mut self.0, at.0, held.0) })
    }

    /// The verdicts on a burst of cells at these moments, in picoseconds, where this rate is held: what as many calls of `arrive` do, up to
    /// the first that is refused: `abt_policer_arrive_burst`. `verdicts` gets the number of each, as [`Verdict::of_number`] reads it; if it
    /// isn't as long as `at`, nothing is judged.
    ///
    /// ```
    /// use abt::{Code, Fault, Picoseconds, Policer, Stopped, Verdict};
    ///
    /// let (mut policer, mut verdicts) = (Policer::new(Picoseconds(200))?, [0; 3]);
    /// assert_eq!(policer.arrive_burst(Code(0x5120), &[5, 6, 7], &mut verdicts), Ok(()));
    /// assert_eq!(verdicts.map(Verdict::of_number), [Some(Verdict::Conforming), Some(Verdict::TooEarly), Some(Verdict::TooEarly)]);
    /// let stopped = Stopped { judged: 1, fault: Fault::ClockBack };
    /// assert_eq!(policer.arrive_burst(Code(0x5120), &[8, 7, 9], &mut verdicts), Err(stopped));
    /// # Ok::<(), Fault>(())
    /// ```
    pub fn arrive_burst(&mut self, held: Code, at: &[u64], verdicts: &mut [u8]) -> Result<(), Stopped> {
        let (verdicts, mut judged) = ((verdicts.as_mut_ptr(), verdicts.len()), 0);
        // SAFETY: references (raw.rs), and the lengths are the slices'.
        let outcome = unsafe {
            raw::abt_raw_policer_arrive_burst(&mut self.0, held.0, at.as_ptr(), at.len(), verdicts.0, verdicts.1, &mut judged)
        };
        Stopped::of(outcome, judged)
    }
}
