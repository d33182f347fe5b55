//! Why a call was refused, by the names and numbers of abt.h.
use crate::Picoseconds;
use std::error::Error;
use std::fmt;

macro_rules! faults {
    ($($name:ident = $number:literal: $text:literal,)*) => {
        /// Why a call was refused. Nothing that was handed in has changed then.
        #[derive(Clone, Copy, Debug, PartialEq, Eq, Hash)]
        #[non_exhaustive]
        pub enum Fault {
            $(#[doc = $text] $name,)*
            /// A number that this crate doesn't know: the library is a newer one.
            Other(u32),
        }

        impl Fault {
            pub(crate) fn of(number: u32) -> Self {
                match number {
                    $($number => Fault::$name,)*
                    other => Fault::Other(other),
                }
            }

            /// The name that `abt_outcome_name` gives.
            pub fn name(self) -> &'static str {
                match self {
                    $(Fault::$name => stringify!($name),)*
                    Fault::Other(_) => "unknown",
                }
            }
        }
    };
}

faults! {
    Null = 32: "A pointer is NULL.",
    NoState = 33: "The state isn't one of this kind.",
    Length = 34: "There is another number of octets.",
    TauRange = 35: "The tolerance is above `ABT_TAU_MAX`.",
    SpacingRange = 36: "The spacing is 0 or above `ABT_SPACING_MAX`.",
    UnitsRange = 37: "No rate is as great.",
    ClockBack = 38: "The moment is before the last one.",
    TimeRange = 39: "The moment is above its limit.",
    Zero = 40: "There is no rate to leave at.",
    TooSoon = 41: "The line is taken up until a later moment.",
    NotRm = 48: "Not an RM cell of a virtual channel.",
    Crc = 49: "The check is wrong.",
    Protocol = 50: "The protocol identifier isn't that of ATM block transfer.",
    Maintenance = 51: "The maintenance bit is set.",
    Elastic = 52: "Elastic mode.",
    Direction = 53: "A request goes backward, or an answer forward.",
    SeqZero = 54: "The sequence number is 0.",
    RateOrder = 55: "The asked rate is below the floor.",
    Kind = 56: "The record is neither a request nor an answer, or not the one that is wanted.",
    VpiRange = 57: "The VPI has more than 12 bits.",
    Down = 64: "The source isn't started.",
    Running = 65: "The source is started.",
    Writing = 66: "The program hasn't said yet what became of a write.",
    NotWriting = 67: "No write is to be made.",
    NotAsking = 68: "The source waits for no answer.",
    SeqExhausted = 69: "No sequence number is left.",
    NotKept = 70: "The record wasn't kept, so the source doesn't ask.",
    RecordSpacing = 71: "No rate has the spacing of the record.",
    BelowSum = 72: "The capacity is below the sum of what is held.",
    CapacityRange = 73: "The capacity is above `ABT_CAPACITY_MAX`.",
    Known = 74: "The connection is in the table already.",
    Full = 75: "The table has `ABT_TABLE_PLACES` connections.",
    Damaged = 76: "The table isn't in order: its memory was written by something else.",
    Held = 77: "The connection holds a rate.",
    NotIngress = 78: "The connection's cells aren't policed here.",
}

impl fmt::Display for Fault {
    fn fmt(&self, to: &mut fmt::Formatter<'_>) -> fmt::Result {
        match self {
            Fault::Other(number) => write!(to, "unknown {number}"),
            fault => to.write_str(fault.name()),
        }
    }
}

impl Error for Fault {}

/// The outcome of a call that was carried out, or why it was refused.
pub(crate) fn carried_out(outcome: u32) -> Result<u32, Fault> {
    match outcome {
        0..=31 => Ok(outcome),
        fault => Err(Fault::of(fault)),
    }
}

/// Why no cell leaves.
#[derive(Clone, Copy, Debug, PartialEq, Eq, Hash)]
pub enum EmitFault {
    /// The line is taken up until this moment, the earliest of the next cell.
    TooSoon {
        /// The earliest moment of the next cell.
        next: Picoseconds,
    },
    /// Anything else.
    Fault(Fault),
}

impl fmt::Display for EmitFault {
    fn fmt(&self, to: &mut fmt::Formatter<'_>) -> fmt::Result {
        match self {
            EmitFault::TooSoon { next } => write!(to, "{} until {}", Fault::TooSoon, next.0),
            EmitFault::Fault(fault) => fault.fmt(to),
        }
    }
}

impl Error for EmitFault {}

/// The earliest moment of the next cell, or why none leaves, by the outcome and the moment that C gives.
pub(crate) fn emission(outcome: u32, next: u64) -> Result<Picoseconds, EmitFault> {
    match carried_out(outcome) {
        Ok(_) => Ok(Picoseconds(next)),
        Err(Fault::TooSoon) => Err(EmitFault::TooSoon { next: Picoseconds(next) }),
        Err(fault) => Err(EmitFault::Fault(fault)),
    }
}
