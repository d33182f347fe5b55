//! Proved parts for ATM block transfer, from Rust: rates, RM cells, the generic cell rate algorithm (GCRA), a policer, a shaper, a source,
//! a port, and a port with a table of its connections.
//!
//! Each call makes the one call of the library for C that its documentation names, and nothing else; that library is what is proved. The
//! rules are those of the header `abt.h`. Moments and durations are [`Picoseconds`], rates are a [`Code`] or [`Units`].
//!
//! ```
//! use abt::{Code, Picoseconds, Policer, Verdict};
//!
//! let mut policer = Policer::new(Picoseconds(200))?;
//! assert_eq!(policer.arrive(Picoseconds(5), Code(0x5120))?, Verdict::Conforming);
//! assert_eq!(policer.arrive(Picoseconds(6), Code(0x5120))?, Verdict::TooEarly);
//! # Ok::<(), abt::Fault>(())
//! ```
//!
//! A source's state is a type, so what its state doesn't allow doesn't compile ([`Source`]). What no type refuses is a [`Fault`], by the
//! name that it has in C. The library is linked statically: `build.rs` looks for it in the folder `ABT_LIB_DIR`, in the release that this
//! crate is a part of, and by `pkg-config`.
#![warn(missing_docs)]

mod cell;
mod fault;
mod gcra;
mod port;
mod rate;
mod raw;
mod shaper;
mod source;
mod table;

pub use cell::{crc10, Answer, Cell, Request, Rm, CELL_LENGTH, PAYLOAD_LENGTH};
pub use fault::{EmitFault, Fault};
pub use gcra::{Bucket, Gcra, Policer, Stopped, Verdict};
pub use port::{Connection, Decision, Drop, Port, Reply, Reservation};
pub use rate::{Code, Picoseconds, Units, PICOSECONDS_PER_SECOND, UNITS_PER_CELL_PER_SECOND};
pub use shaper::Shaper;
pub use source::{Ask, Asking, Became, Down, Heard, Idle, Phase, Record, Refused, Source, Up, Writing, RECORD_LENGTH};
pub use table::{Arrival, Served, Table};

use std::ffi::CStr;

/// The version of the library, as `abt_version` tells it.
///
/// ```
/// assert_eq!(abt::version(), env!("CARGO_PKG_VERSION"));
/// ```
pub fn version() -> &'static str {
    // SAFETY: the library gives a text of its own, which ends with a zero and stays.
    let text = unsafe { CStr::from_ptr(raw::abt_version()) };
    text.to_str().unwrap_or("")
}
