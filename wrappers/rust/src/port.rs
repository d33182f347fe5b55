//! A port whose connections the caller keeps.
use crate::cell::{Answer, Request};
use crate::fault::{carried_out, Fault};
use crate::rate::{Code, Units};
use crate::raw;

/// Why a port drops a message.
#[derive(Clone, Copy, Debug, PartialEq, Eq, Hash)]
pub enum Drop {
    /// It is another connection's, or of none in the table.
    UnknownVc,
    /// Its number is below the newest.
    Stale,
    /// It isn't what the port decided under its number.
    Conflict,
    /// Its floor is above what is held.
    FloorAbove,
}

impl Drop {
    pub(crate) fn of(outcome: u32) -> Result<Self, Fault> {
        match outcome {
            18 => Ok(Drop::UnknownVc),
            19 => Ok(Drop::Stale),
            20 => Ok(Drop::Conflict),
            21 => Ok(Drop::FloorAbove),
            other => Err(Fault::Other(other)),
        }
    }
}

/// What becomes of a request at a port.
#[derive(Clone, Copy, Debug, PartialEq, Eq, Hash)]
#[must_use]
pub enum Decision {
    /// It goes on.
    Pass,
    /// It goes no further, and this no goes back.
    Refuse(Answer),
    /// It goes nowhere.
    Drop(Drop),
}

/// What becomes of an answer at a port.
#[derive(Clone, Copy, Debug, PartialEq, Eq, Hash)]
#[must_use]
pub enum Reply {
    /// It goes on.
    Pass,
    /// It goes nowhere.
    Drop(Drop),
}

impl Decision {
    pub(crate) fn of(outcome: u32, answer: raw::Rm) -> Result<Self, Fault> {
        match carried_out(outcome)? {
            16 => Ok(Decision::Pass),
            17 => Ok(Decision::Refuse(Request::of(answer).answered(false))),
            other => Drop::of(other).map(Decision::Drop),
        }
    }
}

impl Reply {
    pub(crate) fn of(outcome: u32) -> Result<Self, Fault> {
        match carried_out(outcome)? {
            16 => Ok(Reply::Pass),
            other => Drop::of(other).map(Reply::Drop),
        }
    }
}

/// What a port keeps of a connection: the newest request that it decided.
#[derive(Clone, Copy, Debug, PartialEq, Eq, Hash)]
pub struct Reservation {
    /// Its number, 0 before the first.
    pub newest: u32,
    /// Whether it is open: then the connection holds `ask`, and otherwise `floor`.
    pub is_open: bool,
    /// The rate that the source keeps.
    pub floor: Code,
    /// The rate that was asked for.
    pub ask: Code,
}

impl Reservation {
    pub(crate) fn of(raw: raw::Reservation) -> Self {
        Reservation { newest: raw.newest, is_open: raw.is_open != 0, floor: Code(raw.floor), ask: Code(raw.ask) }
    }
}

/// What a connection holds at one port. It can't be copied: the port's sum counts it once.
///
/// ```compile_fail,E0599
/// let connection = abt::Connection::new(1, 100).unwrap();
/// let twice = connection.clone();
/// ```
#[derive(Debug)]
pub struct Connection(raw::Connection);

impl Connection {
    /// A connection that has asked for nothing: `abt_connection_init`.
    pub fn new(vpi: u16, vci: u16) -> Result<Self, Fault> {
        let mut connection = Connection(raw::Connection::zeroed());
        // SAFETY: a reference (raw.rs).
        carried_out(unsafe { raw::abt_raw_connection_init(&mut connection.0, vpi, vci) })?;
        Ok(connection)
    }

    /// The rate that it holds, at which a policer holds its cells: `abt_connection_held`.
    pub fn held(&self) -> Result<Code, Fault> {
        let mut held = 0;
        // SAFETY: references (raw.rs).
        carried_out(unsafe { raw::abt_raw_connection_held(&self.0, &mut held) })?;
        Ok(Code(held))
    }

    /// What the port keeps of it: `abt_connection_reservation`.
    pub fn reservation(&self) -> Result<Reservation, Fault> {
        let mut kept = raw::Reservation::default();
        // SAFETY: references (raw.rs).
        carried_out(unsafe { raw::abt_raw_connection_reservation(&self.0, &mut kept) })?;
        Ok(Reservation::of(kept))
    }
}

/// A port. Its sum is that of its connections only while each is used at it alone, which no type says.
///
/// ```
/// use abt::{Code, Connection, Decision, Fault, Port, Request, Units};
///
/// let mut port = Port::new(Units(512_000))?;
/// let mut connection = Connection::new(1, 100)?;
/// let request = Request { vpi: 1, vci: 100, seq: 1, floor: Code(0), ask: Code(0x5258) };
/// assert_eq!(port.request(&mut connection, &request)?, Decision::Pass);
/// assert_eq!((port.total()?, connection.held()?), (Units(307_200), Code(0x5258)));
/// assert_eq!((port.capacity()?, connection.reservation()?.newest), (Units(512_000), 1));
/// assert_eq!(port.set_capacity(Units(1)), Err(Fault::BelowSum));
/// # Ok::<(), Fault>(())
/// ```
#[derive(Debug)]
pub struct Port(raw::Port);

impl Port {
    /// A port of a link of this capacity, of which nothing is held: `abt_port_init`.
    pub fn new(capacity: Units) -> Result<Self, Fault> {
        let mut port = Port(raw::Port::zeroed());
        // SAFETY: a reference (raw.rs).
        carried_out(unsafe { raw::abt_raw_port_init(&mut port.0, capacity.0) })?;
        Ok(port)
    }

    /// Decides a request of one of its connections: `abt_port_request`.
    pub fn request(&mut self, connection: &mut Connection, request: &Request) -> Result<Decision, Fault> {
        let mut answer = raw::Rm::default();
        // SAFETY: references (raw.rs).
        Decision::of(unsafe { raw::abt_raw_port_request(&mut self.0, &mut connection.0, &request.raw(), &mut answer) }, answer)
    }

    /// Takes an answer to one of its connections: `abt_port_answer`.
    pub fn answer(&mut self, connection: &mut Connection, answer: &Answer) -> Result<Reply, Fault> {
        // SAFETY: references (raw.rs).
        Reply::of(unsafe { raw::abt_raw_port_answer(&mut self.0, &mut connection.0, &answer.raw()) })
    }

    /// Gives the link another capacity: `abt_port_set_capacity`.
    pub fn set_capacity(&mut self, capacity: Units) -> Result<(), Fault> {
        // SAFETY: a reference (raw.rs).
        carried_out(unsafe { raw::abt_raw_port_set_capacity(&mut self.0, capacity.0) })?;
        Ok(())
    }

    /// The sum of what its connections hold: `abt_port_total`.
    pub fn total(&self) -> Result<Units, Fault> {
        let mut total = 0;
        // SAFETY: references (raw.rs).
        carried_out(unsafe { raw::abt_raw_port_total(&self.0, &mut total) })?;
        Ok(Units(total))
    }

    /// The capacity of its link: `abt_port_capacity`.
    pub fn capacity(&self) -> Result<Units, Fault> {
        let mut capacity = 0;
        // SAFETY: references (raw.rs).
        carried_out(unsafe { raw::abt_raw_port_capacity(&self.0, &mut capacity) })?;
        Ok(Units(capacity))
    }
}
