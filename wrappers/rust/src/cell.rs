//! RM cells, and the messages that they carry.
use crate::fault::{carried_out, Fault};
use crate::rate::Code;
use crate::raw;

/// Octets of a cell without its HEC octet, and of its payload.
pub const CELL_LENGTH: usize = 52;
/// Octets of a cell's payload.
pub const PAYLOAD_LENGTH: usize = 48;

/// The octets of a cell without its HEC octet.
pub type Cell = [u8; CELL_LENGTH];

/// A request of a source for a rate.
#[derive(Clone, Copy, Debug, PartialEq, Eq, Hash)]
pub struct Request {
    /// The virtual path identifier, up to 4095.
    pub vpi: u16,
    /// The virtual channel identifier.
    pub vci: u16,
    /// The sequence number, from 1.
    pub seq: u32,
    /// The rate that the source keeps meanwhile.
    pub floor: Code,
    /// The rate that is asked for.
    pub ask: Code,
}

/// An answer to a request, which repeats it.
#[derive(Clone, Copy, Debug, PartialEq, Eq, Hash)]
pub struct Answer {
    /// The request that is answered.
    pub request: Request,
    /// Whether it is a yes.
    pub granted: bool,
}

/// What an RM cell says.
///
/// ```
/// use abt::{Code, Fault, Request, Rm};
///
/// let request = Request { vpi: 1, vci: 100, seq: 1, floor: Code(0), ask: Code(0x5120) };
/// let cell = Rm::Request(request).write()?;
/// assert_eq!(Rm::read(&cell)?, Rm::Request(request));
/// assert_eq!(Rm::read(&[0; abt::CELL_LENGTH]), Err(Fault::NotRm));
/// # Ok::<(), Fault>(())
/// ```
#[derive(Clone, Copy, Debug, PartialEq, Eq, Hash)]
pub enum Rm {
    /// A request.
    Request(Request),
    /// An answer.
    Answer(Answer),
}

impl Rm {
    /// Reads an RM cell; rate codes come out canonical: `abt_rm_read`.
    pub fn read(cell: &Cell) -> Result<Rm, Fault> {
        let mut rm = raw::Rm::default();
        // SAFETY: references (raw.rs), and the length is the array's.
        carried_out(unsafe { raw::abt_raw_rm_read(cell.as_ptr(), cell.len(), &mut rm) })?;
        Rm::of(rm)
    }

    /// Writes the one cell of a message: `abt_rm_write`.
    pub fn write(&self) -> Result<Cell, Fault> {
        let mut cell = [0; CELL_LENGTH];
        let rm = match self {
            Rm::Request(request) => request.raw(),
            Rm::Answer(answer) => answer.raw(),
        };
        // SAFETY: references (raw.rs), and the length is the array's.
        carried_out(unsafe { raw::abt_raw_rm_write(&rm, cell.as_mut_ptr(), cell.len()) })?;
        Ok(cell)
    }

    fn of(rm: raw::Rm) -> Result<Rm, Fault> {
        let request = Request::of(rm);
        match rm.kind {
            1 => Ok(Rm::Request(request)),
            2 => Ok(Rm::Answer(Answer { request, granted: true })),
            3 => Ok(Rm::Answer(Answer { request, granted: false })),
            _ => Err(Fault::Kind),
        }
    }
}

impl Request {
    pub(crate) fn of(rm: raw::Rm) -> Self {
        Request { vpi: rm.vpi, vci: rm.vci, seq: rm.seq, floor: Code(rm.floor), ask: Code(rm.ask) }
    }

    pub(crate) fn raw(&self) -> raw::Rm {
        raw::Rm { kind: 1, seq: self.seq, vpi: self.vpi, vci: self.vci, floor: self.floor.0, ask: self.ask.0 }
    }

    /// The yes to this request, if the last port of its path passed it: `abt_rm_turn`.
    ///
    /// ```
    /// use abt::{Code, Fault, Request};
    ///
    /// let request = Request { vpi: 1, vci: 100, seq: 1, floor: Code(0), ask: Code(0x5120) };
    /// assert_eq!(request.turned()?, request.answered(true));
    /// assert_eq!(Request { seq: 0, ..request }.turned(), Err(Fault::SeqZero));
    /// # Ok::<(), Fault>(())
    /// ```
    pub fn turned(&self) -> Result<Answer, Fault> {
        let mut yes = raw::Rm::default();
        // SAFETY: references (raw.rs).
        carried_out(unsafe { raw::abt_raw_rm_turn(&self.raw(), &mut yes) })?;
        Ok(Request::of(yes).answered(true))
    }

    /// The answer to this request.
    pub fn answered(self, granted: bool) -> Answer {
        Answer { request: self, granted }
    }
}

impl Answer {
    pub(crate) fn raw(&self) -> raw::Rm {
        raw::Rm { kind: if self.granted { 2 } else { 3 }, ..self.request.raw() }
    }
}

/// The CRC-10 of a payload, of its first 374 bits: `abt_crc10`.
///
/// ```
/// assert_eq!(abt::crc10(&[0; abt::PAYLOAD_LENGTH]), Ok(0));
/// ```
pub fn crc10(payload: &[u8; PAYLOAD_LENGTH]) -> Result<u16, Fault> {
    let mut check = 0;
    // SAFETY: references (raw.rs), and the length is the array's.
    carried_out(unsafe { raw::abt_raw_crc10(payload.as_ptr(), payload.len(), &mut check) })?;
    Ok(check)
}
