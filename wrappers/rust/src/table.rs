//! A port that finds the connection of a message itself.
use crate::cell::{Answer, Cell, Request, CELL_LENGTH};
use crate::fault::{carried_out, Fault};
use crate::gcra::{Stopped, Verdict};
use crate::port::{Decision, Drop, Reply, Reservation};
use crate::rate::{Code, Picoseconds, Units};
use crate::raw;

/// What becomes of a cell at a port with a table.
#[derive(Clone, Copy, Debug, PartialEq, Eq, Hash)]
#[must_use]
pub enum Served {
    /// This cell goes on.
    Pass(Cell),
    /// This cell goes back, the no.
    Refuse(Cell),
    /// No cell goes anywhere.
    Drop(Drop),
}

/// A cell of a connection that arrives at a moment.
#[derive(Clone, Copy, Debug, PartialEq, Eq, Hash)]
pub struct Arrival {
    /// The moment.
    pub at: Picoseconds,
    /// The virtual path identifier, up to 4095.
    pub vpi: u16,
    /// The virtual channel identifier.
    pub vci: u16,
}

/// A port with a table of up to 1,024 connections, in 61,480 octets of the heap.
///
/// ```
/// use abt::{Code, Decision, Fault, Request, Table, Units};
///
/// let mut table = Table::new(Units(512_000))?;
/// table.add(1, 100)?;
/// assert_eq!(table.add(1, 100), Err(Fault::Known));
/// let request = Request { vpi: 1, vci: 100, seq: 1, floor: Code(0), ask: Code(0x5258) };
/// assert_eq!(table.request(&request)?, Decision::Pass);
/// assert_eq!(table.held(1, 100)?, Some(Code(0x5258)));
/// # Ok::<(), Fault>(())
/// ```
#[derive(Debug)]
pub struct Table(Box<raw::Table>);

impl Table {
    /// A port of a link of this capacity, which has no connection: `abt_table_init`.
    pub fn new(capacity: Units) -> Result<Self, Fault> {
        let mut table = Table(Box::new(raw::Table::zeroed()));
        // SAFETY: a reference (raw.rs).
        carried_out(unsafe { raw::abt_raw_table_init(&mut *table.0, capacity.0) })?;
        Ok(table)
    }

    /// Takes a connection in: `abt_table_add`.
    pub fn add(&mut self, vpi: u16, vci: u16) -> Result<(), Fault> {
        // SAFETY: a reference (raw.rs).
        carried_out(unsafe { raw::abt_raw_table_add(&mut *self.0, vpi, vci) })?;
        Ok(())
    }

    /// Takes a connection in whose ingress the port is, with a policer of this tolerance: `abt_table_add_ingress`.
    ///
    /// ```
    /// use abt::{Code, Fault, Picoseconds, Request, Table, Units, Verdict};
    ///
    /// let mut table = Table::new(Units(512_000))?;
    /// table.add_ingress(1, 100, Picoseconds(200))?;
    /// assert_eq!(table.arrive(1, 100, Picoseconds(0))?, Some(Verdict::NoRate));
    /// table.request(&Request { vpi: 1, vci: 100, seq: 1, floor: Code(0), ask: Code(0x5258) })?;
    /// assert_eq!(table.arrive(1, 100, Picoseconds(5))?, Some(Verdict::Conforming));
    /// assert_eq!(table.arrive(1, 101, Picoseconds(5))?, None);
    /// assert_eq!(table.remove(1, 100), Err(Fault::Held));
    /// table.request(&Request { vpi: 1, vci: 100, seq: 2, floor: Code(0), ask: Code(0) })?;
    /// assert_eq!((table.remove(1, 100)?, table.count()?), (true, 0));
    /// # Ok::<(), Fault>(())
    /// ```
    pub fn add_ingress(&mut self, vpi: u16, vci: u16, tau: Picoseconds) -> Result<(), Fault> {
        // SAFETY: a reference (raw.rs).
        carried_out(unsafe { raw::abt_raw_table_add_ingress(&mut *self.0, vpi, vci, tau.0) })?;
        Ok(())
    }

    /// Takes a connection away that holds no rate, and says whether it was there: `abt_table_remove`.
    pub fn remove(&mut self, vpi: u16, vci: u16) -> Result<bool, Fault> {
        // SAFETY: a reference (raw.rs).
        let outcome = carried_out(unsafe { raw::abt_raw_table_remove(&mut *self.0, vpi, vci) })?;
        Ok(outcome == 0)
    }

    /// The verdict on a cell of a connection at its ingress, none if the connection isn't in the table: `abt_table_arrive`.
    pub fn arrive(&mut self, vpi: u16, vci: u16, at: Picoseconds) -> Result<Option<Verdict>, Fault> {
        // SAFETY: a reference (raw.rs).
        let outcome = carried_out(unsafe { raw::abt_raw_table_arrive(&mut *self.0, vpi, vci, at.0) })?;
        Ok(Verdict::of_number(outcome as u8))
    }

    /// What becomes of a burst of cells: what as many calls of `arrive` do, up to the first that is refused: `abt_table_arrive_burst`.
    /// `verdicts` gets the verdict on each, none for a connection that isn't in the table; if it isn't as long as `cells`, nothing is judged.
    ///
    /// ```
    /// use abt::{Arrival, Fault, Picoseconds, Stopped, Table, Units, Verdict};
    ///
    /// let mut table = Table::new(Units(512_000))?;
    /// table.add(1, 100)?;
    /// table.add_ingress(1, 101, Picoseconds(200))?;
    /// let cell = |vci, at| Arrival { at: Picoseconds(at), vpi: 1, vci };
    /// let mut verdicts = [None; 3];
    /// let stopped = table.arrive_burst(&[cell(101, 5), cell(7, 5), cell(100, 5)], &mut verdicts);
    /// assert_eq!(stopped, Err(Stopped { judged: 2, fault: Fault::NotIngress }));
    /// assert_eq!(verdicts, [Some(Verdict::NoRate), None, None]);
    /// # Ok::<(), Fault>(())
    /// ```
    pub fn arrive_burst(&mut self, cells: &[Arrival], verdicts: &mut [Option<Verdict>]) -> Result<(), Stopped> {
        if cells.len() != verdicts.len() {
            return Err(Stopped { judged: 0, fault: Fault::Length });
        }
        const ROOM: usize = 64;
        for (part, (cells, verdicts)) in cells.chunks(ROOM).zip(verdicts.chunks_mut(ROOM)).enumerate() {
            let (mut given, mut outcomes, mut judged) = ([raw::Arrival::default(); ROOM], [0; ROOM], 0);
            for (to, cell) in given.iter_mut().zip(cells) {
                *to = raw::Arrival { at: cell.at.0, vpi: cell.vpi, vci: cell.vci };
            }
            // SAFETY: references (raw.rs), and both arrays have room for as many as there are cells.
            let outcome = unsafe {
                raw::abt_raw_table_arrive_burst(&mut *self.0, given.as_ptr(), cells.len(), outcomes.as_mut_ptr(), cells.len(), &mut judged)
            };
            for (to, outcome) in verdicts.iter_mut().zip(&outcomes[..judged]) {
                *to = Verdict::of_number(*outcome);
            }
            Stopped::of(outcome, part * ROOM + judged)?;
        }
        Ok(())
    }

    /// Decides a request: `abt_table_request`.
    pub fn request(&mut self, request: &Request) -> Result<Decision, Fault> {
        let mut answer = raw::Rm::default();
        // SAFETY: references (raw.rs).
        Decision::of(unsafe { raw::abt_raw_table_request(&mut *self.0, &request.raw(), &mut answer) }, answer)
    }

    /// Takes an answer: `abt_table_answer`.
    pub fn answer(&mut self, answer: &Answer) -> Result<Reply, Fault> {
        // SAFETY: references (raw.rs).
        Reply::of(unsafe { raw::abt_raw_table_answer(&mut *self.0, &answer.raw()) })
    }

    /// Takes an RM cell, a request that came forward or an answer that came backward: `abt_table_cell`.
    pub fn cell(&mut self, cell: &Cell) -> Result<Served, Fault> {
        let mut sent = [0; CELL_LENGTH];
        // SAFETY: references (raw.rs), and the lengths are the arrays'.
        let outcome = unsafe { raw::abt_raw_table_cell(&mut *self.0, cell.as_ptr(), cell.len(), sent.as_mut_ptr(), sent.len()) };
        match carried_out(outcome)? {
            16 => Ok(Served::Pass(sent)),
            17 => Ok(Served::Refuse(sent)),
            other => Drop::of(other).map(Served::Drop),
        }
    }

    /// Gives the link another capacity: `abt_table_set_capacity`.
    pub fn set_capacity(&mut self, capacity: Units) -> Result<(), Fault> {
        // SAFETY: a reference (raw.rs).
        carried_out(unsafe { raw::abt_raw_table_set_capacity(&mut *self.0, capacity.0) })?;
        Ok(())
    }

    /// The sum of what the connections hold: `abt_table_total`.
    pub fn total(&self) -> Result<Units, Fault> {
        let mut total = 0;
        // SAFETY: references (raw.rs).
        carried_out(unsafe { raw::abt_raw_table_total(&*self.0, &mut total) })?;
        Ok(Units(total))
    }

    /// The rate that a connection holds, none if it isn't in the table: `abt_table_held`.
    pub fn held(&self, vpi: u16, vci: u16) -> Result<Option<Code>, Fault> {
        let mut held = 0;
        // SAFETY: references (raw.rs).
        let outcome = carried_out(unsafe { raw::abt_raw_table_held(&*self.0, vpi, vci, &mut held) })?;
        Ok((outcome == 0).then_some(Code(held)))
    }

    /// What the port keeps of a connection, none if it isn't in the table: `abt_table_reservation`.
    pub fn reservation(&self, vpi: u16, vci: u16) -> Result<Option<Reservation>, Fault> {
        let mut kept = raw::Reservation::default();
        // SAFETY: references (raw.rs).
        let outcome = carried_out(unsafe { raw::abt_raw_table_reservation(&*self.0, vpi, vci, &mut kept) })?;
        Ok((outcome == 0).then_some(Reservation::of(kept)))
    }

    /// The capacity of its link: `abt_table_capacity`.
    pub fn capacity(&self) -> Result<Units, Fault> {
        let mut capacity = 0;
        // SAFETY: references (raw.rs).
        carried_out(unsafe { raw::abt_raw_table_capacity(&*self.0, &mut capacity) })?;
        Ok(Units(capacity))
    }

    /// How many connections it has: `abt_table_count`.
    pub fn count(&self) -> Result<u64, Fault> {
        let mut count = 0;
        // SAFETY: references (raw.rs).
        carried_out(unsafe { raw::abt_raw_table_count(&*self.0, &mut count) })?;
        Ok(count)
    }
}
