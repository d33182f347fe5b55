//! A source, whose state is a type.
use crate::cell::{Answer, Request};
use crate::fault::{carried_out, emission, EmitFault, Fault};
use crate::rate::{Code, Picoseconds};
use crate::raw;
use std::error::Error;
use std::fmt;
use std::marker::PhantomData;

/// Octets of a record in a store.
pub const RECORD_LENGTH: usize = 12;

/// The octets of a record.
pub type Record = [u8; RECORD_LENGTH];

/// The state of a source that isn't started.
#[derive(Debug)]
pub enum Down {}

/// The state of a source that waits for no answer.
#[derive(Debug)]
pub enum Idle {}

/// The state of a source that waits for the answer to its newest request.
#[derive(Debug)]
pub enum Asking {}

/// The state of a source that waits for a write of its record; before it asked, it was in the state `S`.
#[derive(Debug)]
pub struct Writing<S>(PhantomData<S>);

/// The states of a source that may ask and emit.
pub trait Up: sealed::Up {}
impl Up for Idle {}
impl Up for Asking {}

mod sealed {
    pub trait Up {}
    impl Up for super::Idle {}
    impl Up for super::Asking {}
}

/// A source in a state.
///
/// ```
/// use abt::{Ask, Became, Code, Down, Heard, Phase, Picoseconds, Source};
///
/// let source = Source::<Down>::new(1, 100)?;
/// let source = source.start(&[0; 4], Picoseconds(0))?;
/// let Ask::Write(writing) = source.ask(Code(0x5120))? else { panic!("the first ask writes") };
/// let stored: [u8; 12] = *writing.record(); // to be written to the store, here
/// let (source, request) = writing.wrote(Became::Written)?;
/// let Heard::Raised(mut source) = source.answer(&request.answered(true))? else { panic!("it is the answer") };
/// assert_eq!((source.rate()?, stored.len()), (Code(0x5120), 12));
/// assert_eq!((source.phase()?, source.last()?), (Phase::Idle, 1));
/// let next = source.next()?; // a store without a spacing holds off for the longest one, a second
/// assert!(source.emit(Picoseconds(next.0 - 1)).is_err() && source.emit(next).is_ok());
/// # Ok::<(), Box<dyn std::error::Error>>(())
/// ```
///
/// A source that is down doesn't ask, one that has a write to make doesn't emit, one that waits for no answer hears none, and no state is
/// used twice:
///
/// ```compile_fail,E0599
/// # use abt::*;
/// let down = Source::<Down>::new(1, 100).unwrap();
/// down.ask(Code(0x5120));
/// ```
/// ```compile_fail,E0599
/// # use abt::*;
/// fn emit_while_writing(mut source: Source<Writing<Idle>>) {
///     source.emit(Picoseconds(0));
/// }
/// ```
/// ```compile_fail,E0599
/// # use abt::*;
/// fn hear_while_idle(source: Source<Idle>, answer: Answer) {
///     source.answer(&answer);
/// }
/// ```
/// ```compile_fail,E0382
/// # use abt::*;
/// fn ask_twice(source: Source<Idle>) {
///     let first = source.ask(Code(0x5120));
///     let second = source.ask(Code(0x5120));
/// }
/// ```
/// ```compile_fail,E0599
/// # use abt::*;
/// fn copy(source: Source<Idle>) {
///     let second = source.clone();
/// }
/// ```
#[must_use]
#[derive(Debug)]
pub struct Source<S> {
    raw: raw::Source,
    record: Record,
    state: PhantomData<S>,
}

/// A call that a source refused, with the source as the call leaves it.
#[derive(Debug)]
pub struct Refused<S> {
    /// The source.
    pub source: Source<S>,
    /// Why.
    pub fault: Fault,
}

impl<S> fmt::Display for Refused<S> {
    fn fmt(&self, to: &mut fmt::Formatter<'_>) -> fmt::Result {
        self.fault.fmt(to)
    }
}

impl<S: fmt::Debug> Error for Refused<S> {
    fn source(&self) -> Option<&(dyn Error + 'static)> {
        Some(&self.fault)
    }
}

/// What an ask leads to.
#[derive(Debug)]
pub enum Ask<S> {
    /// The request goes out.
    Out(Source<Asking>, Request),
    /// The record has to be written first.
    Write(Source<Writing<S>>),
}

/// What became of a write.
#[derive(Clone, Copy, Debug, PartialEq, Eq, Hash)]
pub enum Became {
    /// It was made.
    Written = 1,
    /// It failed, and nothing was written.
    FailedBefore = 2,
    /// It failed after all was written.
    FailedAfter = 3,
}

/// What a source makes of an answer.
#[derive(Debug)]
#[must_use]
pub enum Heard {
    /// A yes to the newest request: it shapes at the asked rate.
    Raised(Source<Idle>),
    /// A no to the newest request: it stays at the floor.
    Refused(Source<Idle>),
    /// The answer to something else.
    Ignored(Source<Asking>),
}

/// What a source does, as the library tells it; the type of a source says the same.
#[derive(Clone, Copy, Debug, PartialEq, Eq, Hash)]
pub enum Phase {
    /// It isn't started.
    Down,
    /// It waits for no answer.
    Idle,
    /// It waits for an answer.
    Asking,
    /// It waits for what became of a write.
    Writing,
}

impl<S> Source<S> {
    fn become_<T>(self) -> Source<T> {
        Source { raw: self.raw, record: self.record, state: PhantomData }
    }

    fn refused(self, fault: Fault) -> Refused<S> {
        Refused { source: self, fault }
    }

    /// The rate at which it shapes: `abt_source_rate`.
    pub fn rate(&self) -> Result<Code, Fault> {
        let mut rate = 0;
        // SAFETY: references (raw.rs).
        carried_out(unsafe { raw::abt_raw_source_rate(&self.raw, &mut rate) })?;
        Ok(Code(rate))
    }

    /// What it does: `abt_source_phase`.
    pub fn phase(&self) -> Result<Phase, Fault> {
        let mut phase = 0;
        // SAFETY: references (raw.rs).
        carried_out(unsafe { raw::abt_raw_source_phase(&self.raw, &mut phase) })?;
        match phase {
            0 => Ok(Phase::Down),
            1 => Ok(Phase::Idle),
            2 => Ok(Phase::Asking),
            3 => Ok(Phase::Writing),
            other => Err(Fault::Other(other)),
        }
    }

    /// The last number that is used up, by a request or by a start that passed over it: `abt_source_last`.
    pub fn last(&self) -> Result<u32, Fault> {
        let mut number = 0;
        // SAFETY: references (raw.rs).
        carried_out(unsafe { raw::abt_raw_source_last(&self.raw, &mut number) })?;
        Ok(number)
    }

    fn crashed(mut self) -> Result<Source<Down>, Refused<S>> {
        // SAFETY: a reference (raw.rs).
        match carried_out(unsafe { raw::abt_raw_source_crash(&mut self.raw) }) {
            Ok(_) => Ok(self.become_()),
            Err(fault) => Err(self.refused(fault)),
        }
    }
}

impl Source<Down> {
    /// A source of a connection to which nothing has happened: `abt_source_init`.
    pub fn new(vpi: u16, vci: u16) -> Result<Self, Fault> {
        let mut source = Source { raw: raw::Source::zeroed(), record: [0; RECORD_LENGTH], state: PhantomData };
        // SAFETY: a reference (raw.rs).
        carried_out(unsafe { raw::abt_raw_source_init(&mut source.raw, vpi, vci) })?;
        Ok(source)
    }

    /// Starts now, from the octets that the store holds, twelve or four: `abt_source_start`.
    pub fn start(mut self, record: &[u8], now: Picoseconds) -> Result<Source<Idle>, Refused<Down>> {
        // SAFETY: references (raw.rs), and the length is the slice's.
        match carried_out(unsafe { raw::abt_raw_source_start(&mut self.raw, record.as_ptr(), record.len(), now.0) }) {
            Ok(_) => Ok(self.become_()),
            Err(fault) => Err(self.refused(fault)),
        }
    }
}

impl<S: Up> Source<S> {
    /// Asks for a rate: `abt_source_ask`.
    pub fn ask(mut self, rate: Code) -> Result<Ask<S>, Refused<S>> {
        let (mut record, mut rm) = ([0; RECORD_LENGTH], raw::Rm::default());
        // SAFETY: references (raw.rs), and the length is the array's.
        let outcome = unsafe { raw::abt_raw_source_ask(&mut self.raw, rate.0, record.as_mut_ptr(), record.len(), &mut rm) };
        match carried_out(outcome) {
            Ok(8) => Ok(Ask::Write(Source { record, ..self.become_() })),
            Ok(9) => Ok(Ask::Out(self.become_(), Request::of(rm))),
            Ok(other) => Err(self.refused(Fault::Other(other))),
            Err(fault) => Err(self.refused(fault)),
        }
    }

    /// Emits a cell now, and gives the earliest moment of the next one: `abt_source_emit`.
    pub fn emit(&mut self, now: Picoseconds) -> Result<Picoseconds, EmitFault> {
        let mut next = 0;
        // SAFETY: references (raw.rs).
        emission(unsafe { raw::abt_raw_source_emit(&mut self.raw, now.0, &mut next) }, next)
    }

    /// The earliest moment at which it emits a cell, at its present rate, without trying: `abt_source_next`.
    pub fn next(&self) -> Result<Picoseconds, Fault> {
        let mut next = 0;
        // SAFETY: references (raw.rs).
        carried_out(unsafe { raw::abt_raw_source_next(&self.raw, &mut next) })?;
        Ok(Picoseconds(next))
    }

    /// Loses the rate and the newest request: `abt_source_crash`.
    pub fn crash(self) -> Result<Source<Down>, Refused<S>> {
        self.crashed()
    }
}

impl Source<Asking> {
    /// The newest request, to be sent again: `abt_source_again`.
    pub fn again(&self) -> Result<Request, Fault> {
        let mut rm = raw::Rm::default();
        // SAFETY: references (raw.rs).
        carried_out(unsafe { raw::abt_raw_source_again(&self.raw, &mut rm) })?;
        Ok(Request::of(rm))
    }

    /// Takes an answer: `abt_source_answer`.
    pub fn answer(mut self, answer: &Answer) -> Result<Heard, Refused<Asking>> {
        // SAFETY: references (raw.rs).
        match carried_out(unsafe { raw::abt_raw_source_answer(&mut self.raw, &answer.raw()) }) {
            Ok(10) => Ok(Heard::Raised(self.become_())),
            Ok(11) => Ok(Heard::Refused(self.become_())),
            Ok(12) => Ok(Heard::Ignored(self)),
            Ok(other) => Err(self.refused(Fault::Other(other))),
            Err(fault) => Err(self.refused(fault)),
        }
    }
}

impl<S: Up> Source<Writing<S>> {
    /// The octets that the caller has to write to the store.
    pub fn record(&self) -> &Record {
        &self.record
    }

    /// Takes what became of the write; the request goes out if it was made: `abt_source_wrote`. Otherwise the fault is
    /// [`Fault::NotKept`], with the source as it was before the ask.
    pub fn wrote(mut self, became: Became) -> Result<(Source<Asking>, Request), Refused<S>> {
        let mut rm = raw::Rm::default();
        // SAFETY: references (raw.rs).
        match carried_out(unsafe { raw::abt_raw_source_wrote(&mut self.raw, became as u32, &mut rm) }) {
            Ok(_) => Ok((self.become_(), Request::of(rm))),
            Err(fault) => Err(self.become_().refused(fault)),
        }
    }

    /// Loses the rate, the newest request and the write: `abt_source_crash`.
    pub fn crash(self) -> Result<Source<Down>, Refused<Writing<S>>> {
        self.crashed()
    }
}
