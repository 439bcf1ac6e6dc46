//! A trace of one channel, by looks.

use crate::lent::memory;
use crate::subsystem::done;
use crate::{Address, Answer, Calls, Condition, Event, Fault, LentSubsystem, Subsystem};
use dasd_sys as sys;
use std::fmt;

/// When a trace looks.
#[derive(Clone, Copy, Debug)]
pub enum Moment<'a> {
    /// Start I/O is about to be called for an address.
    BeforeSio(Address),
    /// The channel's program has done a unit.
    Unit,
    /// A call has answered so. Stores, keys and what is shown have no line.
    Behind(&'a Answer),
    /// The trace ends: a word that is still at work is told.
    End,
}

/// A trace of one channel: the lines of `dasd run --trace`, for a log of the program's own. It is told before each start, behind each unit, and
/// behind each call whose line is wanted; [`Subsystem::react_traced`] does all of that for an event. What it has seen is in it, and nowhere
/// else: a clone goes on with a clone of the subsystem, and a new one has seen nothing.
///
/// ```
/// use dasd::{Address, Answer, ChannelSet, DriveModel, Moment, Subsystem, Trace};
///
/// let (drive, mut trace) = (Address(0x190), Trace::new(1));
/// let mut disks = Subsystem::new(65536, ChannelSet::of(&[1]))?;
/// disks.attach_new(drive, DriveModel::D2314, 2)?;
/// disks.storage()[0x48..0x4C].copy_from_slice(&[0, 0, 1, 0]); // the channel address word
/// disks.storage()[0x100..0x108].copy_from_slice(&[0x16, 0, 2, 0, 0x20, 0, 0, 16]); // Read R0 to 200
/// let mut log = String::from(trace.look(&mut disks, Moment::BeforeSio(drive))?);
/// let started = Answer::Sio(drive, disks.sio(drive));
/// log += trace.look(&mut disks, Moment::Behind(&started))?;
/// while disks.step(1, 1)? == 1 {
///     log += trace.look(&mut disks, Moment::Unit)?;
/// }
/// assert!(log.starts_with("SIO 190 CC 0, started\n 000100 16 Read R0 "));
/// # Ok::<(), dasd::Fault>(())
/// ```
#[derive(Clone)]
pub struct Trace {
    channel: u8,
    kept: [u64; 32],
    lines: Box<[u8; sys::DASD_TRACE_ROOM]>,
}

impl fmt::Debug for Trace {
    fn fmt(&self, f: &mut fmt::Formatter<'_>) -> fmt::Result {
        f.debug_struct("Trace").field("channel", &self.channel).finish_non_exhaustive()
    }
}

// In each call below: SAFETY: the handle is the subsystem's own; the lines are this value's, and so are the numbers that are kept.
impl Trace {
    /// A trace of the channel of this number, which has seen nothing.
    pub fn new(channel: u8) -> Trace {
        Trace { channel, kept: [0; 32], lines: Box::new([0; sys::DASD_TRACE_ROOM]) }
    }

    /// Looks at its channel, which stays as it is: the lines that tell of the moment, often none.
    ///
    /// # Errors
    ///
    /// `NoChannel`; `BadMoment`, a step of more than 65,535 units.
    pub fn look(&mut self, disks: &mut Subsystem, moment: Moment<'_>) -> Result<&str, Fault> {
        let Some(moment) = told(self.channel, moment) else { return Ok("") };
        self.lines(|trace| unsafe { sys::dasd_trace_look(&mut *disks.handle, trace, &moment) })
    }

    /// The same where main storage is lent, which stays as it is.
    ///
    /// # Errors
    ///
    /// Those of each call of a [`LentSubsystem`]; those above.
    pub fn look_lent(&mut self, disks: &mut LentSubsystem, bytes: &mut [u8], keys: &[u8], moment: Moment<'_>) -> Result<&str, Fault> {
        let Some(moment) = told(self.channel, moment) else { return Ok("") };
        self.lines(|trace| unsafe { sys::dasd_lent_trace_look(&mut *disks.handle, &mut memory(bytes, keys), trace, &moment) })
    }

    fn lines(&mut self, look: impl FnOnce(&mut sys::dasd_trace) -> i32) -> Result<&str, Fault> {
        let mut trace = sys::dasd_trace { lines: self.lines.as_mut_ptr(), size: self.lines.len(), length: 0, kept: self.kept };
        done(look(&mut trace))?;
        self.kept = trace.kept;
        Ok(std::str::from_utf8(&self.lines[..trace.length]).expect("lines are of ASCII"))
    }
}

impl Subsystem {
    /// Lets an event happen to the channel of a trace, as [`Subsystem::react`] does, a unit at a time, and adds the lines that tell of it.
    ///
    /// # Errors
    ///
    /// `NoChannel`; `BadKey`; `BadMoment`, where a step did more than 65,535 units, behind these and their lines.
    pub fn react_traced(&mut self, trace: &mut Trace, event: &Event, lines: &mut String) -> Result<Answer, Fault> {
        if let Event::Sio(at) = event {
            lines.push_str(trace.look(self, Moment::BeforeSio(*at))?);
        }
        let answer = match event {
            Event::Step(units) => Answer::Step(self.units_traced(trace, *units, lines)?),
            Event::Run(units) => Answer::Run(self.units_traced(trace, *units, lines)?),
            event => self.react(trace.channel, event)?,
        };
        lines.push_str(trace.look(self, Moment::Behind(&answer))?);
        Ok(answer)
    }

    // Units of the program that runs, so many at most, each of them looked at.
    fn units_traced(&mut self, trace: &mut Trace, units: u32, lines: &mut String) -> Result<u32, Fault> {
        for did in 0..units {
            if self.step(trace.channel, 1)? == 0 {
                return Ok(did);
            }
            lines.push_str(trace.look(self, Moment::Unit)?);
        }
        Ok(units)
    }
}

impl Calls<'_> {
    /// As [`Trace::look`], with its errors.
    pub fn look<'t>(&mut self, trace: &'t mut Trace, moment: Moment<'_>) -> Result<&'t str, Fault> {
        trace.look(self.disks, moment)
    }
}

// A moment as C is told it, at a channel; none where it has no line.
fn told(channel: u8, moment: Moment<'_>) -> Option<sys::dasd_moment> {
    let (what, address, answer) = match moment {
        Moment::BeforeSio(at) => (0, at.0, 0),
        Moment::Unit => (1, 0, 0),
        Moment::Behind(answer) => told_answer(answer)?,
        Moment::End => (11, 0, 0),
    };
    let mut told = sys::dasd_moment { what, channel, address, answer, ..Default::default() };
    if let Moment::Behind(Answer::Reset(Some((_, cylinder, head)))) = moment {
        (told.cylinder, told.head) = (*cylinder, *head);
    }
    Some(told)
}

fn told_answer(answer: &Answer) -> Option<(u8, u16, u32)> {
    Some(match answer {
        Answer::Sio(at, condition) => (2, at.0, code_of(condition)),
        Answer::Tio(at, condition) => (3, at.0, code_of(condition)),
        Answer::Hio(at, condition) => (4, at.0, code_of(condition)),
        Answer::Tch(condition) => (5, 0, code_of(condition)),
        Answer::Step(units) => (6, 0, *units),
        Answer::Run(units) => (7, 0, *units),
        Answer::Arrive(at, arrived) => (8, at.0, u32::from(*arrived)),
        Answer::Interrupt(None) => (9, 0, 0),
        Answer::Interrupt(Some((at, _))) => (9, at.0, 1),
        Answer::Reset(None) => (10, 0, 0),
        Answer::Reset(Some((at, _, _))) => (10, at.0, 1),
        Answer::Store(_) | Answer::Key(_) | Answer::Show(_, _) => return None,
    })
}

fn code_of<T>(condition: &Condition<T>) -> u32 {
    match condition {
        Condition::Zero => 0,
        Condition::Stored(_) => 1,
        Condition::Two => 2,
        Condition::Three => 3,
    }
}
