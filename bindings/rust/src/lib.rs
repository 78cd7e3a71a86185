//! The proved admission test for Rust code: the report on a sheet, its verdict, and the run of a list of jobs on its lines.
//! docs/EMBEDDING.md says what is promised; this wrapper is ordinary Rust, tested and not proved.
mod foreign;
mod refusal;

pub use refusal::{Layer, Refusal};
use std::fmt;

/// Every report fits a list of this length.
pub const REPORT_ROOM: usize = 96;

/// The longest sheet, in bytes.
pub const LONGEST_SHEET: usize = 16_384;

/// The most jobs of a run.
pub const MOST_JOBS: usize = 2_048;

/// The last instant at which a job may be due. A slot list of this length is long enough for every run.
pub const LAST_DEADLINE: usize = 32_000;

/// The entry of a slot that is given and in which no job runs.
pub const SLOT_IDLE: u16 = 0;

/// The entry of a slot that is not given. Every entry from the stop of a missed run on, or from the largest deadline on where
/// all is met, is this one, too.
pub const SLOT_NOT_GIVEN: u16 = 65_535;

/// A job: its line's number, from 0; the instant of its release; and its cost in slots.
#[repr(C)]
#[derive(Clone, Copy, PartialEq, Eq, Debug)]
pub struct Job {
    pub line: u8,
    pub release: u16,
    pub cost: u16,
}

/// The verdict on lines: they fit, or the least deadline at which they ask for more than the supply is sure to give.
#[derive(Clone, Copy, PartialEq, Eq, Debug)]
pub enum Verdict {
    Fits,
    Overloaded { deadline: u16 },
}

impl fmt::Display for Verdict {
    fn fmt(&self, f: &mut fmt::Formatter) -> fmt::Result {
        match self {
            Verdict::Fits => f.write_str("fits"),
            Verdict::Overloaded { deadline } => write!(f, "overloaded at {deadline}"),
        }
    }
}

/// How a run ends: every deadline is met, or the job at a place missed its deadline at an instant.
#[derive(Clone, Copy, PartialEq, Eq, Debug)]
pub enum Outcome {
    Met,
    Missed { job: u16, at: u16 },
}

impl fmt::Display for Outcome {
    fn fmt(&self, f: &mut fmt::Formatter) -> fmt::Result {
        match self {
            Outcome::Met => f.write_str("all met"),
            Outcome::Missed { job, at } => write!(f, "job {job} missed at {at}"),
        }
    }
}

/// Writes the report on a sheet over the front of a list, and answers its length.
pub fn report(sheet: &[u8], out: &mut [u8]) -> Result<usize, Refusal> {
    // Both lists live through the call, and only one of them may be written.
    let answer = unsafe { foreign::zucchinicove_report(sheet.as_ptr(), sheet.len(), out.as_mut_ptr(), out.len()) };
    match answer.kind {
        foreign::WRITTEN => Ok(answer.length),
        _ => Err(answer.refused.into()),
    }
}

/// The verdict on the lines of a sheet.
pub fn verdict(sheet: &[u8]) -> Result<Verdict, Refusal> {
    // The list lives through the call.
    let answer = unsafe { foreign::zucchinicove_verdict(sheet.as_ptr(), sheet.len()) };
    match answer.kind {
        foreign::FITS => Ok(Verdict::Fits),
        foreign::OVERLOADED => Ok(Verdict::Overloaded { deadline: answer.deadline }),
        _ => Err(answer.refused.into()),
    }
}

/// Runs a list of jobs of a sheet's lines in a phase of its supply, and fills the whole slot list. An entry is
/// [`SLOT_IDLE`], 0, where the slot is given and no job runs; 1 + the place of the job that runs, with places from 0; and
/// [`SLOT_NOT_GIVEN`], 65,535, where the slot is not given. From the instant at which a missed run stops, or from the largest
/// deadline on where all is met, every entry is 65,535, also on the whole processor.
pub fn run(sheet: &[u8], phase: u32, jobs: &[Job], slots: &mut [u16]) -> Result<Outcome, Refusal> {
    // The lists live through the call, only the slots may be written, and a job is laid out as in C.
    let answer = unsafe {
        foreign::zucchinicove_run(
            sheet.as_ptr(),
            sheet.len(),
            phase,
            jobs.as_ptr(),
            jobs.len(),
            slots.as_mut_ptr(),
            slots.len(),
        )
    };
    match answer.kind {
        foreign::MET => Ok(Outcome::Met),
        foreign::MISSED => Ok(Outcome::Missed { job: answer.job, at: answer.at }),
        _ => Err(answer.refused.into()),
    }
}
