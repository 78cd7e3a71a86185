//! The library that is compared with: all of its calls stand behind one trait.

use crate::refusal::Refusal;
use crate::roster::Roster;
use crate::run::{End, Job};
use crate::sheet::SheetRefusal;
use std::io::Write;
use std::process::{Command, Stdio};

/// The questions that are put to the library.
pub trait Library {
    /// The report on a sheet.
    fn report(&mut self, sheet: &[u8]) -> Vec<u8>;

    /// What else the library says of a sheet, held to a reading of it: the difference in words, if there is one.
    fn check_sheet(&mut self, _sheet: &[u8], _reading: &mut Result<Roster, SheetRefusal>) -> Option<String> {
        None
    }

    /// Whether the library has the call of a run.
    fn runs(&self) -> bool {
        false
    }

    /// The run of a job list on the lines and the supply of a sheet that is accepted.
    fn run(&mut self, _sheet: &[u8], _phase: u32, _jobs: &[Job], _slots: &mut [u16]) -> Result<End, Refusal> {
        unreachable!("no such call")
    }
}

/// The report program, asked once for each sheet through its standard input.
pub struct ReportProgram {
    pub path: String,
}

impl Library for ReportProgram {
    fn report(&mut self, sheet: &[u8]) -> Vec<u8> {
        let mut child = Command::new(&self.path)
            .stdin(Stdio::piped())
            .stdout(Stdio::piped())
            .spawn()
            .expect("the report program starts");
        // A program that has read enough may close its input early.
        let _ = child.stdin.take().unwrap().write_all(sheet);
        child.wait_with_output().expect("the report program ends").stdout
    }
}

/// The library, where it is linked.
#[cfg(not(linked))]
pub fn open() -> Option<Box<dyn Library>> {
    None
}

/// The library, where it is linked.
#[cfg(linked)]
pub fn open() -> Option<Box<dyn Library>> {
    Some(Box::new(linked::Linked))
}

/// The linked library, through its C interface.
#[cfg(linked)]
mod linked {
    use super::Library;
    use crate::refusal::{Layer, Refusal};
    use crate::roster::Roster;
    use crate::run::{End, Job};
    use crate::sheet::{report_on, SheetRefusal};
    use crate::verdict::Verdict;

    /// Room for every report.
    const REPORT_ROOM: usize = 96;

    /// What a lent list holds before a call.
    const BEFORE: u8 = 0xa5;

    /// `zucchinicove_refused`.
    #[repr(C)]
    #[derive(Clone, Copy, Debug, PartialEq, Eq)]
    struct Refused {
        number: u8,
        layer: u8,
        place: u32,
        record: u32,
        byte: u32,
    }

    /// `zucchinicove_report_answer`.
    #[repr(C)]
    #[derive(Clone, Copy, Debug, PartialEq, Eq)]
    struct ReportAnswer {
        kind: u8,
        length: usize,
        refused: Refused,
    }

    /// `zucchinicove_verdict_answer`.
    #[repr(C)]
    #[derive(Clone, Copy, Debug, PartialEq, Eq)]
    struct VerdictAnswer {
        kind: u8,
        deadline: u16,
        refused: Refused,
    }

    /// `zucchinicove_run_answer`.
    #[repr(C)]
    #[derive(Clone, Copy, Debug, PartialEq, Eq)]
    struct RunAnswer {
        kind: u8,
        job: u16,
        at: u16,
        refused: Refused,
    }

    /// `zucchinicove_job`.
    #[repr(C)]
    #[derive(Clone, Copy)]
    struct CJob {
        line: u8,
        release: u16,
        cost: u16,
    }

    extern "C" {
        fn zucchinicove_report(sheet: *const u8, sheet_length: usize, out: *mut u8, out_length: usize) -> ReportAnswer;
        fn zucchinicove_verdict(sheet: *const u8, sheet_length: usize) -> VerdictAnswer;
        fn zucchinicove_run(
            sheet: *const u8,
            sheet_length: usize,
            phase: u32,
            jobs: *const CJob,
            jobs_length: usize,
            slots: *mut u16,
            slots_length: usize,
        ) -> RunAnswer;
    }

    /// Where nothing is refused.
    const NOTHING: Refused = Refused { number: 0, layer: 0, place: 0, record: 0, byte: 0 };

    /// The number of a layer in the C interface.
    fn layer_number(layer: Layer) -> u8 {
        match layer {
            Layer::Supply => 1,
            Layer::Roster => 2,
            Layer::Run => 3,
            Layer::Sheet => 4,
        }
    }

    /// A refusal as the C interface has it.
    fn refused(refusal: Refusal, record: u32, byte: u32) -> Refused {
        let layer = layer_number(refusal.layer);
        Refused { number: refusal.number as u8, layer, place: refusal.place, record, byte }
    }

    /// Asks for the report on a sheet, into a list.
    fn ask_report(sheet: &[u8], out: &mut [u8]) -> ReportAnswer {
        // Both lists are lent for the call alone, with their own lengths.
        unsafe { zucchinicove_report(sheet.as_ptr(), sheet.len(), out.as_mut_ptr(), out.len()) }
    }

    /// Asks for the verdict on a sheet.
    fn ask_verdict(sheet: &[u8]) -> VerdictAnswer {
        unsafe { zucchinicove_verdict(sheet.as_ptr(), sheet.len()) }
    }

    /// Asks for a run.
    fn ask_run(sheet: &[u8], phase: u32, jobs: &[CJob], slots: &mut [u16]) -> RunAnswer {
        let (jobs_at, slots_at) = (jobs.as_ptr(), slots.as_mut_ptr());
        unsafe { zucchinicove_run(sheet.as_ptr(), sheet.len(), phase, jobs_at, jobs.len(), slots_at, slots.len()) }
    }

    /// The linked library.
    pub struct Linked;

    impl Library for Linked {
        fn report(&mut self, sheet: &[u8]) -> Vec<u8> {
            let mut out = [BEFORE; REPORT_ROOM];
            let answer = ask_report(sheet, &mut out);
            let whole = answer.kind == 1 && answer.refused == NOTHING && answer.length <= REPORT_ROOM;
            if !whole || out[answer.length..].iter().any(|byte| *byte != BEFORE) {
                return format!("{answer:?} and {out:?}").into_bytes();
            }
            out[..answer.length].to_vec()
        }

        fn check_sheet(&mut self, sheet: &[u8], reading: &mut Result<Roster, SheetRefusal>) -> Option<String> {
            let mut differences = String::new();
            // A list one too short for the report is refused and left as it was.
            let text = report_on(reading);
            let length = text.len();
            let mut out = vec![BEFORE; length - 1];
            let theirs = ask_report(sheet, &mut out);
            let short = Refused { number: 13, layer: 4, place: length as u32, record: 0, byte: 0 };
            let ours = ReportAnswer { kind: 0, length: 0, refused: short };
            if theirs != ours || out.iter().any(|byte| *byte != BEFORE) {
                differences +=
                    &format!("report into {} bytes\nours: {ours:?}\ntheirs: {theirs:?} {out:?}\n", length - 1);
            }
            // A list of just the length is long enough, and holds the whole text.
            let mut out = vec![BEFORE; length];
            let theirs = ask_report(sheet, &mut out);
            let ours = ReportAnswer { kind: 1, length, refused: NOTHING };
            if theirs != ours || out != text {
                differences +=
                    &format!("report into {length} bytes\nours: {ours:?} {text:?}\ntheirs: {theirs:?} {out:?}\n");
            }
            let ours = match reading {
                Err(r) => VerdictAnswer { kind: 0, deadline: 0, refused: refused(r.refusal, r.record, r.byte) },
                Ok(roster) => match roster.verdict() {
                    Verdict::Fits => VerdictAnswer { kind: 1, deadline: 0, refused: NOTHING },
                    Verdict::OverloadedAt(t) => VerdictAnswer { kind: 2, deadline: t as u16, refused: NOTHING },
                },
            };
            let theirs = ask_verdict(sheet);
            if theirs != ours {
                differences += &format!("verdict\nours: {ours:?}\ntheirs: {theirs:?}\n");
            }
            if let Err(r) = reading {
                // A run on a refused sheet is refused as the sheet is, whatever the jobs are.
                let mut slots = [7; 4];
                let ours = RunAnswer { kind: 0, job: 0, at: 0, refused: refused(r.refusal, r.record, r.byte) };
                let theirs = ask_run(sheet, 0, &[CJob { line: 9, release: 0, cost: 0 }], &mut slots);
                if theirs != ours || slots != [7; 4] {
                    differences += &format!("run\nours: {ours:?}\ntheirs: {theirs:?} {slots:?}\n");
                }
            }
            (!differences.is_empty()).then_some(differences)
        }

        fn runs(&self) -> bool {
            true
        }

        fn run(&mut self, sheet: &[u8], phase: u32, jobs: &[Job], slots: &mut [u16]) -> Result<End, Refusal> {
            let plain = |job: &Job| CJob {
                line: job.line.try_into().expect("a line's number of 8 bits"),
                release: job.release.try_into().expect("a release of 16 bits"),
                cost: job.cost.try_into().expect("a cost of 16 bits"),
            };
            let jobs: Vec<CJob> = jobs.iter().map(plain).collect();
            let answer = ask_run(sheet, phase, &jobs, slots);
            let RunAnswer { kind, job, at, refused } = answer;
            match (kind, job, at, refused) {
                (1, 0, 0, NOTHING) => Ok(End::Met),
                (2, job, at, NOTHING) => Ok(End::Missed { job: job.into(), at: at.into() }),
                (0, 0, 0, Refused { number, layer: 3, place, record: 0, byte: 0 }) => {
                    Err(Refusal { number: number.into(), layer: Layer::Run, place })
                }
                // No answer of this second roster is like this one, so it shows as a difference.
                _ => Err(Refusal { number: 99, layer: Layer::Run, place: refused.number.into() }),
            }
        }
    }
}
