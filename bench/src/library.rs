//! The library, through its Rust crate and through the calls that are there for this program alone.

use crate::roster::Row;
use crate::runs::{End, Job};
use zucchinicove::{Outcome, REPORT_ROOM};

#[repr(C)]
struct Verdicts {
    kind: u8,
    deadline: u16,
}

#[repr(C)]
struct RunEnd {
    kind: u8,
    job: u16,
    at: u16,
}

const FITS: u8 = 1;
const OVERLOADED: u8 = 2;
const MET: u8 = 1;
const MISSED: u8 = 2;

extern "C" {
    fn bench_whole(rows: *const Row, rows_length: usize, times: u32) -> Verdicts;
    fn bench_timetable(length: u8, word: u64, rows: *const Row, rows_length: usize, times: u32) -> Verdicts;
    fn bench_pile(shares: u8, given: u8, of: u8, rows: *const Row, rows_length: usize, times: u32) -> Verdicts;
    fn bench_run(
        rows: *const Row,
        rows_length: usize,
        jobs: *const Job,
        jobs_length: usize,
        slots: *mut u16,
        slots_length: usize,
        times: u32,
    ) -> RunEnd;
    fn bench_enrol(rows: *const Row, rows_length: usize) -> usize;
}

/// A verdict in plain Rust.
fn verdict(told: Verdicts) -> Option<u16> {
    match told.kind {
        FITS => None,
        OVERLOADED => Some(told.deadline),
        kind => panic!("no verdict: {kind}"),
    }
}

/// Every list is lent for the call alone, with its own length.
pub fn whole(rows: &[Row], times: u32) -> Option<u16> {
    verdict(unsafe { bench_whole(rows.as_ptr(), rows.len(), times) })
}

pub fn timetable(length: u8, word: u64, rows: &[Row], times: u32) -> Option<u16> {
    verdict(unsafe { bench_timetable(length, word, rows.as_ptr(), rows.len(), times) })
}

pub fn pile(shares: u8, given: u8, of: u8, rows: &[Row], times: u32) -> Option<u16> {
    verdict(unsafe { bench_pile(shares, given, of, rows.as_ptr(), rows.len(), times) })
}

pub fn run(rows: &[Row], jobs: &[Job], slots: &mut [u16], times: u32) -> End {
    let (rows_at, jobs_at, slots_at) = (rows.as_ptr(), jobs.as_ptr(), slots.as_mut_ptr());
    let told = unsafe { bench_run(rows_at, rows.len(), jobs_at, jobs.len(), slots_at, slots.len(), times) };
    match told.kind {
        MET => None,
        MISSED => Some((told.job, told.at)),
        kind => panic!("no run: {kind}"),
    }
}

/// Runs a list on the lines of a sheet.
pub fn run_on(sheet: &[u8], phase: u32, jobs: &[Job], slots: &mut [u16]) -> End {
    match zucchinicove::run(sheet, phase, jobs, slots) {
        Ok(Outcome::Met) => None,
        Ok(Outcome::Missed { job, at }) => Some((job, at)),
        Err(refused) => panic!("no run: {refused}"),
    }
}

/// The number of watched deadlines.
pub fn enrol(rows: &[Row]) -> usize {
    unsafe { bench_enrol(rows.as_ptr(), rows.len()) }
}

pub fn report(sheet: &[u8]) -> String {
    let mut out = [0; REPORT_ROOM];
    let length = zucchinicove::report(sheet, &mut out).expect("the list has room for every report");
    String::from_utf8_lossy(&out[..length]).into_owned()
}
