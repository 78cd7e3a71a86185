//! The functions and structs of include/zucchinicove.h.
use crate::Job;

pub(crate) const FITS: u8 = 1;
pub(crate) const OVERLOADED: u8 = 2;

pub(crate) const MET: u8 = 1;
pub(crate) const MISSED: u8 = 2;

pub(crate) const WRITTEN: u8 = 1;

pub(crate) const SUPPLY: u8 = 1;
pub(crate) const ROSTER: u8 = 2;
pub(crate) const RUN: u8 = 3;

#[repr(C)]
pub(crate) struct Refused {
    pub number: u8,
    pub layer: u8,
    pub place: u32,
    pub record: u32,
    pub byte: u32,
}

#[repr(C)]
pub(crate) struct ReportAnswer {
    pub kind: u8,
    pub length: usize,
    pub refused: Refused,
}

#[repr(C)]
pub(crate) struct VerdictAnswer {
    pub kind: u8,
    pub deadline: u16,
    pub refused: Refused,
}

#[repr(C)]
pub(crate) struct RunAnswer {
    pub kind: u8,
    pub job: u16,
    pub at: u16,
    pub refused: Refused,
}

extern "C" {
    pub(crate) fn zucchinicove_report(
        sheet: *const u8,
        sheet_length: usize,
        out: *mut u8,
        out_length: usize,
    ) -> ReportAnswer;

    pub(crate) fn zucchinicove_verdict(sheet: *const u8, sheet_length: usize) -> VerdictAnswer;

    pub(crate) fn zucchinicove_run(
        sheet: *const u8,
        sheet_length: usize,
        phase: u32,
        jobs: *const Job,
        jobs_length: usize,
        slots: *mut u16,
        slots_length: usize,
    ) -> RunAnswer;
}
