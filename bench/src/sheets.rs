//! Sheets in straight Rust: written for this program, and read into a roster as the library does.

use crate::roster::{first_rest, Roster, Row};
use crate::runs::{with_table, End, Job};
use crate::supply::{Named, Share, Timetable, Whole};

const FIRST_LENGTH: usize = 13;
const LINE_LENGTH: usize = 8;
const CUT_LENGTH: usize = 7;
const CITE_LENGTH: usize = 4;
const LONGEST: usize = 16_384;

/// What stands for the whole processor.
const NO_TIMETABLE: Timetable = Timetable { length: 0, word: 0 };

/// The sheet that is being written, with the number of its records.
pub struct Sheet {
    bytes: Vec<u8>,
    records: u16,
}

impl Sheet {
    /// A sheet on a supply.
    pub fn on(supply: Named) -> Sheet {
        let (timetable, s, f) = match supply {
            Named::Whole(_) => (NO_TIMETABLE, 0, 0),
            Named::Timetable(timetable) => (timetable, 0, 0),
            Named::SharedWhole(Share { s, f, .. }) => (NO_TIMETABLE, s, f),
            Named::SharedTimetable(Share { below, s, f }) => (below, s, f),
        };
        let mut bytes = b"SU".to_vec();
        bytes.push(timetable.length);
        bytes.extend(timetable.word.to_be_bytes());
        bytes.extend([s, f]);
        Sheet { bytes, records: 1 }
    }

    pub fn line(&mut self, row: Row) {
        self.bytes.extend(b"LN");
        for number in [row.period, row.deadline, row.cost] {
            self.bytes.extend(number.to_be_bytes());
        }
        self.records += 1;
    }

    /// A cut of a deadline by cites of weight 1.
    pub fn cut(&mut self, deadline: u16, divisor: u16, cites: &[u16]) {
        self.bytes.extend(b"CU");
        self.bytes.extend(deadline.to_be_bytes());
        self.bytes.extend(divisor.to_be_bytes());
        self.bytes.push(cites.len() as u8);
        for cite in cites {
            self.bytes.extend(cite.to_be_bytes());
            self.bytes.extend(1_u16.to_be_bytes());
        }
        self.records += 1;
    }

    pub fn end(mut self) -> Vec<u8> {
        self.bytes.extend(b"EN");
        self.bytes.extend(self.records.to_be_bytes());
        self.bytes
    }
}

/// The supply that the first record names.
fn supply(fields: &[u8]) -> Option<Named> {
    let word = u64::from_be_bytes(fields[1..9].try_into().ok()?);
    let (length, s, f) = (fields[0], fields[9], fields[10]);
    let lawful_share = 1 <= s && s <= f && f <= 64;
    match (length, word, s, f) {
        (0, 0, 0, 0) => Some(Named::Whole(Whole)),
        (0, 0, ..) if lawful_share => Some(Named::SharedWhole(Share { below: Whole, s, f })),
        (1..=64, ..) if word != 0 && (length == 64 || word >> length == 0) => match (s, f) {
            (0, 0) => Some(Named::Timetable(Timetable { length, word })),
            _ if lawful_share => Some(Named::SharedTimetable(Share { below: Timetable { length, word }, s, f })),
            _ => None,
        },
        _ => None,
    }
}

fn number(bytes: &[u8], at: usize) -> u16 {
    u16::from_be_bytes([bytes[at], bytes[at + 1]])
}

/// The roster that a sheet leaves, where it is accepted.
pub fn read(sheet: &[u8]) -> Option<Roster<Named>> {
    if sheet.len() > LONGEST || sheet.get(..2)? != b"SU" {
        return None;
    }
    let mut roster = Roster::open(supply(sheet.get(2..FIRST_LENGTH)?)?);
    let mut rest = &sheet[FIRST_LENGTH..];
    let mut records = 1;
    loop {
        let length = match rest.get(..2)? {
            b"LN" => {
                let fields = rest.get(2..LINE_LENGTH)?;
                let row = Row { period: number(fields, 0), deadline: number(fields, 2), cost: number(fields, 4) };
                roster.enrol(row).then_some(LINE_LENGTH)?
            }
            b"CU" => {
                let fields = rest.get(2..CUT_LENGTH)?;
                let length = CUT_LENGTH + CITE_LENGTH * usize::from(fields[4]);
                let cites = rest.get(CUT_LENGTH..length)?;
                roster.cut(number(fields, 0), number(fields, 2), cites).then_some(length)?
            }
            b"EN" => return (rest.len() == 4 && number(rest, 2) == records).then_some(roster),
            _ => return None,
        };
        records += 1;
        rest = &rest[length..];
    }
}

/// The report on a sheet that is accepted.
pub fn report(sheet: &[u8]) -> String {
    let Some(roster) = read(sheet) else {
        return "refused".to_string();
    };
    let (lines, watched) = (roster.rows().len(), roster.watched().len());
    let rest = first_rest(roster.rows());
    let verdict = match roster.verdict() {
        None => "fits".to_string(),
        Some(deadline) => format!("overloaded {deadline}"),
    };
    format!("lines {lines}\nrest {rest}\nwatched {watched}\n{verdict}\n")
}

/// Runs a list on the lines of a sheet that is accepted.
pub fn run_on(sheet: &[u8], phase: u32, jobs: &[Job], slots: &mut [u16]) -> End {
    let roster = read(sheet).expect("a lawful sheet");
    with_table(&roster.supply, phase, roster.rows(), jobs, slots)
}
