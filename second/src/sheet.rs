//! Sheets: reading any bytes, writing, and the report.

use crate::certificate::{cites_of, Certificate};
use crate::lines::{self, Line};
use crate::refusal::{self, Refusal};
use crate::roster::Roster;
use crate::supply::Supply;
use crate::verdict::Verdict;

/// The longest sheet, in bytes.
pub const LONGEST: usize = 16_384;

/// The fields of the first record.
#[derive(Clone, Copy, Debug, PartialEq, Eq)]
pub struct Fields {
    pub length: u8,
    pub word: u64,
    pub s: u8,
    pub f: u8,
}

/// A refusal of a sheet: with the record, from 1, and the byte at which it begins, from 0.
#[derive(Clone, Copy, Debug, PartialEq, Eq)]
pub struct SheetRefusal {
    pub refusal: Refusal,
    pub record: u32,
    pub byte: u32,
}

/// A number of bytes, high byte first.
fn number(bytes: &[u8]) -> u64 {
    bytes.iter().fold(0, |sum, b| sum * 256 + u64::from(*b))
}

/// The supply that the fields name: 17, then 18.
pub fn supply_of(fields: Fields) -> Result<Supply, Refusal> {
    let below = if fields.length == 0 && fields.word == 0 {
        Supply::Whole
    } else {
        Supply::timetable(u32::from(fields.length), fields.word)?
    };
    if fields.s == 0 && fields.f == 0 {
        return Ok(below);
    }
    Supply::share(below, u32::from(fields.s), u32::from(fields.f))
}

/// Reads a sheet, record by record.
pub fn read(bytes: &[u8]) -> Result<Roster, SheetRefusal> {
    if bytes.len() > LONGEST {
        return Err(SheetRefusal { refusal: refusal::sheet(16, 0), record: 0, byte: 0 });
    }
    let mut roster = Roster::open(Supply::Whole);
    let mut at = 0;
    let mut record: u32 = 1;
    loop {
        let refuse = |refusal: Refusal| SheetRefusal { refusal, record, byte: at as u32 };
        let rest = &bytes[at..];
        if rest.len() < 2 {
            return Err(refuse(refusal::sheet(19, 0)));
        }
        let mark = [rest[0], rest[1]];
        let length = match (&mark, record) {
            (b"SU", 1) => 13,
            (b"LN", 2..) => 8,
            (b"CU", 2..) if rest.len() < 7 => 7,
            (b"CU", 2..) => 7 + 4 * usize::from(rest[6]),
            (b"EN", 2..) => 4,
            _ => return Err(refuse(refusal::sheet(20, 0))),
        };
        if rest.len() < length {
            return Err(refuse(refusal::sheet(19, 0)));
        }
        let field = |from: usize| number(&rest[from..from + 2]) as u32;
        match &mark {
            b"SU" => {
                let fields = Fields { length: rest[2], word: number(&rest[3..11]), s: rest[11], f: rest[12] };
                roster = Roster::open(supply_of(fields).map_err(refuse)?);
            }
            b"LN" => {
                let row = Line { period: field(2), deadline: field(4), cost: field(6) };
                roster.enrol(row).map_err(refuse)?;
            }
            b"CU" => {
                let cites = cites_of(&rest[7..length]).unwrap_or_default();
                let certificate = Certificate { deadline: field(2), divisor: field(4), cites };
                roster.cut(&certificate).map_err(refuse)?;
            }
            _ => {
                if field(2) != record - 1 {
                    return Err(refuse(refusal::sheet(21, 0)));
                }
                if rest.len() > length {
                    let refusal = refusal::sheet(22, 0);
                    return Err(SheetRefusal { refusal, record: record + 1, byte: (at + length) as u32 });
                }
                return Ok(roster);
            }
        }
        at += length;
        record += 1;
    }
}

/// The record that names a supply.
pub fn supply_record(fields: Fields) -> Vec<u8> {
    let mut bytes = b"SU".to_vec();
    bytes.push(fields.length);
    bytes.extend(fields.word.to_be_bytes());
    bytes.push(fields.s);
    bytes.push(fields.f);
    bytes
}

/// The record of a line.
pub fn line_record(row: Line) -> Vec<u8> {
    let mut bytes = b"LN".to_vec();
    for figure in [row.period, row.deadline, row.cost] {
        bytes.extend((figure as u16).to_be_bytes());
    }
    bytes
}

/// The record of a certificate.
pub fn cut_record(certificate: &Certificate) -> Vec<u8> {
    let mut bytes = b"CU".to_vec();
    bytes.extend((certificate.deadline as u16).to_be_bytes());
    bytes.extend((certificate.divisor as u16).to_be_bytes());
    bytes.push(certificate.cites.len() as u8);
    for cite in &certificate.cites {
        bytes.extend((cite.deadline as u16).to_be_bytes());
        bytes.extend((cite.weight as u16).to_be_bytes());
    }
    bytes
}

/// The closing record.
pub fn end_record(records: usize) -> Vec<u8> {
    let mut bytes = b"EN".to_vec();
    bytes.extend((records as u16).to_be_bytes());
    bytes
}

/// Writes lines into a list: 17, 18, then 13 with the length needed. What stands behind is left.
pub fn write(lines: &[Line], fields: Fields, out: &mut [u8]) -> Result<usize, Refusal> {
    supply_of(fields)?;
    let mut bytes = supply_record(fields);
    for line in lines {
        bytes.extend(line_record(*line));
    }
    bytes.extend(end_record(1 + lines.len()));
    if out.len() < bytes.len() {
        return Err(refusal::sheet(13, bytes.len() as u32));
    }
    out[..bytes.len()].copy_from_slice(&bytes);
    Ok(bytes.len())
}

/// The report on a reading of a sheet.
pub fn report_on(reading: &mut Result<Roster, SheetRefusal>) -> Vec<u8> {
    match reading {
        Err(r) => {
            format!("refused {} {} record {} byte {}\n", r.refusal.number, r.refusal.layer.name(), r.record, r.byte)
        }
        Ok(roster) => {
            let verdict = match roster.verdict() {
                Verdict::Fits => "fits".to_string(),
                Verdict::OverloadedAt(t) => format!("overloaded {t}"),
            };
            let rest = lines::first_rest(&roster.lines);
            format!("lines {}\nrest {rest}\nwatched {}\n{verdict}\n", roster.lines.len(), roster.watched.len())
        }
    }
    .into_bytes()
}

/// The report on a sheet.
pub fn report(bytes: &[u8]) -> Vec<u8> {
    report_on(&mut read(bytes))
}

#[cfg(test)]
mod tests {
    use super::*;
    use crate::lines::line;

    /// The fields of the whole processor.
    const WHOLE: Fields = Fields { length: 0, word: 0, s: 0, f: 0 };

    /// The sheet of some records, as they stand.
    fn sheet(records: &[Vec<u8>]) -> Vec<u8> {
        records.concat()
    }

    /// The report on a sheet, as text.
    fn text(bytes: &[u8]) -> String {
        String::from_utf8(report(bytes)).unwrap()
    }

    #[test]
    fn the_two_reports_of_the_page() {
        let good =
            sheet(&[supply_record(WHOLE), line_record(line(8, 5, 2)), line_record(line(15, 9, 4)), end_record(3)]);
        assert_eq!(text(&good), "lines 2\nrest 13\nwatched 3\nfits\n");
        let bad = sheet(&[supply_record(WHOLE), line_record(line(8, 9, 2)), end_record(2)]);
        assert_eq!(text(&bad), "refused 3 roster record 2 byte 13\n");
    }

    #[test]
    fn refusals_in_their_order() {
        let su = supply_record(WHOLE);
        assert_eq!(text(&[]), "refused 19 sheet record 1 byte 0\n");
        assert_eq!(text(b"S"), "refused 19 sheet record 1 byte 0\n");
        assert_eq!(text(b"XX"), "refused 20 sheet record 1 byte 0\n");
        assert_eq!(text(b"EN\0\0"), "refused 20 sheet record 1 byte 0\n");
        assert_eq!(text(&su[..12]), "refused 19 sheet record 1 byte 0\n");
        assert_eq!(text(&su), "refused 19 sheet record 2 byte 13\n");
        assert_eq!(text(&sheet(&[su.clone(), su.clone()])), "refused 20 sheet record 2 byte 13\n");
        assert_eq!(text(&sheet(&[su.clone(), b"CU".to_vec()])), "refused 19 sheet record 2 byte 13\n");
        assert_eq!(text(&sheet(&[su.clone(), b"CU\0\0\0\0\0".to_vec()])), "refused 9 roster record 2 byte 13\n");
        assert_eq!(text(&sheet(&[su.clone(), end_record(2)])), "refused 21 sheet record 2 byte 13\n");
        assert_eq!(text(&sheet(&[su.clone(), end_record(2), vec![0]])), "refused 21 sheet record 2 byte 13\n");
        assert_eq!(text(&sheet(&[su.clone(), end_record(1), vec![0]])), "refused 22 sheet record 3 byte 17\n");
        assert_eq!(text(&sheet(&[su.clone(), end_record(1)])), "lines 0\nrest 1\nwatched 0\nfits\n");
        assert_eq!(text(&vec![0; LONGEST]), "refused 20 sheet record 1 byte 0\n");
        assert_eq!(text(&vec![0; LONGEST + 1]), "refused 16 sheet record 0 byte 0\n");
        let timetable = supply_record(Fields { length: 4, word: 16, s: 9, f: 1 });
        assert_eq!(text(&timetable), "refused 17 supply record 1 byte 0\n");
        let share = supply_record(Fields { length: 4, word: 15, s: 9, f: 1 });
        assert_eq!(text(&share), "refused 18 supply record 1 byte 0\n");
    }

    #[test]
    fn written_sheets() {
        let lines = [line(8, 5, 2), line(15, 9, 4)];
        let mut out = [7; 40];
        assert_eq!(write(&lines, WHOLE, &mut out), Ok(33));
        assert_eq!(out[33..], [7; 7]);
        assert_eq!(read(&out[..33]).unwrap().lines, lines);
        assert_eq!(write(&lines, WHOLE, &mut out[..32]), Err(refusal::sheet(13, 33)));
        let bad = Fields { length: 0, word: 1, s: 1, f: 0 };
        assert_eq!(write(&lines, bad, &mut []), Err(refusal::supply(17)));
    }
}
