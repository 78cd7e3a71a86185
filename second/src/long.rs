//! Sheets that are accepted with dozens or hundreds of cuts, up to the longest length; and the like with one record
//! wrong.

use crate::certificate::{Certificate, Cite};
use crate::lines::{line, Line};
use crate::make::{closed, fields};
use crate::random::Random;
use crate::roster::Roster;
use crate::sheet::{cut_record, line_record, supply_of, Fields, LONGEST};
use crate::supply::Supply;

/// The fewest and the most bytes of a cut with two cites and with eight.
const SHORTEST_CUT: usize = 15;
const LONGEST_CUT: usize = 39;

/// Six to eight lines, in turn of a period and of the next one, so that their watch list is long. The costs are about
/// as many slots as the supply is sure to hold in a period, or fewer.
fn rows(r: &mut Random, fields: Fields, period: u32) -> Vec<Line> {
    let before_end = r.pick(&[0, 0, 1, 2]);
    let number = r.from_to(6, 8);
    let held = supply_of(fields).expect("a lawful supply").least(period as usize);
    let most = (held / number).max(1);
    let full = r.one_in(2);
    let row = |i: u32| {
        let cost = if full { most + r.below(2) } else { r.from_to(1, most) };
        if i % 2 == 0 {
            line(period, period - before_end, cost)
        } else {
            line(period + 1, period + 1, cost)
        }
    };
    (0..number).map(row).collect()
}

/// A certificate for the deadline at so many rounds, with a number of cites from 2. In each pair, the two cited
/// deadlines make up that deadline: over any supply, the slots sure to be held in both are no more than in it.
fn by_pairs(r: &mut Random, round: u32, rounds: u32, number: usize) -> Certificate {
    let mut certificate = Certificate { deadline: rounds * round, divisor: 0, cites: Vec::new() };
    for _ in 0..number / 2 {
        let any = r.from_to(2, 250);
        let weight = r.pick(&[2, 2, 3, 5, 250, any]);
        let first = r.from_to(1, rounds - 1);
        certificate.divisor += weight;
        certificate.cites.push(Cite { deadline: first * round, weight });
        certificate.cites.push(Cite { deadline: (rounds - first) * round, weight });
    }
    if number % 2 == 1 {
        // One deadline is cited twice, the second time with a part of its weight.
        let cited = certificate.cites[0].deadline;
        certificate.cites[0].weight -= 1;
        certificate.cites.push(Cite { deadline: cited, weight: 1 });
    }
    certificate
}

/// How many cites a cut has where so many bytes are left: as many as fill them, if one cut can, and else from 2 to 8.
fn cites_for(r: &mut Random, room: usize) -> usize {
    if room <= LONGEST_CUT && room % 4 == 3 {
        (room - 7) / 4
    } else {
        r.from_to(2, 8.min((room as u32 - 7) / 4)) as usize
    }
}

/// Cuts of deadlines of the lines with the longer period, from the last down, into so many bytes.
fn cuts(r: &mut Random, roster: &mut Roster, room: usize) -> Vec<Vec<u8>> {
    let round = roster.lines.iter().map(|line| line.period).max().unwrap_or(1);
    let last = roster.watched.last().map_or(0, |t| t / round);
    let mut left = room;
    let mut records = Vec::new();
    for rounds in (2..=last).rev() {
        if left < SHORTEST_CUT {
            break;
        }
        let number = cites_for(r, left);
        let certificate = by_pairs(r, round, rounds, number);
        if roster.cut(&certificate).is_ok() {
            left -= 7 + 4 * number;
            records.push(cut_record(&certificate));
        }
    }
    records
}

/// The records behind the first, for a sheet of up to so many bytes: after each line but the first, cuts into a part of
/// what is left. Each cut is tried on the whole processor; being made of pairs, it holds over every other supply, too.
fn records(r: &mut Random, rows: &[Line], length: usize) -> Vec<Vec<u8>> {
    let mut roster = Roster::open(Supply::Whole);
    let mut records = Vec::new();
    let mut left = length - 17 - 8 * rows.len();
    for (number, row) in rows.iter().enumerate() {
        roster.enrol(*row).expect("the lines of a long sheet are within the bounds");
        records.push(line_record(*row));
        let part = left / (rows.len() - number);
        let made = if number == 0 { Vec::new() } else { cuts(r, &mut roster, part) };
        left -= made.concat().len();
        records.extend(made);
    }
    records
}

/// One of the last records with one byte changed behind its mark.
fn damage(r: &mut Random, records: &mut [Vec<u8>]) {
    let from_end = r.from_to(1, 4) as usize;
    let place = records.len() - from_end;
    let at = r.from_to(2, records[place].len() as u32 - 1) as usize;
    let by = r.pick(&[1, 255, 128]);
    records[place][at] = records[place][at].wrapping_add(by);
}

/// A sheet of lines of about the period and of cuts, of up to so many bytes: mostly an accepted one, and else one with
/// a record damaged, or with the last one twice.
fn with_cuts(r: &mut Random, period: u32, length: usize) -> Vec<u8> {
    let fields = fields(r, false);
    let rows = rows(r, fields, period);
    let mut records = records(r, &rows, length);
    match r.below(10) {
        0 => damage(r, &mut records),
        1 => {
            let last = records[records.len() - 1].clone();
            records.push(last);
        }
        _ => {}
    }
    closed(fields, &records)
}

/// A sheet of about the longest length, or now and then a little longer.
pub fn long(r: &mut Random) -> Vec<u8> {
    let period = r.from_to(100, 128);
    let shorter = r.below(6_000) as usize;
    let length = r.pick(&[LONGEST, LONGEST, LONGEST, LONGEST, LONGEST - 1, LONGEST - shorter, LONGEST + 40]);
    with_cuts(r, period, length)
}

/// A sheet of 1,000 to 10,000 bytes, mostly.
pub fn middle(r: &mut Random) -> Vec<u8> {
    let period = r.from_to(16, 60);
    let length = r.from_to(1_000, 10_000);
    with_cuts(r, period, length as usize)
}

#[cfg(test)]
mod tests {
    use super::*;
    use crate::sheet::read;

    /// The lengths of the accepted ones of a hundred sheets.
    fn accepted_lengths(make: fn(&mut Random) -> Vec<u8>) -> Vec<usize> {
        let sheets = (0..100).map(|seed| make(&mut Random::new(seed)));
        sheets.filter(|bytes| read(bytes).is_ok()).map(|bytes| bytes.len()).collect()
    }

    #[test]
    fn most_long_ones_are_accepted_and_some_are_of_the_longest_length() {
        let lengths = accepted_lengths(long);
        assert!(lengths.len() >= 50 && lengths.len() < 100, "{lengths:?}");
        assert!(lengths.iter().all(|length| *length > 10_000), "{lengths:?}");
        assert!(lengths.contains(&LONGEST), "{lengths:?}");
    }

    #[test]
    fn most_middle_ones_are_accepted() {
        let lengths = accepted_lengths(middle);
        assert!(lengths.len() >= 50 && lengths.len() < 100, "{lengths:?}");
        assert!(lengths.iter().filter(|length| (1_000..10_000).contains(*length)).count() > 40, "{lengths:?}");
    }
}
