//! What is put to every side: full rosters, job lists and sheets. All come from one seed, so each run has the same.

use crate::roster::{hyperperiod, Roster, Row};
use crate::runs::Job;
use crate::sheets::Sheet;
use crate::supply::{Named, Supply, Whole};

pub const LINES: usize = 8;

/// The bounds of a roster.
pub const LONGEST_HYPERPERIOD: u16 = 30_000;
pub const MOST_WATCHED: usize = 256;

/// Numbers that look random.
pub struct Numbers(u64);

impl Numbers {
    pub fn seeded() -> Numbers {
        Numbers(20_261_126)
    }

    fn below(&mut self, bound: u64) -> u64 {
        self.0 ^= self.0 << 13;
        self.0 ^= self.0 >> 7;
        self.0 ^= self.0 << 17;
        self.0 % bound
    }
}

/// A roster of some lines over a supply.
pub fn roster<S: Supply>(supply: S, rows: &[Row]) -> Roster<S> {
    let mut roster = Roster::open(supply);
    for row in rows {
        roster.enrol(*row);
    }
    roster
}

/// The periods that divide the longest hyperperiod.
fn periods() -> Vec<u16> {
    (20..=1000).filter(|period| LONGEST_HYPERPERIOD % period == 0).collect()
}

fn random_rows(numbers: &mut Numbers, periods: &[u16]) -> [Row; LINES] {
    std::array::from_fn(|_| {
        let period = periods[numbers.below(periods.len() as u64) as usize];
        let deadline = period - numbers.below(u64::from(period / 2)) as u16;
        Row { period, deadline, cost: 1 }
    })
}

/// Full rosters with watch lists of some lengths, all at the longest hyperperiod where that is asked for.
pub fn full_rosters(many: usize, watched: std::ops::RangeInclusive<usize>, longest: bool) -> Vec<[Row; LINES]> {
    let mut numbers = Numbers::seeded();
    let periods = periods();
    let mut found = Vec::new();
    while found.len() < many {
        let rows = random_rows(&mut numbers, &periods);
        let made = roster(Whole, &rows);
        let at_bound = hyperperiod(&rows) == Some(LONGEST_HYPERPERIOD);
        if made.rows().len() == LINES && watched.contains(&made.watched().len()) && (at_bound || !longest) {
            found.push(rows);
        }
    }
    found
}

/// The lines with costs as high as they fit a supply.
pub fn loaded<S: Supply + Copy>(supply: S, rows: &[Row; LINES]) -> [Row; LINES] {
    let mut best = *rows;
    let mut grown = true;
    while grown {
        grown = false;
        for line in 0..LINES {
            let mut rows = best;
            rows[line].cost += 1;
            if roster(supply, &rows).verdict().is_none() {
                best = rows;
                grown = true;
            }
        }
    }
    best
}

/// The lines with one slot more for the first than they fit.
pub fn overloaded(rows: &[Row; LINES]) -> [Row; LINES] {
    let mut rows = *rows;
    rows[0].cost += 1;
    rows
}

/// The period of the lines of the job lists: so many slots for each eight jobs.
const ROUND: u16 = 124;

/// The lines of the job lists.
pub fn busy_lines(cost: u16) -> [Row; LINES] {
    std::array::from_fn(|line| Row { period: ROUND, deadline: 100 + line as u16, cost })
}

/// A list of jobs: each line brings one in every round, a little later than the line before it.
pub fn jobs(many: usize, cost: u16) -> Vec<Job> {
    let job = |place: usize| {
        let line = place % LINES;
        Job { line: line as u8, release: (place / LINES) as u16 * ROUND + 3 * line as u16, cost }
    };
    (0..many).map(job).collect()
}

/// Two lines whose watch list is as long as may be; all but the first of the second's deadlines may be cut.
const FIRST_PERIOD: u16 = 128;
const SECOND_PERIOD: u16 = 129;

/// The lines at the bound of the watch list.
pub fn most_watched() -> [Row; LINES] {
    std::array::from_fn(|line| {
        let period = if line % 2 == 0 { FIRST_PERIOD } else { SECOND_PERIOD };
        Row { period, deadline: period, cost: 10 }
    })
}

/// A sheet of lines without cuts.
pub fn plain_sheet(supply: Named, rows: &[Row]) -> Vec<u8> {
    let mut sheet = Sheet::on(supply);
    for row in rows {
        sheet.line(*row);
    }
    sheet.end()
}

/// A sheet of eight lines and a number of cuts with eight cites each: after each line from the second on, each of which
/// brings back the full list, the deadlines of the second are cut from the last down.
pub fn sheet(supply: Named, cuts: usize) -> Vec<u8> {
    let mut sheet = Sheet::on(supply);
    let mut left = cuts;
    for (line, row) in most_watched().into_iter().enumerate() {
        sheet.line(row);
        for k in (2..FIRST_PERIOD).rev().filter(|_| line > 0) {
            if left == 0 {
                break;
            }
            let (before, once) = (SECOND_PERIOD * (k - 1), SECOND_PERIOD);
            sheet.cut(SECOND_PERIOD * k, 4, &[before, before, before, before, once, once, once, once]);
            left -= 1;
        }
    }
    sheet.end()
}
