//! The roster in straight Rust: the same algorithms as in the library, without proofs.

use crate::supply::Supply;

#[repr(C)]
#[derive(Clone, Copy, Debug)]
pub struct Row {
    pub period: u16,
    pub deadline: u16,
    pub cost: u16,
}

const NO_ROW: Row = Row { period: 0, deadline: 0, cost: 0 };

impl Row {
    pub fn count(&self, t: u16) -> u16 {
        if t < self.deadline {
            return 0;
        }
        (t - self.deadline) / self.period + 1
    }

    fn deadline_after(&self, t: u16) -> u32 {
        u32::from(self.count(t)) * u32::from(self.period) + u32::from(self.deadline)
    }
}

pub struct Roster<S> {
    pub supply: S,
    rows: [Row; 8],
    lines: usize,
    watched: [u16; 256],
    many: usize,
}

impl<S: Supply> Roster<S> {
    pub fn open(supply: S) -> Roster<S> {
        Roster { supply, rows: [NO_ROW; 8], lines: 0, watched: [0; 256], many: 0 }
    }

    pub fn rows(&self) -> &[Row] {
        &self.rows[..self.lines]
    }

    pub fn watched(&self) -> &[u16] {
        &self.watched[..self.many]
    }

    /// One line more, where it can be taken.
    pub fn enrol(&mut self, row: Row) -> bool {
        let lawful = 1 <= row.period && row.period <= 1000 && 1 <= row.deadline && row.deadline <= row.period;
        if self.lines == 8 || !lawful || row.cost < 1 || row.cost > 1000 {
            return false;
        }
        let mut rows = self.rows;
        rows[self.lines] = row;
        let table = &rows[..self.lines + 1];
        if hyperperiod(table).is_none() {
            return false;
        }
        let Some((watched, many)) = full_list(table) else {
            return false;
        };
        self.rows = rows;
        self.lines += 1;
        self.watched = watched;
        self.many = many;
        true
    }

    /// A deadline need not be looked at any more, where its certificate is accepted.
    pub fn cut(&mut self, deadline: u16, divisor: u16, cites: &[u8]) -> bool {
        if !self.certified(deadline, divisor, cites) {
            return false;
        }
        let mut left = [0; 256];
        let mut many = 0;
        for d in self.watched().iter().copied().filter(|d| *d != deadline) {
            left[many] = d;
            many += 1;
        }
        self.watched = left;
        self.many = many;
        true
    }

    fn certified(&self, deadline: u16, divisor: u16, cites: &[u8]) -> bool {
        let lawful = (1..=1000).contains(&divisor) && cites.len() % 4 == 0 && (4..=32).contains(&cites.len());
        if !lawful || cites_of(cites).any(|(_, weight)| !(1..=1000).contains(&weight)) {
            return false;
        }
        let watched = self.watched();
        if !watched.contains(&deadline) || cites_of(cites).any(|(d, _)| d == deadline || !watched.contains(&d)) {
            return false;
        }
        let covered = |row: &Row| weighed(cites, |t| row.count(t)) >= term(divisor, row.count(deadline));
        if !self.rows().iter().all(covered) {
            return false;
        }
        let least = |t: u16| self.supply.least(t).0;
        weighed(cites, least) <= term(divisor, least(deadline))
    }

    fn exceeds(&self, t: u16) -> bool {
        demand(self.rows(), t) > u32::from(self.supply.least(t).0)
    }

    /// The least overloaded deadline, if there is one.
    pub fn verdict(&self) -> Option<u16> {
        let last = self.watched().iter().copied().find(|d| self.exceeds(*d))?;
        let mut at = 0;
        while let Some(d) = next_deadline(self.rows(), at, last) {
            if self.exceeds(d) {
                return Some(d);
            }
            at = d;
        }
        None
    }
}

/// The cites of a certificate: a deadline and a weight each.
fn cites_of(bytes: &[u8]) -> impl Iterator<Item = (u16, u16)> + '_ {
    bytes.chunks_exact(4).map(|b| (u16::from_be_bytes([b[0], b[1]]), u16::from_be_bytes([b[2], b[3]])))
}

fn term(weight: u16, figure: u16) -> u64 {
    u64::from(weight) * u64::from(figure)
}

fn weighed(cites: &[u8], figure: impl Fn(u16) -> u16) -> u64 {
    cites_of(cites).map(|(d, weight)| term(weight, figure(d))).sum()
}

fn least_common(a: u16, b: u16) -> Option<u16> {
    let step = a.max(b);
    let other = a.min(b);
    let mut m = step;
    while m % other != 0 {
        if m > 30_000 - step {
            return None;
        }
        m += step;
    }
    Some(m)
}

pub fn hyperperiod(rows: &[Row]) -> Option<u16> {
    let mut h = 1;
    for row in rows {
        h = least_common(h, row.period)?;
    }
    Some(h)
}

fn next_rest(rows: &[Row], t: u16) -> Option<u16> {
    for row in rows {
        let past = t % row.period;
        if past != 0 && past < row.deadline {
            return Some(t - past + row.deadline);
        }
    }
    None
}

pub fn first_rest(rows: &[Row]) -> u16 {
    let mut t = 1;
    while let Some(later) = next_rest(rows, t) {
        t = later;
    }
    t
}

fn next_deadline(rows: &[Row], after: u16, end: u16) -> Option<u16> {
    let past = u32::from(end) + 1;
    let mut first = past;
    for row in rows {
        first = first.min(row.deadline_after(after));
    }
    (first < past).then_some(first as u16)
}

fn full_list(rows: &[Row]) -> Option<([u16; 256], usize)> {
    let end = first_rest(rows);
    let mut list = [0; 256];
    let mut many = 0;
    let mut at = 0;
    while let Some(d) = next_deadline(rows, at, end) {
        if many == 256 {
            return None;
        }
        list[many] = d;
        many += 1;
        at = d;
    }
    Some((list, many))
}

pub fn demand(rows: &[Row], t: u16) -> u32 {
    let mut sum = 0;
    for row in rows {
        sum += u32::from(row.count(t)) * u32::from(row.cost);
    }
    sum
}
