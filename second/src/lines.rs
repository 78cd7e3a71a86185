//! Lines: counts, demand, hyperperiod, first rest point and full watch list, all found by walking.

use crate::refusal::{self, Refusal};

/// A line: period, deadline and cost; also the plain row from which it is made.
#[derive(Clone, Copy, Debug, PartialEq, Eq)]
pub struct Line {
    pub period: u32,
    pub deadline: u32,
    pub cost: u32,
}

impl Line {
    /// Checks a row: 2 for the period, 3 for the deadline, 4 for the cost.
    pub fn checked(self) -> Result<Line, Refusal> {
        if !(1..=1000).contains(&self.period) {
            return Err(refusal::roster(2, 0));
        }
        if !(1..=self.period).contains(&self.deadline) {
            return Err(refusal::roster(3, 0));
        }
        if !(1..=1000).contains(&self.cost) {
            return Err(refusal::roster(4, 0));
        }
        Ok(self)
    }

    /// The count at t: the jobs released at 0, T, 2T, .. that fall due by t, counted one by one.
    pub fn count(&self, t: u32) -> u32 {
        let mut jobs = 0;
        let mut due = self.deadline;
        while due <= t {
            jobs += 1;
            due += self.period;
        }
        jobs
    }

    /// Whether t is a deadline of a job released at 0, T, 2T, ..
    pub fn falls_due(&self, t: u32) -> bool {
        t >= self.deadline && (t - self.deadline) % self.period == 0
    }

    /// Whether no job of the line lies across t.
    pub fn rests(&self, t: u32) -> bool {
        t % self.period == 0 || t % self.period >= self.deadline
    }
}

/// Demand at t: the cost of all jobs that fall due by t.
pub fn demand(lines: &[Line], t: u32) -> u32 {
    lines.iter().map(|line| line.count(t) * line.cost).sum()
}

/// The hyperperiod where it is at most 30,000: the first instant that every period divides.
pub fn hyperperiod(lines: &[Line]) -> Option<u32> {
    let step = lines.iter().map(|line| line.period).max().unwrap_or(1);
    (1..=30_000 / step).map(|k| k * step).find(|h| lines.iter().all(|line| h % line.period == 0))
}

/// The first rest point: the first t from 1 on at which every line rests.
pub fn first_rest(lines: &[Line]) -> u32 {
    let mut t = 1;
    while !lines.iter().all(|line| line.rests(t)) {
        t += 1;
    }
    t
}

/// The full watch list: every deadline up to the first rest point, rising, each once.
pub fn full_watch_list(lines: &[Line]) -> Vec<u32> {
    (1..=first_rest(lines)).filter(|t| lines.iter().any(|line| line.falls_due(*t))).collect()
}

/// Adds a line to a set of lines: 1; 2, 3, 4; then 5 and 6 for all lines with the new one.
pub fn add(lines: &[Line], row: Line) -> Result<Vec<Line>, Refusal> {
    if lines.len() >= 8 {
        return Err(refusal::roster(1, 0));
    }
    let mut all = lines.to_vec();
    all.push(row.checked()?);
    if hyperperiod(&all).is_none() {
        return Err(refusal::roster(5, 0));
    }
    if full_watch_list(&all).len() > 256 {
        return Err(refusal::roster(6, 0));
    }
    Ok(all)
}

/// A line from its three figures.
pub fn line(period: u32, deadline: u32, cost: u32) -> Line {
    Line { period, deadline, cost }
}

#[cfg(test)]
mod tests {
    use super::*;

    /// Lines of cost 1 from periods and deadlines.
    fn of(rows: &[(u32, u32)]) -> Vec<Line> {
        rows.iter().map(|(t, d)| line(*t, *d, 1)).collect()
    }

    #[test]
    fn known_rest_points_and_watch_lists() {
        assert_eq!(first_rest(&[]), 1);
        assert_eq!(full_watch_list(&[]), []);
        assert_eq!(hyperperiod(&[]), Some(1));
        let b = of(&[(8, 5), (15, 9)]);
        assert_eq!(first_rest(&b), 13);
        assert_eq!(full_watch_list(&b), [5, 9, 13]);
        let c = of(&[(9, 7), (15, 12)]);
        assert_eq!(first_rest(&c), 27);
        assert_eq!(full_watch_list(&c), [7, 12, 16, 25, 27]);
        let e = of(&[(8, 6), (13, 12)]);
        assert_eq!(first_rest(&e), 38);
        assert_eq!(full_watch_list(&e), [6, 12, 14, 22, 25, 30, 38]);
        let a = of(&[(7, 5), (11, 7), (13, 10)]);
        assert_eq!(first_rest(&a), 62);
        assert_eq!(full_watch_list(&a).len(), 18);
        assert_eq!(a.iter().map(|l| l.count(40)).collect::<Vec<_>>(), [6, 4, 3]);
        assert_eq!(hyperperiod(&a), Some(1001));
        assert_eq!((1..=1001).filter(|t| a.iter().any(|l| l.falls_due(*t))).count(), 281);
    }

    #[test]
    fn known_bounds() {
        let two = add(&of(&[(128, 128)]), line(129, 129, 1)).unwrap();
        assert_eq!(full_watch_list(&two).len(), 256);
        assert_eq!(add(&of(&[(129, 129)]), line(130, 130, 1)), Err(refusal::roster(6, 0)));
        assert!(add(&of(&[(625, 1)]), line(48, 1, 1)).is_ok());
        assert_eq!(add(&of(&[(200, 200)]), line(199, 199, 1)), Err(refusal::roster(5, 0)));
    }

    #[test]
    fn rows_out_of_range() {
        assert_eq!(line(0, 0, 0).checked(), Err(refusal::roster(2, 0)));
        assert_eq!(line(1001, 1, 1).checked(), Err(refusal::roster(2, 0)));
        assert_eq!(line(8, 9, 0).checked(), Err(refusal::roster(3, 0)));
        assert_eq!(line(8, 0, 0).checked(), Err(refusal::roster(3, 0)));
        assert_eq!(line(8, 8, 0).checked(), Err(refusal::roster(4, 0)));
        assert_eq!(line(8, 8, 1001).checked(), Err(refusal::roster(4, 0)));
        assert!(line(1000, 1000, 1000).checked().is_ok());
    }

    #[test]
    fn counts_by_the_formula() {
        let l = line(7, 5, 1);
        for t in 0..200 {
            let formula = if t < 5 { 0 } else { (t - 5) / 7 + 1 };
            assert_eq!(l.count(t), formula);
        }
    }
}
