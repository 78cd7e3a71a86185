//! The roster: a supply, lines and a watch list, with its calls.

use crate::certificate::{self, Certificate};
use crate::lines::{self, Line};
use crate::refusal::{roster as refused, Refusal};
use crate::run::{self, End, Job};
use crate::supply::Supply;
use crate::verdict::{self, Verdict};

/// A roster. The leasts of its supply are kept as far as they have been walked.
#[derive(Clone, Debug)]
pub struct Roster {
    pub supply: Supply,
    pub lines: Vec<Line>,
    pub watched: Vec<u32>,
    leasts: Vec<u32>,
}

impl Roster {
    /// A roster without lines over a supply.
    pub fn open(supply: Supply) -> Roster {
        Roster { supply, lines: Vec::new(), watched: Vec::new(), leasts: vec![0] }
    }

    /// least(n) of the supply; the row of leasts is walked anew, further, where it does not reach n.
    pub fn least(&mut self, n: u32) -> u32 {
        let n = n as usize;
        if n >= self.leasts.len() {
            let reach = self.watched.iter().copied().max().unwrap_or(0) as usize;
            self.leasts = self.supply.least_up_to(n.max(reach));
        }
        self.leasts[n]
    }

    /// One line more, numbered behind the others; every deadline up to the rest of all of them is then watched.
    pub fn enrol(&mut self, row: Line) -> Result<(), Refusal> {
        self.lines = lines::add(&self.lines, row)?;
        self.watched = lines::full_watch_list(&self.lines);
        Ok(())
    }

    /// Removes a line and sets the full watch list.
    pub fn strike(&mut self, number: u32) -> Result<(), Refusal> {
        if number as usize >= self.lines.len() {
            return Err(refused(7, number));
        }
        self.lines.remove(number as usize);
        self.watched = lines::full_watch_list(&self.lines);
        Ok(())
    }

    /// Writes a new cost into one line and leaves the watch list.
    pub fn recost(&mut self, number: u32, cost: u32) -> Result<(), Refusal> {
        if number as usize >= self.lines.len() {
            return Err(refused(7, number));
        }
        if !(1..=1000).contains(&cost) {
            return Err(refused(4, 0));
        }
        self.lines[number as usize].cost = cost;
        Ok(())
    }

    /// Whether a certificate holds, and else the first check that fails.
    pub fn check(&mut self, certificate: &Certificate) -> Result<(), Refusal> {
        let lines = self.lines.clone();
        let watched = self.watched.clone();
        certificate::check(&lines, &watched, &mut |n| self.least(n), certificate)
    }

    /// Takes a deadline out of the watch list if the certificate holds.
    pub fn cut(&mut self, certificate: &Certificate) -> Result<(), Refusal> {
        self.check(certificate)?;
        self.watched.retain(|t| *t != certificate.deadline);
        Ok(())
    }

    /// The verdict on the lines.
    pub fn verdict(&mut self) -> Verdict {
        let lines = self.lines.clone();
        let watched = self.watched.clone();
        verdict::verdict(&lines, &watched, &mut |n| self.least(n))
    }

    /// The witness into a list of some length.
    pub fn witness(&mut self, length: usize) -> Result<(u32, Vec<Job>), Refusal> {
        let verdict = self.verdict();
        verdict::witness(&self.supply, &self.lines, verdict, length)
    }

    /// The run of a job list in a phase.
    pub fn run(&self, phase: u32, jobs: &[Job], slots: &mut [u16]) -> Result<End, Refusal> {
        run::run(&self.supply, phase, &self.lines, jobs, slots)
    }
}

#[cfg(test)]
mod tests {
    use super::*;
    use crate::certificate::Cite;
    use crate::lines::line;

    /// A roster over a supply with lines of period, deadline and cost.
    fn with(supply: Supply, rows: &[(u32, u32, u32)]) -> Roster {
        let mut roster = Roster::open(supply);
        for (t, d, c) in rows {
            roster.enrol(line(*t, *d, *c)).unwrap();
        }
        roster
    }

    /// A certificate from a deadline, a divisor and deadlines cited with weight 1.
    fn by(deadline: u32, divisor: u32, cited: &[u32]) -> Certificate {
        let cites = cited.iter().map(|c| Cite { deadline: *c, weight: 1 }).collect();
        Certificate { deadline, divisor, cites }
    }

    const A: [(u32, u32, u32); 3] = [(7, 5, 3), (11, 7, 2), (13, 10, 3)];
    const E: [(u32, u32, u32); 2] = [(8, 6, 2), (13, 12, 10)];

    #[test]
    fn cuts_of_c() {
        let mut c = with(Supply::Whole, &[(9, 7, 1), (15, 12, 1)]);
        c.cut(&by(25, 1, &[16, 7])).unwrap();
        assert_eq!(c.watched, [7, 12, 16, 27]);
    }

    #[test]
    fn cuts_of_e() {
        let mut e = with(Supply::Whole, &E);
        assert_eq!(e.cut(&by(25, 1, &[12, 14])), Err(refused(11, 0)));
        e.cut(&by(25, 2, &[38, 12])).unwrap();
        assert_eq!(e.verdict(), Verdict::OverloadedAt(25));
        e.cut(&by(22, 1, &[14, 6])).unwrap();
        e.cut(&by(30, 1, &[14, 14])).unwrap();
        assert_eq!(e.watched, [6, 12, 14, 38]);
        let share = Supply::share(Supply::Whole, 2, 3).unwrap();
        let mut e = with(share, &E);
        assert_eq!(e.cut(&by(25, 2, &[38, 12])), Err(refused(11, 0)));
        assert_eq!((e.least(38) + e.least(12), 2 * e.least(25)), (33, 32));
    }

    #[test]
    fn cuts_and_verdicts_of_a() {
        let mut a = with(Supply::Whole, &A);
        assert_eq!(a.verdict(), Verdict::Fits);
        assert_eq!(a.witness(100), Err(refused(12, 0)));
        a.cut(&by(62, 1, &[40, 12, 10])).unwrap();
        a.cut(&by(19, 1, &[7, 12])).unwrap();
        assert_eq!(a.verdict(), Verdict::Fits);
        assert_eq!(a.cut(&by(26, 1, &[7, 19])), Err(refused(8, 2)));
        a.recost(1, 3).unwrap();
        a.recost(2, 4).unwrap();
        assert_eq!(a.verdict(), Verdict::OverloadedAt(12));
        assert_eq!(a.witness(3), Err(refused(13, 4)));
        let (phase, jobs) = a.witness(4).unwrap();
        let plain: Vec<_> = jobs.iter().map(|j| (j.line, j.release, j.cost)).collect();
        assert_eq!((phase, plain), (0, vec![(0, 0, 3), (1, 0, 3), (2, 0, 4), (0, 7, 3)]));
        let mut slots = [0; 12];
        assert_eq!(a.run(phase, &jobs, &mut slots), Ok(End::Missed { job: 3, at: 12 }));
    }

    #[test]
    fn all_but_five_of_a_are_cut() {
        let mut a = with(Supply::Whole, &A);
        let keep = [5, 7, 10, 12, 40];
        for d in a.watched.clone() {
            if keep.contains(&d) {
                continue;
            }
            let mut found = false;
            for code in 1..6u32.pow(8) {
                let cited: Vec<u32> =
                    (0..8).map(|i| code / 6u32.pow(i) % 6).filter(|x| *x > 0).map(|x| keep[x as usize - 1]).collect();
                if a.cut(&by(d, 1, &cited)).is_ok() {
                    found = true;
                    break;
                }
            }
            assert!(found, "{d}");
        }
        assert_eq!(a.watched, keep);
    }

    #[test]
    fn verdicts_of_b() {
        let share = || Supply::share(Supply::Whole, 2, 3).unwrap();
        assert_eq!(with(Supply::Whole, &[(8, 5, 2), (15, 9, 5)]).verdict(), Verdict::Fits);
        assert_eq!(with(share(), &[(8, 5, 2), (15, 9, 5)]).verdict(), Verdict::OverloadedAt(9));
        assert_eq!(with(share(), &[(8, 5, 2), (15, 9, 4)]).verdict(), Verdict::Fits);
    }

    #[test]
    fn strike_and_the_order_of_checks() {
        let mut a = with(Supply::Whole, &A);
        assert_eq!(a.strike(3), Err(refused(7, 3)));
        assert_eq!(a.recost(3, 0), Err(refused(7, 3)));
        assert_eq!(a.recost(0, 0), Err(refused(4, 0)));
        a.strike(0).unwrap();
        assert_eq!(a.watched, lines::full_watch_list(&[line(11, 7, 2), line(13, 10, 3)]));
        assert_eq!(a.cut(&by(1, 0, &[])), Err(refused(9, 0)));
        assert_eq!(a.cut(&by(1, 1, &[])), Err(refused(9, 0)));
        assert_eq!(a.cut(&by(1, 1, &[7; 9])), Err(refused(9, 0)));
        assert_eq!(a.cut(&by(1, 1, &[7])), Err(refused(8, 0)));
        assert_eq!(a.cut(&by(7, 1, &[10, 7])), Err(refused(8, 2)));
        assert_eq!(a.cut(&by(10, 1, &[7])), Err(refused(10, 1)));
        let mut heavy = by(10, 1, &[7, 7]);
        heavy.cites[1].weight = 1001;
        assert_eq!(a.cut(&heavy), Err(refused(9, 2)));
    }
}
