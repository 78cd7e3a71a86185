//! The verdict on lines, and the witness where they are overloaded.

use crate::lines::{demand, Line};
use crate::refusal::{roster, Refusal};
use crate::run::Job;
use crate::supply::Supply;

/// The verdict: lines fit, or are overloaded at a deadline.
#[derive(Clone, Copy, Debug, PartialEq, Eq)]
pub enum Verdict {
    Fits,
    OverloadedAt(u32),
}

/// Fits when demand is within least at each watched deadline; else the least deadline of all at which it is not.
pub fn verdict(lines: &[Line], watched: &[u32], least: &mut dyn FnMut(u32) -> u32) -> Verdict {
    if watched.iter().all(|t| demand(lines, *t) <= least(*t)) {
        return Verdict::Fits;
    }
    let mut t = 1;
    loop {
        if lines.iter().any(|line| line.falls_due(t)) && demand(lines, t) > least(t) {
            return Verdict::OverloadedAt(t);
        }
        t += 1;
    }
}

/// The witness list at t: the jobs released at 0, T, 2T, .. due by t at full cost, by release and then line.
pub fn witness_list(lines: &[Line], t: u32) -> Vec<Job> {
    let mut jobs = Vec::new();
    for release in 0..t {
        for (number, line) in lines.iter().enumerate() {
            if release % line.period == 0 && release + line.deadline <= t {
                jobs.push(Job { line: number as u32, release, cost: line.cost });
            }
        }
    }
    jobs
}

/// The witness into a list of some length: the phase and the jobs; 12 where lines fit, 13 where it is short.
pub fn witness(supply: &Supply, lines: &[Line], verdict: Verdict, length: usize) -> Result<(u32, Vec<Job>), Refusal> {
    let t = match verdict {
        Verdict::Fits => return Err(roster(12, 0)),
        Verdict::OverloadedAt(t) => t,
    };
    let jobs = witness_list(lines, t);
    if jobs.len() > length {
        return Err(roster(13, jobs.len() as u32));
    }
    Ok((supply.worst(t as usize), jobs))
}
