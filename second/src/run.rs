//! The run: earliest deadline first over a job list, slot by slot, looking at every job in every slot.

use crate::lines::Line;
use crate::refusal::{run as refused, Refusal};
use crate::supply::Supply;

/// The entry of a slot that is not given, and of every slot from the stop on.
pub const NOT_GIVEN: u16 = 65_535;

/// A job: the number of its line, its release and its cost.
#[derive(Clone, Copy, Debug, PartialEq, Eq)]
pub struct Job {
    pub line: u32,
    pub release: u32,
    pub cost: u32,
}

/// How a run ends: all is met, or a job is missed at an instant.
#[derive(Clone, Copy, Debug, PartialEq, Eq)]
pub enum End {
    Met,
    Missed { job: u32, at: u32 },
}

/// Checks a job list and gives the deadlines: 16 for the number of jobs, then for each job 14, 15 and 16.
pub fn deadlines(lines: &[Line], jobs: &[Job]) -> Result<Vec<u32>, Refusal> {
    if jobs.len() > 2048 {
        return Err(refused(16, 0));
    }
    let mut deadlines = Vec::new();
    for (i, job) in jobs.iter().enumerate() {
        let place = i as u32;
        let line = match lines.get(job.line as usize) {
            Some(line) => line,
            None => return Err(refused(14, place)),
        };
        if !(1..=line.cost).contains(&job.cost) {
            return Err(refused(14, place));
        }
        if i > 0 && job.release < jobs[i - 1].release {
            return Err(refused(15, place));
        }
        if let Some(last) = jobs[..i].iter().rev().find(|other| other.line == job.line) {
            if job.release < last.release + line.period {
                return Err(refused(15, place));
            }
        }
        if job.release > 32_000 - line.deadline {
            return Err(refused(16, place));
        }
        deadlines.push(job.release + line.deadline);
    }
    Ok(deadlines)
}

/// Runs a job list in a phase of a supply and fills the slot list.
pub fn run(supply: &Supply, phase: u32, lines: &[Line], jobs: &[Job], slots: &mut [u16]) -> Result<End, Refusal> {
    let deadlines = deadlines(lines, jobs)?;
    let last = deadlines.iter().copied().max().unwrap_or(0);
    if slots.len() < last as usize {
        return Err(refused(13, last));
    }
    let given = supply.slots(phase, last as usize);
    let mut left: Vec<u32> = jobs.iter().map(|job| job.cost).collect();
    slots.fill(NOT_GIVEN);
    for now in 0..=last {
        for i in 0..jobs.len() {
            if deadlines[i] <= now && left[i] > 0 {
                return Ok(End::Missed { job: i as u32, at: now });
            }
        }
        if now == last || !given[now as usize] {
            continue;
        }
        let mut chosen: Option<usize> = None;
        for i in 0..jobs.len() {
            if jobs[i].release <= now && left[i] > 0 && chosen.is_none_or(|c| deadlines[i] < deadlines[c]) {
                chosen = Some(i);
            }
        }
        slots[now as usize] = match chosen {
            None => 0,
            Some(i) => {
                left[i] -= 1;
                i as u16 + 1
            }
        };
    }
    Ok(End::Met)
}

#[cfg(test)]
mod tests {
    use super::*;
    use crate::lines::line;

    /// A job from its three figures.
    fn job(line: u32, release: u32, cost: u32) -> Job {
        Job { line, release, cost }
    }

    #[test]
    fn the_known_witness_misses_job_3_at_12() {
        let lines = [line(7, 5, 3), line(11, 7, 3), line(13, 10, 4)];
        let jobs = [job(0, 0, 3), job(1, 0, 3), job(2, 0, 4), job(0, 7, 3)];
        let mut slots = [7; 14];
        let end = run(&Supply::Whole, 0, &lines, &jobs, &mut slots);
        assert_eq!(end, Ok(End::Missed { job: 3, at: 12 }));
        let n = NOT_GIVEN;
        assert_eq!(slots, [1, 1, 1, 2, 2, 2, 3, 3, 3, 3, 4, 4, n, n]);
    }

    #[test]
    fn slots_that_are_not_given_and_idle_slots() {
        let row = Supply::timetable(4, 3).unwrap();
        let lines = [line(8, 8, 2)];
        let mut slots = [7; 10];
        assert_eq!(run(&row, 5, &lines, &[job(0, 1, 2)], &mut slots), Ok(End::Met));
        let n = NOT_GIVEN;
        assert_eq!(slots, [0, n, n, 1, 1, n, n, 0, 0, n]);
        let mut short = [7; 8];
        assert_eq!(run(&row, 5, &lines, &[job(0, 1, 2)], &mut short), Err(refused(13, 9)));
        assert_eq!(short, [7; 8]);
    }

    #[test]
    fn refused_lists() {
        let lines = [line(8, 5, 2), line(15, 9, 4)];
        let check = |jobs: &[Job]| deadlines(&lines, jobs).map(|_| ());
        assert_eq!(check(&[]), Ok(()));
        assert_eq!(check(&[job(2, 0, 1)]), Err(refused(14, 0)));
        assert_eq!(check(&[job(0, 0, 1), job(1, 0, 5)]), Err(refused(14, 1)));
        assert_eq!(check(&[job(0, 0, 0)]), Err(refused(14, 0)));
        assert_eq!(check(&[job(0, 4, 1), job(1, 3, 1)]), Err(refused(15, 1)));
        assert_eq!(check(&[job(0, 4, 1), job(1, 4, 1), job(0, 11, 1)]), Err(refused(15, 2)));
        assert_eq!(check(&[job(0, 4, 1), job(1, 4, 1), job(0, 12, 1)]), Ok(()));
        assert_eq!(check(&[job(0, 31_995, 1)]), Ok(()));
        assert_eq!(check(&[job(0, 31_996, 1)]), Err(refused(16, 0)));
        assert_eq!(check(&vec![job(9, 0, 0); 2049]), Err(refused(16, 0)));
        assert_eq!(check(&vec![job(9, 0, 0); 2048]), Err(refused(14, 0)));
    }
}
