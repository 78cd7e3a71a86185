//! Runs in straight Rust: with a ready table as in the library, with a heap, and slot by slot over all jobs.

use crate::roster::Row;
use crate::supply::Supply;
use std::cmp::Reverse;
use std::collections::BinaryHeap;
pub use zucchinicove::Job;

pub const NOT_GIVEN: u16 = 65_535;

/// How a run ends: all met, or the job that misses its deadline and the instant.
pub type End = Option<(u16, u16)>;

fn deadline(rows: &[Row], job: &Job) -> u16 {
    job.release + rows[usize::from(job.line)].deadline
}

/// The largest deadline, where the jobs are in order, in range and a period apart.
pub fn checked(rows: &[Row], jobs: &[Job]) -> Option<u16> {
    if jobs.len() > 2048 {
        return None;
    }
    let mut last = 0;
    let mut free = [0; 8];
    let mut largest = 0;
    for job in jobs {
        let row = rows.get(usize::from(job.line))?;
        if job.cost < 1 || job.cost > row.cost || job.release < last || job.release < free[usize::from(job.line)] {
            return None;
        }
        if job.release > 32_000 - row.deadline {
            return None;
        }
        last = job.release;
        free[usize::from(job.line)] = job.release + row.period;
        largest = largest.max(job.release + row.deadline);
    }
    Some(largest)
}

#[derive(Clone, Copy)]
struct Ready {
    place: u16,
    deadline: u16,
    left: u16,
}

impl Ready {
    fn is_before(&self, other: &Ready) -> bool {
        (self.deadline, self.place) < (other.deadline, other.place)
    }
}

/// One job for each line, and the line of the foremost beside them.
struct Table {
    jobs: [Ready; 8],
    foremost: Option<usize>,
}

impl Table {
    fn find_foremost(&mut self) {
        self.foremost = None;
        for line in 0..self.jobs.len() {
            let job = &self.jobs[line];
            if job.left > 0 && self.foremost.map_or(true, |first| job.is_before(&self.jobs[first])) {
                self.foremost = Some(line);
            }
        }
    }

    fn put(&mut self, line: usize, job: Ready) {
        self.jobs[line] = job;
        match self.foremost {
            Some(first) if first == line => self.find_foremost(),
            Some(first) if !job.is_before(&self.jobs[first]) => {}
            _ => self.foremost = Some(line),
        }
    }

    fn serve(&mut self) -> Option<u16> {
        let line = self.foremost?;
        let job = &mut self.jobs[line];
        let place = job.place;
        job.left -= 1;
        if job.left == 0 {
            self.find_foremost();
        }
        Some(place)
    }

    fn overdue(&self, at: u16) -> Option<u16> {
        let job = &self.jobs[self.foremost?];
        (job.deadline <= at).then_some(job.place)
    }
}

/// With a table of one job for each line.
pub fn with_table<S: Supply>(supply: &S, phase: u32, rows: &[Row], jobs: &[Job], slots: &mut [u16]) -> End {
    let end = checked(rows, jobs).expect("a lawful list");
    slots.fill(NOT_GIVEN);
    let mut table = Table { jobs: [Ready { place: 0, deadline: 0, left: 0 }; 8], foremost: None };
    let mut next = 0;
    let mut before = 0;
    for s in 0..end {
        while next < jobs.len() && jobs[next].release <= s {
            let job = &jobs[next];
            let ready = Ready { place: next as u16, deadline: deadline(rows, job), left: job.cost };
            table.put(usize::from(job.line), ready);
            next += 1;
        }
        let after = supply.count(phase, s + 1);
        if after > before {
            slots[usize::from(s)] = table.serve().map_or(0, |place| 1 + place);
        }
        before = after;
        if let Some(place) = table.overdue(s + 1) {
            return Some((place, s + 1));
        }
    }
    None
}

/// With a heap of the jobs that are ready, and what is left of each beside it.
pub fn with_heap<S: Supply>(supply: &S, phase: u32, rows: &[Row], jobs: &[Job], slots: &mut [u16]) -> End {
    let end = checked(rows, jobs).expect("a lawful list");
    slots.fill(NOT_GIVEN);
    let mut ready: BinaryHeap<Reverse<(u16, u16)>> = BinaryHeap::new();
    let mut left: Vec<u16> = jobs.iter().map(|job| job.cost).collect();
    let mut next = 0;
    let mut before = 0;
    for s in 0..end {
        while next < jobs.len() && jobs[next].release <= s {
            ready.push(Reverse((deadline(rows, &jobs[next]), next as u16)));
            next += 1;
        }
        let after = supply.count(phase, s + 1);
        if after > before {
            slots[usize::from(s)] = 0;
            if let Some(Reverse((_, place))) = ready.peek() {
                slots[usize::from(s)] = 1 + place;
                let left = &mut left[usize::from(*place)];
                *left -= 1;
                if *left == 0 {
                    ready.pop();
                }
            }
        }
        before = after;
        if let Some(Reverse((due, place))) = ready.peek() {
            if *due <= s + 1 {
                return Some((*place, s + 1));
            }
        }
    }
    None
}

/// Slot by slot, looking at every job.
pub fn job_by_job<S: Supply>(supply: &S, phase: u32, rows: &[Row], jobs: &[Job], slots: &mut [u16]) -> End {
    let end = checked(rows, jobs).expect("a lawful list");
    slots.fill(NOT_GIVEN);
    let mut left: Vec<u16> = jobs.iter().map(|job| job.cost).collect();
    for s in 0..end {
        if supply.count(phase, s + 1) > supply.count(phase, s) {
            let chosen = (0..jobs.len())
                .filter(|k| left[*k] > 0 && jobs[*k].release <= s)
                .min_by_key(|k| deadline(rows, &jobs[*k]));
            slots[usize::from(s)] = match chosen {
                Some(k) => {
                    left[k] -= 1;
                    1 + k as u16
                }
                None => 0,
            };
        }
        let late = (0..jobs.len()).find(|k| left[*k] > 0 && deadline(rows, &jobs[*k]) <= s + 1);
        if let Some(k) = late {
            return Some((k as u16, s + 1));
        }
    }
    None
}
