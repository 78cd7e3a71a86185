//! What a comparison counts, and the folder for the cases that differ.

use crate::make::{ILLEGAL, JOB_KINDS, SELDOM_ACCEPTED, SHEET_KINDS};
use crate::run::End;
use crate::supply::Supply;
use crate::verdict::Verdict;
use std::path::PathBuf;

/// How many differing cases are written out.
const WRITTEN: u32 = 50;

/// How many cases of a kind were compared, how many were accepted and how many differ.
#[derive(Clone, Copy, Default)]
pub struct Tally {
    pub compared: u64,
    pub accepted: u64,
    pub differ: u64,
}

/// The kinds of supplies that a sheet can name.
pub const SUPPLY_KINDS: [&str; 4] = ["whole", "timetable", "share of the whole", "share of a timetable"];

/// The kinds of lengths of sheets, each with its longest, in bytes.
pub const LENGTH_KINDS: [(&str, usize); 4] =
    [("up to 100", 100), ("up to 1,000", 1000), ("up to 10,000", 10_000), ("over 10,000", usize::MAX)];

/// The kinds of numbers of phases, each with its most.
pub const PHASE_KINDS: [(&str, usize); 4] =
    [("up to 10", 10), ("up to 100", 100), ("up to 1,000", 1000), ("over 1,000", usize::MAX)];

/// The refusals that sheets and job lists give.
const SHEET_REASONS: [usize; 17] = [1, 2, 3, 4, 5, 6, 8, 9, 10, 11, 16, 17, 18, 19, 20, 21, 22];
const LIST_REASONS: [usize; 4] = [13, 14, 15, 16];

/// The verdicts on accepted sheets over a kind of supply, and how the runs on them end.
#[derive(Clone, Copy, Default)]
pub struct Ends {
    pub fits: u64,
    pub overloaded: u64,
    pub met: u64,
    pub missed: u64,
}

/// Everything that is counted, and the folder for differing cases.
pub struct Counts {
    pub sheets: [Tally; SHEET_KINDS.len()],
    pub lists: [Tally; JOB_KINDS.len()],
    pub sheet_reasons: [u64; 23],
    pub list_reasons: [u64; 23],
    pub with_cuts: u64,
    /// By kind of supply.
    pub ends: [Ends; SUPPLY_KINDS.len()],
    /// Accepted sheets by kind of length.
    pub lengths: [u64; LENGTH_KINDS.len()],
    /// Accepted sheets by kind of the number of phases.
    pub phases: [u64; PHASE_KINDS.len()],
    /// Accepted sheets by the length of their timetable, and by the F of their share; 0 stands for none.
    pub timetables: [u64; 65],
    pub shares: [u64; 65],
    pub own_laws: u64,
    pub own_broken: u64,
    pub folder: PathBuf,
    pub written: u32,
}

impl Counts {
    /// Nothing counted yet.
    pub fn new(folder: PathBuf) -> Counts {
        Counts {
            sheets: [Tally::default(); SHEET_KINDS.len()],
            lists: [Tally::default(); JOB_KINDS.len()],
            sheet_reasons: [0; 23],
            list_reasons: [0; 23],
            with_cuts: 0,
            ends: [Ends::default(); SUPPLY_KINDS.len()],
            lengths: [0; LENGTH_KINDS.len()],
            phases: [0; PHASE_KINDS.len()],
            timetables: [0; 65],
            shares: [0; 65],
            own_laws: 0,
            own_broken: 0,
            folder,
            written: 0,
        }
    }

    /// Writes a differing case into the folder, while there are few of them.
    pub fn keep(&mut self, name: &str, sheet: &[u8], text: &str) {
        if self.written >= WRITTEN {
            return;
        }
        self.written += 1;
        std::fs::create_dir_all(&self.folder).expect("the folder is made");
        std::fs::write(self.folder.join(format!("{name}.sheet")), sheet).expect("the sheet is written");
        std::fs::write(self.folder.join(format!("{name}.txt")), text).expect("the case is written");
    }

    /// Counts a law of this roster's own, and keeps the case where it is broken.
    pub fn law(&mut self, holds: bool, name: &str, sheet: &[u8], text: &str) {
        self.own_laws += 1;
        if !holds {
            self.own_broken += 1;
            self.keep(&format!("own-{name}"), sheet, text);
        }
    }

    /// Counts an accepted sheet of some bytes by its supply, its verdict and its length.
    pub fn accepted(&mut self, supply: &Supply, verdict: Verdict, length: usize) {
        let ends = &mut self.ends[supply_kind(supply)];
        ends.fits += u64::from(verdict == Verdict::Fits);
        ends.overloaded += u64::from(verdict != Verdict::Fits);
        self.lengths[kind_of(&LENGTH_KINDS, length)] += 1;
        self.phases[kind_of(&PHASE_KINDS, supply.phases() as usize)] += 1;
        let (timetable, share) = sizes(supply);
        self.timetables[timetable as usize] += 1;
        self.shares[share as usize] += 1;
    }

    /// Counts the end of a run over a supply.
    pub fn ended(&mut self, supply: &Supply, end: End) {
        let ends = &mut self.ends[supply_kind(supply)];
        ends.met += u64::from(end == End::Met);
        ends.missed += u64::from(end != End::Met);
    }

    /// Prints the sheets by kind, and of the accepted ones the lengths and the sizes of the supplies.
    fn print_sheets(&self) {
        let mut all = Tally::default();
        for (tally, name) in self.sheets.iter().zip(SHEET_KINDS) {
            all.add(tally);
            println!("sheets, {name}: {}", tally.text());
        }
        println!("sheets: {}; {} with cuts", all.text(), self.with_cuts);
        println!("sheets refused by number: {}", numbers(&self.sheet_reasons));
        println!("accepted sheets by length in bytes: {}", named(&self.lengths, &LENGTH_KINDS));
        println!("accepted sheets by number of phases: {}", named(&self.phases, &PHASE_KINDS));
        println!("accepted sheets by length of the timetable: {}", numbers(&self.timetables));
        println!("accepted sheets by F of the share: {}", numbers(&self.shares));
    }

    /// Prints the verdicts and the ends of runs by kind of supply.
    fn print_ends(&self) {
        for (ends, name) in self.ends.iter().zip(SUPPLY_KINDS) {
            let Ends { fits, overloaded, met, missed } = ends;
            let accepted = fits + overloaded;
            println!(
                "{name}: {accepted} accepted, {fits} fits, {overloaded} overloaded; runs {met} met, {missed} missed"
            );
        }
    }

    /// Prints the job lists by kind.
    fn print_lists(&self) {
        let mut all = Tally::default();
        for (tally, name) in self.lists.iter().zip(JOB_KINDS) {
            all.add(tally);
            println!("job lists, {name}: {}", tally.text());
        }
        println!("job lists: {}", all.text());
        println!("job lists refused by number: {}", numbers(&self.list_reasons));
    }

    /// Prints everything.
    pub fn print(&self) {
        self.print_sheets();
        self.print_ends();
        self.print_lists();
        println!("own laws: {} looked at, {} broken", self.own_laws, self.own_broken);
    }

    /// How often each kind of sheet came, and each kind that should be accepted was accepted.
    fn of_sheets(&self) -> Vec<(String, u64)> {
        let kinds = || self.sheets.iter().zip(SHEET_KINDS).enumerate();
        let compared = kinds().map(|(_, (tally, name))| (format!("sheets, {name}"), tally.compared));
        let lawful = kinds().filter(|(kind, _)| !SELDOM_ACCEPTED.contains(kind));
        let accepted = lawful.map(|(_, (tally, name))| (format!("accepted sheets, {name}"), tally.accepted));
        let reasons = SHEET_REASONS.iter().map(|n| (format!("sheets refused {n}"), self.sheet_reasons[*n]));
        compared.chain(accepted).chain(reasons).collect()
    }

    /// How often each length of accepted sheets came, and each number of phases and size of their supplies.
    fn of_sizes(&self) -> Vec<(String, u64)> {
        let lengths = self.lengths.iter().zip(LENGTH_KINDS);
        let lengths = lengths.map(|(times, (name, _))| (format!("accepted sheets of {name} bytes"), *times));
        let phases = self.phases.iter().zip(PHASE_KINDS);
        let phases = phases.map(|(times, (name, _))| (format!("accepted sheets on {name} phases"), *times));
        let rows = self.timetables.iter().enumerate();
        let rows = rows.map(|(length, times)| (format!("accepted sheets with a timetable of length {length}"), *times));
        let shares = self.shares.iter().enumerate();
        let shares = shares.map(|(f, times)| (format!("accepted sheets with a share in {f}"), *times));
        lengths.chain(phases).chain(rows).chain(shares).collect()
    }

    /// How often each verdict came, and each end of a run, over each kind of supply.
    fn of_ends(&self) -> Vec<(String, u64)> {
        let of_one = |(ends, name): (&Ends, &str)| {
            [
                (format!("lines that fit, {name}"), ends.fits),
                (format!("overloaded lines, {name}"), ends.overloaded),
                (format!("runs that meet, {name}"), ends.met),
                (format!("runs that miss, {name}"), ends.missed),
            ]
        };
        self.ends.iter().zip(SUPPLY_KINDS).flat_map(of_one).collect()
    }

    /// How often each kind of job list came, and each kind that should be run was run.
    fn of_lists(&self) -> Vec<(String, u64)> {
        let kinds = || self.lists.iter().zip(JOB_KINDS).enumerate();
        let compared = kinds().map(|(_, (tally, name))| (format!("job lists, {name}"), tally.compared));
        let lawful = kinds().filter(|(kind, _)| *kind != ILLEGAL);
        let accepted = lawful.map(|(_, (tally, name))| (format!("job lists that are run, {name}"), tally.accepted));
        let reasons = LIST_REASONS.iter().map(|n| (format!("job lists refused {n}"), self.list_reasons[*n]));
        compared.chain(accepted).chain(reasons).collect()
    }

    /// Everything that should occur in a comparison of many sheets of all kinds, and did not. Job lists are looked for
    /// only where runs are compared.
    pub fn absent(&self, runs: bool) -> Vec<String> {
        let mut occurred = self.of_sheets();
        occurred.extend(self.of_sizes());
        occurred.extend(self.of_ends());
        occurred.extend(if runs { self.of_lists() } else { Vec::new() });
        occurred.into_iter().filter(|(_, times)| *times == 0).map(|(name, _)| name).collect()
    }
}

impl Tally {
    /// Adds another tally.
    pub fn add(&mut self, other: &Tally) {
        self.compared += other.compared;
        self.accepted += other.accepted;
        self.differ += other.differ;
    }

    /// The tally in words.
    pub fn text(&self) -> String {
        format!("{} compared, {} accepted, {} differ", self.compared, self.accepted, self.differ)
    }
}

/// The numbers that came, each with how often.
fn numbers(reasons: &[u64]) -> String {
    let came = reasons.iter().enumerate().filter(|(_, times)| **times > 0);
    came.map(|(number, times)| format!("{number}: {times}")).collect::<Vec<_>>().join(", ")
}

/// The kind of a supply, for a supply that a sheet can name.
fn supply_kind(supply: &Supply) -> usize {
    match supply {
        Supply::Whole => 0,
        Supply::Timetable { .. } => 1,
        Supply::Share { below, .. } if **below == Supply::Whole => 2,
        Supply::Share { .. } => 3,
    }
}

/// The length of a supply's timetable and the F of its share, 0 where it has none.
fn sizes(supply: &Supply) -> (u32, u32) {
    match supply {
        Supply::Whole => (0, 0),
        Supply::Timetable { length, .. } => (*length, 0),
        Supply::Share { below, f, .. } => (sizes(below).0, *f),
    }
}

/// The first of some kinds whose bound is not passed.
fn kind_of(kinds: &[(&str, usize)], value: usize) -> usize {
    kinds.iter().position(|(_, bound)| value <= *bound).expect("the last kind has no bound")
}

/// The names of some kinds, each with how often it came.
fn named(times: &[u64], kinds: &[(&str, usize)]) -> String {
    times.iter().zip(kinds).map(|(times, (name, _))| format!("{name}: {times}")).collect::<Vec<_>>().join(", ")
}

#[cfg(test)]
mod tests {
    use super::*;
    use crate::random::Random;
    use crate::{make, sheet};

    /// Counts of the accepted ones of so many sheets, without a library.
    fn counted(number: u64) -> Counts {
        let mut counts = Counts::new(PathBuf::new());
        for seed in 0..number {
            let mut random = Random::new(seed);
            let kind = make::sheet_kind(random.word());
            let bytes = make::sheet(&mut random, kind);
            if let Ok(mut roster) = sheet::read(&bytes) {
                let said = roster.verdict();
                counts.accepted(&roster.supply, said, bytes.len());
            }
        }
        counts
    }

    #[test]
    fn sizes_and_verdicts_all_occur_in_10_000_sheets_and_what_does_not_is_named() {
        let mut counts = counted(10_000);
        let absent = |counts: &Counts| -> Vec<String> {
            let all = counts.absent(true).into_iter();
            all.filter(|name| !name.starts_with("sheets") && !name.contains("job") && !name.contains("runs")).collect()
        };
        let of_kinds = absent(&counts).iter().filter(|name| name.starts_with("accepted sheets, ")).count();
        assert_eq!(of_kinds, SHEET_KINDS.len() - SELDOM_ACCEPTED.len());
        assert_eq!(absent(&counts).len(), of_kinds, "{:?}", absent(&counts));
        counts.timetables[17] = 0;
        counts.ends[2].fits = 0;
        assert!(absent(&counts).contains(&"accepted sheets with a timetable of length 17".to_string()));
        assert!(absent(&counts).contains(&"lines that fit, share of the whole".to_string()));
    }
}
