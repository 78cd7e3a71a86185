//! Compares this second roster with the library on seeded sheets and job lists, and prints how many differ.
//!
//! `compare seed number [folder] [program] [kind]`: so many sheets from the seed; differing cases go into the folder.
//! Where the path of a report program is given, and not `-`, only reports are compared, with that program. With the
//! number of a kind, from 0, only sheets of that kind are made. It ends with an error where anything differs, where no
//! sheet was compared, and where in 10,000 sheets of all kinds or more something never occurred that should.

use second::counts::Counts;
use second::library::{open, Library, ReportProgram};
use second::lines::full_watch_list;
use second::make::{self, JobCase};
use second::random::Random;
use second::refusal::Refusal;
use second::roster::Roster;
use second::run::{deadlines, End};
use second::sheet::{self, SheetRefusal};
use second::verdict::{verdict, Verdict};
use std::path::PathBuf;

/// From so many sheets of all kinds on, each kind that should occur has to.
const MANY: u64 = 10_000;

/// How many job lists are run on an accepted sheet.
const LISTS: u64 = 2;

/// What a slot list holds before a run.
const BEFORE: u16 = 4_660;

/// Compares the report and the verdict on a sheet.
fn compare_sheet(
    library: &mut dyn Library,
    counts: &mut Counts,
    kind: usize,
    name: &str,
    bytes: &[u8],
) -> Result<Roster, SheetRefusal> {
    let mut reading = sheet::read(bytes);
    let ours = sheet::report_on(&mut reading);
    counts.sheets[kind].compared += 1;
    match reading.as_mut() {
        Err(refused) => counts.sheet_reasons[refused.refusal.number as usize] += 1,
        Ok(roster) => {
            counts.sheets[kind].accepted += 1;
            let full = full_watch_list(&roster.lines);
            counts.with_cuts += u64::from(roster.watched.len() < full.len());
            let said = roster.verdict();
            counts.accepted(&roster.supply, said, bytes.len());
            let lines = roster.lines.clone();
            let exact = verdict(&lines, &full, &mut |n| roster.least(n)) == said;
            counts.law(exact, name, bytes, "the verdict changes with the cuts");
        }
    }
    let mut differences = String::new();
    let theirs = library.report(bytes);
    if theirs != ours {
        let text = |report: &[u8]| String::from_utf8_lossy(report).into_owned();
        differences += &format!("report\nours:\n{}theirs:\n{}", text(&ours), text(&theirs));
    }
    if let Some(difference) = library.check_sheet(bytes, &mut reading) {
        differences += &difference;
    }
    if !differences.is_empty() {
        counts.sheets[kind].differ += 1;
        counts.keep(&format!("sheet-{name}"), bytes, &differences);
    }
    reading
}

/// Whether some window holds fewer given slots than the jobs ask for that are released and due in it: then no schedule
/// meets every deadline, and else one does.
fn crowded(roster: &Roster, case: &JobCase) -> bool {
    let deadlines = deadlines(&roster.lines, &case.jobs).expect("the list has been run");
    let given = roster.supply.slots(case.phase, deadlines.iter().copied().max().unwrap_or(0) as usize);
    let mut held = vec![0];
    for slot in &given {
        held.push(held[held.len() - 1] + u32::from(*slot));
    }
    let jobs = || case.jobs.iter().zip(&deadlines);
    case.jobs.iter().any(|first| {
        deadlines.iter().filter(|end| **end > first.release).any(|end| {
            let inside = jobs().filter(|(job, due)| job.release >= first.release && **due <= *end);
            let asked: u32 = inside.map(|(job, _)| job.cost).sum();
            asked > held[*end as usize] - held[first.release as usize]
        })
    })
}

/// Compares the run of a job list on an accepted sheet.
fn compare_list(
    library: &mut dyn Library,
    counts: &mut Counts,
    name: &str,
    bytes: &[u8],
    roster: &mut Roster,
    case: &JobCase,
) {
    let kind = case.kind;
    let mut slots = vec![BEFORE; case.slots];
    let ours: Result<End, Refusal> = roster.run(case.phase, &case.jobs, &mut slots);
    let said = roster.verdict();
    match ours {
        Err(refused) => counts.list_reasons[refused.number as usize] += 1,
        Ok(end) => {
            counts.lists[kind].accepted += 1;
            counts.ended(&roster.supply, end);
            if said == Verdict::Fits {
                let text = format!("lines fit, and {case:?} ends {end:?}");
                counts.law(end == End::Met, name, bytes, &text);
            }
            if case.jobs.len() <= 40 {
                let text = format!("{case:?} ends {end:?}");
                counts.law(crowded(roster, case) == (end != End::Met), name, bytes, &text);
            }
        }
    }
    if let (make::WITNESS, Verdict::OverloadedAt(t), Ok(end)) = (kind, said, ours) {
        let lost = matches!(end, End::Missed { at, .. } if at <= t);
        counts.law(lost, name, bytes, &format!("the witness {case:?} ends {end:?}"));
    }
    if library.runs() {
        let mut theirs_slots = vec![BEFORE; case.slots];
        let theirs = library.run(bytes, case.phase, &case.jobs, &mut theirs_slots);
        counts.lists[kind].compared += 1;
        if theirs != ours || theirs_slots != slots {
            counts.lists[kind].differ += 1;
            let text = format!(
                "{case:?}\nours: {ours:?}\ntheirs: {theirs:?}\nour slots: {slots:?}\ntheir slots: {theirs_slots:?}\n"
            );
            counts.keep(&format!("list-{name}"), bytes, &text);
        }
    }
}

/// Why the whole is no success: no sheets, a difference, a broken law, or kinds that should occur and did not.
fn faults(counts: &Counts, number: u64, all_kinds: bool, runs: bool) -> Vec<String> {
    let mut faults = Vec::new();
    if number == 0 {
        faults.push("no sheets were compared".to_string());
    }
    if counts.sheets.iter().chain(&counts.lists).any(|tally| tally.differ > 0) {
        faults.push(format!("some cases differ: see {}", counts.folder.display()));
    }
    if counts.own_broken > 0 {
        faults.push(format!("laws of this roster's own are broken: see {}", counts.folder.display()));
    }
    if all_kinds && number >= MANY {
        faults.extend(counts.absent(runs).iter().map(|name| format!("none occurred: {name}")));
    }
    faults
}

fn main() {
    let arguments: Vec<String> = std::env::args().collect();
    let figure = |i: usize, otherwise: u64| arguments.get(i).map_or(otherwise, |a| a.parse().expect("a number"));
    let seed = figure(1, 1);
    let number = figure(2, 1000);
    let folder = PathBuf::from(arguments.get(3).map_or("differ", |a| a.as_str()));
    let only: Option<usize> = arguments.get(5).map(|a| a.parse().expect("the number of a kind"));
    let mut library: Box<dyn Library> = match arguments.get(4).filter(|path| *path != "-") {
        Some(path) => Box::new(ReportProgram { path: path.clone() }),
        None => open().expect("the library is linked, or a report program is named"),
    };
    let mut counts = Counts::new(folder);
    for i in 0..number {
        let mut random = Random::new(seed.wrapping_mul(1 << 32).wrapping_add(i));
        let mixed = make::sheet_kind(random.word());
        let kind = only.unwrap_or(mixed);
        let bytes = make::sheet(&mut random, kind);
        let name = format!("{seed}-{i}");
        if let Ok(mut roster) = compare_sheet(library.as_mut(), &mut counts, kind, &name, &bytes) {
            for list in 0..LISTS {
                let kind = make::job_kind(random.word());
                let case = make::jobs(&mut random, kind, &mut roster);
                let name = format!("{name}-{list}");
                compare_list(library.as_mut(), &mut counts, &name, &bytes, &mut roster, &case);
            }
        }
    }
    counts.print();
    let faults = faults(&counts, number, only.is_none(), library.runs());
    for fault in &faults {
        eprintln!("compare: {fault}");
    }
    if !faults.is_empty() {
        std::process::exit(1);
    }
}
