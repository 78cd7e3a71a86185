//! How long the library's answers take, beside straight Rust of the same algorithms and beside other ways to the same answers.

mod inputs;
mod layouts;
mod library;
mod qpa;
mod roster;
mod runs;
mod sheets;
mod supply;
mod timing;

use inputs::{LINES, LONGEST_HYPERPERIOD, MOST_WATCHED};
use layouts::{keep_shift, Record, Times};
use roster::{hyperperiod, Row};
use std::fmt::Debug;
use std::fs::File;
use std::hint::black_box;
use supply::{Named, Share, Supply, Timetable, Whole};
use timing::{medians, Side};

/// The timetable: three slots in four are given.
const TIMETABLE: Timetable = Timetable { length: 64, word: 0x7777_7777_7777_7777 };

/// Each share of a pile has so many slots in so many.
const GIVEN: u8 = 63;
const OF: u8 = 64;

/// How often an answer is made within one repetition.
const OFTEN: u32 = 200;

/// A slow answer, and a report or the run of the longest list.
const SELDOM: u32 = 1;
const FEW: u32 = 5;

/// The longest job list.
const MOST_JOBS: usize = 2048;

/// What each job costs on the whole processor, where eight take 96 of 124 slots, and on a part of it.
const LONG_JOB: u16 = 12;
const SHORT_JOB: u16 = 8;

/// The rosters that are judged for one figure.
const ROSTERS: usize = 5;

const LIBRARY: &str = "library";
const STRAIGHT: &str = "straight Rust";

/// The program, which ends with an error where two sides differ.
struct Bench {
    repetitions: usize,
    times: Times,
    differ: usize,
}

impl Bench {
    /// Holds the answers of all sides to that of the first, which is the library.
    fn compare<A: PartialEq + Debug>(&mut self, what: &str, sides: &mut [Side<A>]) {
        let first = (sides[0].answer)(1);
        for side in &mut sides[1..] {
            let answer = (side.answer)(1);
            if answer != first {
                println!("{what}: {LIBRARY} {first:?}, {} {answer:?}", side.name);
                self.differ += 1;
            }
        }
    }

    /// The medians of the sides, after their answers were compared.
    fn time<A: PartialEq + Debug>(&mut self, what: &str, sides: &mut [Side<A>]) -> Vec<f64> {
        self.compare(what, sides);
        let repetitions = self.repetitions;
        self.times.next(|| medians(repetitions, sides))
    }
}

fn heading(columns: &[&str]) {
    println!("\n| {} |", columns.join(" | "));
    println!("|{}", "---|".repeat(columns.len()));
}

/// A line of a table: the library's time, how it grew from the line before, and the ratios that are named in the heading.
fn line(what: &str, library: f64, before: Option<f64>, ratios: &[Option<f64>]) {
    let grown = before.map_or("-".to_string(), |before| format!("{:.2}", library / before));
    let ratios: Vec<String> = ratios.iter().map(|r| r.map_or("-".to_string(), |r| format!("{r:.2}"))).collect();
    println!("| {what} | {library:.2} | {grown} | {} |", ratios.join(" | "));
}

/// The verdict in straight Rust, asked for a number of times on one roster.
#[inline(never)]
fn straight<S: Supply>(supply: S, rows: &[Row], times: u32) -> Option<u16> {
    let roster = inputs::roster(supply, rows);
    for _ in 1..times {
        black_box(black_box(&roster).verdict());
    }
    roster.verdict()
}

/// The mean over some rosters of the medians of each side.
fn means(all: &[Vec<f64>]) -> Vec<f64> {
    (0..all[0].len()).map(|side| all.iter().map(|times| times[side]).sum::<f64>() / all.len() as f64).collect()
}

/// The verdict over one supply, for lines that fit and for lines just past it.
fn verdicts_on<S: Supply + Copy>(
    bench: &mut Bench,
    rosters: &[[Row; LINES]],
    supply: S,
    ask: &dyn Fn(&[Row], u32) -> Option<u16>,
) -> Vec<f64> {
    let mut all = Vec::new();
    for rows in rosters {
        let rows = inputs::loaded(supply, rows);
        let past = inputs::overloaded(&rows);
        let sides = |rows: [Row; LINES]| {
            [
                Side::often(LIBRARY, OFTEN, move |times| ask(&rows, times)),
                Side::often(STRAIGHT, OFTEN, move |times| straight(supply, &rows, times)),
            ]
        };
        bench.compare("verdict past the load", &mut sides(past));
        all.push(bench.time("verdict", &mut sides(rows)));
    }
    means(&all)
}

/// How the library's verdict on the whole processor stands to the quick test on the same lines: with the roster there, and
/// with all lines enrolled for one verdict. The quick test finds its bound anew each time.
fn quick(bench: &mut Bench, rosters: &[[Row; LINES]]) -> [Option<f64>; 2] {
    let mut all = Vec::new();
    for rows in rosters {
        let rows = inputs::loaded(Whole, rows);
        let past = inputs::overloaded(&rows);
        let all_slots = hyperperiod(&rows).expect("a hyperperiod within its bound");
        let sides = |rows: [Row; LINES]| {
            [
                Side::often(LIBRARY, OFTEN, move |times| library::whole(&rows, times).is_none()),
                Side::single("library with enrolments", OFTEN, move || library::whole(black_box(&rows), 1).is_none()),
                Side::single("QPA", OFTEN, move || qpa::fits(black_box(&rows), all_slots)),
            ]
        };
        bench.compare("quick test past the load", &mut sides(past));
        all.push(bench.time("quick test", &mut sides(rows)));
    }
    let times = means(&all);
    [Some(times[0] / times[2]), Some(times[1] / times[2])]
}

fn verdicts(bench: &mut Bench) {
    heading(&[
        "verdict, by supply and watched deadlines",
        "library µs",
        "grown",
        "library : straight",
        "library : QPA",
        "library with enrolments : QPA",
    ]);
    let one = Share { below: Whole, s: GIVEN, f: OF };
    let two = Share { below: one, s: GIVEN, f: OF };
    let three = Share { below: two, s: GIVEN, f: OF };
    let pile = |shares: u8| move |rows: &[Row], times: u32| library::pile(shares, GIVEN, OF, rows, times);
    let on_timetable = |rows: &[Row], times: u32| library::timetable(TIMETABLE.length, TIMETABLE.word, rows, times);
    let sizes = [30..=34, 60..=68, 124..=132, 248..=MOST_WATCHED];
    let rosters: Vec<_> = sizes.iter().map(|size| inputs::full_rosters(ROSTERS, size.clone(), false)).collect();
    for supply in 0..5 {
        let mut before = None;
        for (size, rosters) in sizes.iter().zip(&rosters) {
            let (name, times) = match supply {
                0 => ("whole", verdicts_on(bench, rosters, Whole, &library::whole)),
                1 => ("timetable of 64", verdicts_on(bench, rosters, TIMETABLE, &on_timetable)),
                2 => ("1 share", verdicts_on(bench, rosters, one, &pile(1))),
                3 => ("2 shares", verdicts_on(bench, rosters, two, &pile(2))),
                _ => ("3 shares", verdicts_on(bench, rosters, three, &pile(3))),
            };
            let [quick, from_rows] = if supply == 0 { quick(bench, rosters) } else { [None, None] };
            let what = format!("{name}, {} to {}", size.start(), size.end());
            line(&what, times[0], before, &[Some(times[0] / times[1]), quick, from_rows]);
            before = Some(times[0]);
        }
    }
}

/// A run with the slots that it filled, as one answer.
type Filled = (runs::End, Vec<u16>);

/// A way to run a list, with slots of its own.
fn run_side<'a>(
    name: &'static str,
    times: u32,
    room: usize,
    mut run: impl FnMut(&mut [u16], u32) -> runs::End + 'a,
) -> Side<'a, Filled> {
    let mut slots = vec![0; room];
    Side::often(name, times, move |times| {
        let end = run(&mut slots, times);
        // The list is copied for the comparison alone.
        (end, if times == 1 { slots.clone() } else { Vec::new() })
    })
}

fn repeated(times: u32, mut run: impl FnMut() -> runs::End) -> runs::End {
    for _ in 1..times {
        black_box(run());
    }
    run()
}

fn job_runs(bench: &mut Bench) {
    heading(&[
        "run, by jobs",
        "library µs",
        "grown",
        "library : straight table",
        "heap : library",
        "slot by slot over all jobs : library",
    ]);
    let rows = inputs::busy_lines(LONG_JOB);
    let mut before = None;
    for many in [32, 64, 128, 256, 512, 1024, MOST_JOBS] {
        let jobs = inputs::jobs(many, LONG_JOB);
        let often = FEW * (MOST_JOBS / many) as u32;
        let last = usize::from(runs::checked(&rows, &jobs).expect("a lawful list"));
        let mut sides = [
            run_side(LIBRARY, often, last, |slots, times| library::run(&rows, &jobs, slots, times)),
            run_side(STRAIGHT, often, last, |slots, times| {
                repeated(times, || runs::with_table(&Whole, 0, &rows, black_box(&jobs), slots))
            }),
            run_side("heap", often, last, |slots, times| {
                repeated(times, || runs::with_heap(&Whole, 0, &rows, black_box(&jobs), slots))
            }),
            run_side("slot by slot", SELDOM, last, |slots, times| {
                repeated(times, || runs::job_by_job(&Whole, 0, &rows, black_box(&jobs), slots))
            }),
        ];
        let times = bench.time("run", &mut sides);
        let ratios = [Some(times[0] / times[1]), Some(times[2] / times[0]), Some(times[3] / times[0])];
        line(&format!("{many} jobs, {last} slots"), times[0], before, &ratios);
        before = Some(times[0]);
    }
}

/// The supplies of sheets that take longer than the whole processor.
fn slow_supplies() -> [(&'static str, Named); 2] {
    let share = Share { below: TIMETABLE, s: GIVEN, f: OF };
    [("timetable of 64", Named::Timetable(TIMETABLE)), ("share of a timetable of 64", Named::SharedTimetable(share))]
}

/// Runs of the lines of a sheet in the last phase of its supply; each reads the sheet first.
fn sheet_runs(bench: &mut Bench) {
    heading(&["run on a sheet's lines, by supply and jobs", "library µs", "grown", "library : straight table"]);
    let rows = inputs::busy_lines(SHORT_JOB);
    for (name, supply) in slow_supplies() {
        let sheet = inputs::plain_sheet(supply, &rows);
        let phase = supply.phases() - 1;
        let mut before = None;
        for many in [32, 256, MOST_JOBS] {
            let jobs = inputs::jobs(many, SHORT_JOB);
            let last = usize::from(runs::checked(&rows, &jobs).expect("a lawful list"));
            let often = FEW * (MOST_JOBS / many) as u32;
            let mut sides = [
                run_side(LIBRARY, often, last, |slots, times| {
                    repeated(times, || library::run_on(&sheet, phase, black_box(&jobs), slots))
                }),
                run_side(STRAIGHT, often, last, |slots, times| {
                    repeated(times, || sheets::run_on(&sheet, phase, black_box(&jobs), slots))
                }),
            ];
            let times = bench.time("run on a sheet's lines", &mut sides);
            line(&format!("{name}, {many} jobs, {last} slots"), times[0], before, &[Some(times[0] / times[1])]);
            before = Some(times[0]);
        }
    }
}

/// The most cuts of eight cites that a sheet of eight lines has room for.
const MOST_CUTS: usize = 418;

/// The report on a sheet with some cuts.
fn report(bench: &mut Bench, supply: Named, name: &str, cuts: usize, before: Option<f64>) -> f64 {
    let sheet = inputs::sheet(supply, cuts);
    let mut sides = [
        Side::single(LIBRARY, FEW, || library::report(black_box(&sheet))),
        Side::single(STRAIGHT, FEW, || sheets::report(black_box(&sheet))),
    ];
    let times = bench.time("report", &mut sides);
    let text = library::report(&sheet).trim_end().replace('\n', ", ");
    let what = format!("{name}, {} bytes, {cuts} cuts ({text})", sheet.len());
    line(&what, times[0], before, &[Some(times[0] / times[1])]);
    times[0]
}

fn reports(bench: &mut Bench) {
    heading(&["report, by supply and length of the sheet", "library µs", "grown", "library : straight"]);
    let mut before = None;
    for part in [8, 4, 2, 1] {
        before = Some(report(bench, Named::Whole(Whole), "whole", MOST_CUTS / part, before));
    }
    for (name, supply) in slow_supplies() {
        report(bench, supply, name, MOST_CUTS, None);
    }
}

fn enrolments(bench: &mut Bench) {
    heading(&["open and enrol eight lines", "library µs", "grown", "library : straight"]);
    let at_hyperperiod = inputs::full_rosters(1, 1..=MOST_WATCHED, true)[0];
    let at_both = inputs::full_rosters(1, 250..=MOST_WATCHED, true)[0];
    let mut before = None;
    for rows in [at_hyperperiod, at_both, inputs::most_watched()] {
        let mut sides = [
            Side::single(LIBRARY, OFTEN, || library::enrol(black_box(&rows))),
            Side::single(STRAIGHT, OFTEN, || inputs::roster(Whole, black_box(&rows)).watched().len()),
        ];
        let times = bench.time("enrol", &mut sides);
        let all_slots = hyperperiod(&rows).unwrap_or(LONGEST_HYPERPERIOD);
        let what = format!("hyperperiod {all_slots}, {} watched", library::enrol(&rows));
        line(&what, times[0], before, &[Some(times[0] / times[1])]);
        before = Some(times[0]);
    }
}

/// `bench repetitions [file]` takes the times, and writes them down in the file; `bench middle file ..` takes the middle of those
/// that are written down.
fn main() {
    keep_shift();
    let words: Vec<String> = std::env::args().skip(1).collect();
    let (repetitions, times) = match words.split_first() {
        Some((first, files)) if first == "middle" => {
            (0, Times::Middle(files.iter().map(|path| Record::read(path)).collect()))
        }
        Some((first, files)) => {
            let file = files.first().map(|path| File::create(path).expect("a file for the times"));
            (first.parse().expect("a number of repetitions"), Times::Taken(file))
        }
        None => (15, Times::Taken(None)),
    };
    let mut bench = Bench { repetitions, times, differ: 0 };
    verdicts(&mut bench);
    job_runs(&mut bench);
    sheet_runs(&mut bench);
    reports(&mut bench);
    enrolments(&mut bench);
    println!("\nanswers that differ: {}", bench.differ);
    if bench.differ > 0 {
        std::process::exit(1);
    }
}
