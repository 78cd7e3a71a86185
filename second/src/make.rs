//! Seeded sheets and job lists: good ones, damaged ones and wild ones.

use crate::certificate::{Certificate, Cite};
use crate::lines::{line, Line};
use crate::long;
use crate::random::Random;
use crate::roster::Roster;
use crate::run::{deadlines, Job};
use crate::sheet::{cut_record, end_record, line_record, supply_of, supply_record, Fields, LONGEST};

/// The kinds of sheets.
pub const SHEET_KINDS: [&str; 15] = [
    "lines, small",
    "lines, large",
    "lines and cuts, small",
    "lines and cuts, large",
    "full of cuts",
    "damaged bytes",
    "cut short",
    "bytes added",
    "random bytes",
    "random records",
    "long",
    "heavy supply",
    "at the bounds",
    "long, with cuts",
    "of middle length, with cuts",
];

/// The kinds of which hardly a sheet is accepted, or none: cut short, bytes added, random bytes, long.
pub const SELDOM_ACCEPTED: [usize; 4] = [6, 7, 8, 10];

/// The kinds of job lists, by the numbers below.
pub const JOB_KINDS: [&str; 6] = ["legal", "illegal", "witness", "many jobs", "late", "wild"];

/// A list whose jobs a run takes, though the slot list may be too short.
pub const LEGAL: usize = 0;

/// A list that a run refuses for its jobs: 14, 15 or 16.
pub const ILLEGAL: usize = 1;

/// The witness list of an overloaded roster, in the witness phase.
pub const WITNESS: usize = 2;

/// A list of about as many jobs as a run takes, or more.
pub const MANY: usize = 3;

/// A list whose last job falls due about as late as a run takes, or later.
pub const LATE: usize = 4;

/// A list of any few jobs.
pub const WILD: usize = 5;

/// The last instant at which a job may fall due.
const LAST_DUE: u32 = 32_000;

/// The most jobs of a run.
const MOST_JOBS: usize = 2048;

/// A job list with its kind, its phase and the length of the slot list.
#[derive(Clone, Debug)]
pub struct JobCase {
    pub kind: usize,
    pub phase: u32,
    pub jobs: Vec<Job>,
    pub slots: usize,
}

/// A word of a timetable of some length: sparse, dense or in one piece, and never without a given slot.
fn word(r: &mut Random, length: u32) -> u64 {
    let row = u64::MAX >> (64 - length);
    let bits = [r.word(), r.word(), r.word()];
    let word = match r.below(8) {
        0 => bits[0] & bits[1] & bits[2],
        1 => bits[0] & bits[1],
        2 => bits[0],
        3 | 4 => bits[0] | bits[1],
        5 | 6 => bits[0] | bits[1] | bits[2],
        _ => row << r.below(length),
    };
    if word & row == 0 {
        1 << r.below(length)
    } else {
        word & row
    }
}

/// How many of f slots a share gives: any number, at least half, or all but a few.
fn part(r: &mut Random, f: u32) -> u32 {
    match r.below(5) {
        0 => r.from_to(1, f),
        1 | 2 => r.from_to(f.div_ceil(2), f),
        _ => f - r.below(f.min(5)),
    }
}

/// The fields of a supply: any of the four that a sheet can name, of any size. Heavy ones have 1,024 phases or more.
pub fn fields(r: &mut Random, heavy: bool) -> Fields {
    let mut fields = Fields { length: 0, word: 0, s: 0, f: 0 };
    let kind = if heavy { 3 } else { r.pick(&[0, 1, 1, 1, 2, 2, 2, 3, 3, 3]) };
    let least = if heavy { 32 } else { 1 };
    if kind & 1 == 1 {
        let length = r.from_to(least, 64);
        fields.length = length as u8;
        fields.word = word(r, length);
    }
    if kind & 2 == 2 {
        let f = r.from_to(least, 64);
        fields.s = part(r, f) as u8;
        fields.f = f as u8;
    }
    fields
}

/// A row of a line of small figures.
fn small_row(r: &mut Random, lines: u32) -> Line {
    let period = match r.below(4) {
        0 => r.from_to(1, 30),
        1 => r.pick(&[2, 3, 4, 6, 8, 12, 24]),
        2 => r.pick(&[5, 6, 7, 10, 12, 14, 15, 20, 21, 28, 30]),
        _ => r.from_to(3, 16),
    };
    let deadline = if r.one_in(3) { period } else { r.from_to(period.div_ceil(2), period) };
    let most = (period / lines.max(1)).max(1);
    let over = r.below(2);
    let cost = r.from_to(1, most + over);
    line(period, deadline, cost)
}

/// A row of a line of large figures.
fn large_row(r: &mut Random, lines: u32) -> Line {
    let period = match r.below(5) {
        0 => r.pick(&[48, 60, 75, 100, 120, 125, 150, 200, 240, 250, 300, 375, 400, 500, 600, 625, 750, 1000]),
        1 => r.pick(&[63, 84, 90, 105, 126, 140, 168, 180, 210, 252, 280, 315, 360, 420, 504, 630, 840]),
        2 => r.pick(&[128, 129, 130, 160, 192, 256, 320, 384, 512, 640, 768, 960, 999, 1000]),
        3 => r.from_to(100, 250),
        _ => r.from_to(31, 1000),
    };
    let deadline = match r.below(4) {
        0 => period,
        1 => r.from_to(1, period),
        2 => r.from_to(1, period.div_ceil(4)),
        _ => r.from_to(period.div_ceil(2), period),
    };
    let most = (deadline / lines.max(1)).clamp(1, 1000);
    let cost = if r.one_in(30) { r.from_to(1, 1000) } else { r.from_to(1, most) };
    line(period, deadline, cost)
}

/// A roster of some lines over the supply of the fields, and the records of the lines; now and then one line too many.
fn enrolled(r: &mut Random, fields: Fields, lines: u32, large: bool) -> (Roster, Vec<Vec<u8>>) {
    let mut roster = Roster::open(supply_of(fields).unwrap());
    let mut records = Vec::new();
    let mut tries = 0;
    while (roster.lines.len() as u32) < lines && tries < 30 {
        tries += 1;
        let row = if large { large_row(r, lines) } else { small_row(r, lines) };
        if roster.enrol(row).is_ok() || r.one_in(60) {
            records.push(line_record(row));
        }
    }
    if r.one_in(40) {
        let row = small_row(r, 8);
        let _ = roster.enrol(row);
        records.push(line_record(row));
    }
    (roster, records)
}

/// A certificate that may hold: cites are picked while their lengths fit into q x d, or into a little more.
fn likely(r: &mut Random, watched: &[u32]) -> Certificate {
    let deadline = r.pick(watched);
    let divisor = r.pick(&[1, 1, 1, 1, 2, 2, 3, 5]);
    let mut room = divisor * deadline;
    if r.one_in(6) {
        room += r.below(deadline.div_ceil(4) + 1);
    }
    let most = r.from_to(1, 8);
    let mut cites: Vec<Cite> = Vec::new();
    for _ in 0..20 {
        let weight = r.pick(&[1, 1, 1, 2, 3]);
        // Half of the time the largest deadline that fits is cited, else any.
        let fitting = watched.iter().rev().find(|c| **c != deadline && **c * weight <= room);
        let cited = if r.one_in(2) { fitting.copied() } else { Some(r.pick(watched)) };
        if let Some(cited) = cited {
            if cited != deadline && cited * weight <= room && (cites.len() as u32) < most {
                room -= cited * weight;
                cites.push(Cite { deadline: cited, weight });
            }
        }
    }
    Certificate { deadline, divisor, cites }
}

/// A certificate of any figures, mostly around what is watched.
fn any_certificate(r: &mut Random, watched: &[u32]) -> Certificate {
    let instant = |r: &mut Random| {
        if watched.is_empty() || r.one_in(8) {
            r.below(66)
        } else {
            r.pick(watched)
        }
    };
    let figure = |r: &mut Random| {
        let wild = r.below(65_536);
        let some = [1, 1, 1, 1, 2, 3, 4, 7, 0, 1000, 1001, wild];
        r.pick(&some)
    };
    let number = r.pick(&[1, 1, 2, 2, 3, 4, 5, 6, 7, 8, 8, 9, 0, 255]);
    let deadline = instant(r);
    let divisor = figure(r);
    let cites = (0..number).map(|_| Cite { deadline: instant(r), weight: figure(r) }).collect();
    Certificate { deadline, divisor, cites }
}

/// Cuts found by trying, and now and then one that need not hold.
fn cuts(r: &mut Random, roster: &mut Roster, tries: u32, stray: u32) -> Vec<Vec<u8>> {
    let mut records = Vec::new();
    for _ in 0..tries {
        if roster.watched.len() < 2 {
            break;
        }
        let watched = roster.watched.clone();
        let certificate = if r.one_in(20) { any_certificate(r, &watched) } else { likely(r, &watched) };
        let kept = match roster.cut(&certificate) {
            Ok(()) => true,
            Err(refusal) => r.one_in(if refusal.number == 11 { stray / 10 } else { stray }),
        };
        if kept {
            records.push(cut_record(&certificate));
        }
    }
    records
}

/// A sheet of a supply, records and a closing record.
pub fn closed(fields: Fields, records: &[Vec<u8>]) -> Vec<u8> {
    let mut sheet = supply_record(fields);
    sheet.extend(records.concat());
    sheet.extend(end_record(1 + records.len()));
    sheet
}

/// A good sheet, mostly: lines and perhaps cuts.
fn good(r: &mut Random, large: bool, tries: u32, heavy: bool) -> Vec<u8> {
    let fields = fields(r, heavy);
    let lines = r.below(9);
    let (mut roster, mut records) = enrolled(r, fields, lines, large);
    let cut = cuts(r, &mut roster, tries, 200);
    // Now and then the cuts stand before a further line, which sets the full watch list again.
    if r.one_in(10) && !cut.is_empty() {
        records.extend(cut);
        let row = small_row(r, 8);
        if roster.enrol(row).is_ok() || r.one_in(5) {
            records.push(line_record(row));
        }
        records.extend(cuts(r, &mut roster, tries, 200));
    } else {
        records.extend(cut);
    }
    closed(fields, &records)
}

/// One of the small good kinds, to be damaged.
fn small_good(r: &mut Random) -> Vec<u8> {
    let tries = r.pick(&[0, 0, 10, 30]);
    good(r, false, tries, false)
}

/// Some random bytes.
fn bytes(r: &mut Random, number: u32) -> Vec<u8> {
    (0..number).map(|_| r.below(256) as u8).collect()
}

/// A random record: a known mark with figures mostly small, or an unknown one.
fn random_record(r: &mut Random, before: usize, watched: &[u32]) -> Vec<u8> {
    match r.below(24) {
        0 => supply_record(fields(r, false)),
        1 => {
            let number = r.below(12);
            bytes(r, number)
        }
        2 => end_record(before),
        3 => end_record(before + 1),
        4..=12 => {
            let mut row = small_row(r, 4);
            if r.one_in(6) {
                let figures = [0, 1, 2, 29, 30, 31, 999, 1000, 1001, 65_535];
                row = line(r.pick(&figures), r.pick(&figures), r.pick(&figures));
            }
            line_record(row)
        }
        _ => {
            let mut record = cut_record(&any_certificate(r, watched));
            if r.one_in(20) {
                record[6] = r.below(256) as u8;
            }
            record
        }
    }
}

/// A sheet of random records; own reading is followed so that cuts are near what is watched.
fn random_records(r: &mut Random) -> Vec<u8> {
    let mut fields = fields(r, false);
    match r.below(12) {
        0 => fields.s = r.below(70) as u8,
        1 => fields.f = r.below(70) as u8,
        2 => fields.length = r.below(70) as u8,
        3 => fields.word = r.word(),
        _ => {}
    }
    let mut roster = Roster::open(supply_of(fields).unwrap_or(crate::supply::Supply::Whole));
    let mut sheet = if r.one_in(40) { random_record(r, 0, &[]) } else { supply_record(fields) };
    let number = r.below(8);
    for i in 0..number {
        let watched = roster.watched.clone();
        let record = random_record(r, 1 + i as usize, &watched);
        if record.len() == 8 && record.starts_with(b"LN") {
            let figure = |at: usize| u32::from(record[at]) * 256 + u32::from(record[at + 1]);
            let _ = roster.enrol(line(figure(2), figure(4), figure(6)));
        }
        sheet.extend(record);
    }
    let count = if r.one_in(10) { r.below(10) } else { number + 1 };
    sheet.extend(end_record(count as usize));
    sheet
}

/// A sheet of about the longest length: records that go on and on.
fn long(r: &mut Random) -> Vec<u8> {
    let fields = fields(r, false);
    let (mut roster, mut records) = enrolled(r, fields, 4, false);
    records.extend(cuts(r, &mut roster, 20, 1000));
    let mut sheet = closed(fields, &records);
    let length = r.pick(&[LONGEST - 1, LONGEST, LONGEST + 1, LONGEST + 2, 12_000, 20_000, 65_536, 70_000]);
    if r.one_in(2) {
        sheet.truncate(sheet.len() - 4);
        let watched = roster.watched.clone();
        while sheet.len() < length {
            let mut certificate = any_certificate(r, &watched);
            if r.one_in(2) {
                certificate.cites = vec![Cite { deadline: 1, weight: 1 }; 255];
            }
            sheet.extend(cut_record(&certificate));
        }
    }
    sheet.resize(length, 0);
    sheet
}

/// A figure at a bound, or one off it.
fn around(r: &mut Random, bound: u32) -> u32 {
    r.pick(&[bound, bound, bound, bound - 1, bound + 1])
}

/// A sheet with figures at the bounds: hyperperiods, watch lists, costs, divisors, weights, numbers of lines and cites.
fn at_the_bounds(r: &mut Random) -> Vec<u8> {
    let mut supply = fields(r, false);
    if r.one_in(3) {
        let bit = around(r, 63).min(63);
        let (length, s, f) = (around(r, 64) as u8, around(r, 64) as u8, around(r, 64) as u8);
        supply = match r.below(3) {
            0 => Fields { length, word: 1 << bit, s: 0, f: 0 },
            1 => Fields { length: 0, word: 0, s, f },
            _ => Fields { length: around(r, 1) as u8, word: u64::from(around(r, 1)), s: around(r, 1) as u8, f: 1 },
        };
    }
    let mut rows = Vec::new();
    match r.below(7) {
        0 => {
            let deadline = around(r, 128);
            rows = vec![line(128, deadline, 1), line(around(r, 129), 129, 1)];
        }
        1 => {
            let period = r.pick(&[2, 3, 4, 5, 7, 8, 16, 25, 50, 75, 100, 125, 250, 375, 500, 625, 750, 1000]);
            rows = vec![line(625, 1, 1), line(48, 1, 1), line(period, 1, r.from_to(1, 9))];
        }
        2 => rows = vec![line(around(r, 1000), around(r, 1000), around(r, 1000))],
        3 => {
            let period = r.from_to(1, 12);
            rows.push(line(around(r, period), period, around(r, 1)));
        }
        4 => {
            // A period of 1 beside a long one: every instant up to the rest point is watched.
            let period = r.pick(&[255, 256, 257, 258, 300]);
            rows = vec![line(1, 1, 1), line(period, around(r, period.min(256)).min(period), 1)];
        }
        5 => {
            // Periods whose least common multiple is at or near 30,000.
            let pair =
                r.pick(&[(1000, 30), (1000, 60), (999, 30), (997, 30), (857, 35), (625, 96), (600, 50), (750, 80)]);
            rows = vec![line(pair.0, r.from_to(1, 3), 1), line(pair.1, r.from_to(1, 2), 1)];
        }
        _ => {
            let number = around(r, 8);
            rows.extend((0..number).map(|_| line(r.pick(&[4, 8, 12, 24]), 4, r.from_to(1, 3))));
        }
    }
    let mut roster = Roster::open(supply_of(supply).unwrap_or(crate::supply::Supply::Whole));
    let mut records: Vec<Vec<u8>> = Vec::new();
    for row in rows {
        let _ = roster.enrol(row);
        records.push(line_record(row));
    }
    let watched = roster.watched.clone();
    if watched.len() > 1 {
        for _ in 0..r.below(3) {
            let mut certificate = likely(r, &watched);
            let cited = certificate.cites.first().map_or(watched[0], |cite| cite.deadline);
            match r.below(4) {
                0 => {
                    // As many times the same on both sides, near the largest divisor and weight.
                    let times = around(r, 1000);
                    certificate.divisor = times;
                    certificate.cites.iter_mut().for_each(|cite| cite.weight = times);
                }
                1 => {
                    let number = around(r, 8) as usize;
                    certificate.cites.resize(number, Cite { deadline: cited, weight: 1 });
                }
                2 => certificate.cites.push(Cite { deadline: certificate.deadline, weight: 1 }),
                _ => {}
            }
            records.push(cut_record(&certificate));
        }
    }
    closed(supply, &records)
}

/// The sheet of a kind.
pub fn sheet(r: &mut Random, kind: usize) -> Vec<u8> {
    match kind {
        0 => good(r, false, 0, false),
        1 => good(r, true, 0, false),
        2 => good(r, false, 30, false),
        3 => good(r, true, 60, false),
        4 => {
            let fields = fields(r, false);
            let lines = r.from_to(2, 5);
            let (mut roster, mut records) = enrolled(r, fields, lines, false);
            let stray = r.pick(&[100, 1000, 100_000]);
            records.extend(cuts(r, &mut roster, 400, stray));
            closed(fields, &records)
        }
        5 => {
            let mut sheet = small_good(r);
            for _ in 0..r.pick(&[1, 1, 1, 2, 4]) {
                let at = r.below(sheet.len() as u32) as usize;
                sheet[at] = match r.below(6) {
                    0 => r.below(256) as u8,
                    1 => sheet[at] ^ (1 << r.below(8)),
                    2 | 3 => sheet[at].wrapping_add(1),
                    _ => sheet[at].wrapping_sub(1),
                };
            }
            sheet
        }
        6 => {
            let mut sheet = small_good(r);
            let length = r.below(sheet.len() as u32);
            sheet.truncate(length as usize);
            sheet
        }
        7 => {
            let mut sheet = small_good(r);
            let number = r.from_to(1, 12);
            let added = match r.below(4) {
                0 => end_record(sheet.len()),
                1 => random_record(r, 5, &[5, 7]),
                _ => bytes(r, number),
            };
            let at = if r.one_in(2) { sheet.len() } else { r.below(sheet.len() as u32 + 1) as usize };
            sheet.splice(at..at, added);
            sheet
        }
        8 => {
            let number = r.pick(&[0, 1, 2, 3, 8, 12, 13, 14, 16, 20, 30, 60, 200]);
            let mut sheet = bytes(r, number);
            for (byte, mark) in sheet.iter_mut().zip(b"SU\0\0\0\0\0\0\0\0\0\0\0LN\0") {
                if r.one_in(2) || number > 13 {
                    *byte = *mark;
                }
            }
            sheet
        }
        9 => random_records(r),
        10 => long(r),
        11 => {
            let large = r.one_in(20);
            good(r, large, 20, true)
        }
        12 => at_the_bounds(r),
        13 => long::long(r),
        _ => long::middle(r),
    }
}

/// The kind of a sheet by its number: mostly small ones, few long and heavy ones, and one in 500 long with cuts.
pub fn sheet_kind(number: u64) -> usize {
    let n = number % 1000;
    match n {
        0..=249 => 0,
        250..=259 => 1,
        260..=459 => 2,
        460..=469 => 3,
        470..=479 => 4,
        480..=679 => 5,
        680..=729 => 6,
        730..=779 => 7,
        780..=829 => 8,
        830..=949 => 9,
        950..=954 => 14,
        955..=988 => 12,
        989..=992 => 10,
        993..=997 => 11,
        _ => 13,
    }
}

/// A legal list: for each line, releases a period or more apart, by release and then in any order of lines.
fn legal(r: &mut Random, lines: &[Line], most: usize) -> Vec<Job> {
    let mut jobs = Vec::new();
    let each = if lines.is_empty() { 0 } else { most / lines.len() };
    let dense = r.one_in(2);
    for (number, line) in lines.iter().enumerate() {
        let mut release = if dense { 0 } else { r.below(line.period) };
        for _ in 0..r.below(each as u32 + 1) {
            let cost = if dense { line.cost } else { r.from_to(1, line.cost) };
            if release + line.deadline <= LAST_DUE {
                jobs.push((release, r.below(100), Job { line: number as u32, release, cost }));
            }
            release += line.period + if dense { 0 } else { r.below(line.period) };
        }
    }
    jobs.sort_by_key(|job| (job.0, job.1));
    jobs.into_iter().map(|job| job.2).collect()
}

/// Changes one job of a list, or its place, or brings it twice; mostly the list is illegal then.
fn change(r: &mut Random, jobs: &mut Vec<Job>) {
    let i = r.below(jobs.len() as u32) as usize;
    match r.below(9) {
        0 => jobs[i].release += 1,
        1 => jobs[i].release = jobs[i].release.saturating_sub(1),
        2 => jobs[i].cost += 1,
        3 => jobs[i].cost = 0,
        4 => jobs[i].line = r.below(9),
        5 => jobs[i].line = r.pick(&[8, 9, 255]),
        6 => jobs[i].release = r.below(65_536),
        7 => jobs.swap(0, i),
        _ => {
            let again = jobs[i];
            jobs.insert(i, again);
        }
    }
    jobs[i].release = jobs[i].release.min(65_535);
}

/// An illegal list: a legal one that is changed until it is illegal. Where that has no job, it gets one of an absent
/// line.
fn illegal(r: &mut Random, lines: &[Line], mut jobs: Vec<Job>) -> Vec<Job> {
    if jobs.is_empty() {
        let number = lines.len() as u32 + r.below(2);
        jobs.push(Job { line: number, release: r.below(40), cost: r.below(4) });
    }
    if r.one_in(3) {
        change(r, &mut jobs);
    }
    while deadlines(lines, &jobs).is_ok() {
        change(r, &mut jobs);
    }
    jobs
}

/// About as many jobs as a run takes, of cost 1, as early as the lines may bring them; none where they bring fewer.
fn many(r: &mut Random, lines: &[Line]) -> Option<Vec<Job>> {
    let number = r.pick(&[MOST_JOBS - 1, MOST_JOBS, MOST_JOBS, MOST_JOBS + 1, 3000]);
    if lines.is_empty() {
        return Some(vec![Job { line: 0, release: 0, cost: 1 }; number]);
    }
    let at = |release: u32| {
        let released = lines.iter().enumerate().filter(move |(_, line)| release % line.period == 0);
        released.map(move |(number, _)| Job { line: number as u32, release, cost: 1 })
    };
    let jobs: Vec<Job> = (0..LAST_DUE).flat_map(at).take(number).collect();
    (jobs.len() == number).then_some(jobs)
}

/// A legal list moved so that its last deadline is about the last that may be.
fn late(r: &mut Random, lines: &[Line], mut jobs: Vec<Job>) -> Vec<Job> {
    let last = last_deadline(lines, &jobs);
    let until = r.pick(&[LAST_DUE, LAST_DUE, LAST_DUE + 1, LAST_DUE + 2, 65_535]);
    for job in jobs.iter_mut() {
        job.release = (job.release + until.max(last) - last).min(65_535);
    }
    jobs
}

/// A few jobs of any of three lines and any small costs, by release.
fn wild(r: &mut Random) -> Vec<Job> {
    let mut release = 0;
    let mut jobs = Vec::new();
    for _ in 0..r.below(6) {
        release += r.below(20);
        jobs.push(Job { line: r.below(3), release, cost: r.below(4) });
    }
    jobs
}

/// The largest deadline of the jobs whose lines are present.
fn last_deadline(lines: &[Line], jobs: &[Job]) -> u32 {
    let due = |job: &Job| lines.get(job.line as usize).map_or(0, |line| job.release.saturating_add(line.deadline));
    jobs.iter().map(due).max().unwrap_or(0)
}

/// Any phase: mostly one of the supply, and now and then one past its last.
fn any_phase(r: &mut Random, phases: u32) -> u32 {
    match r.below(8) {
        0 => phases,
        1 => r.below(u32::MAX),
        2 => u32::MAX,
        _ => r.below(phases),
    }
}

/// A list of the kind, with its phase, on the lines of a roster; none where these lines have none of the kind.
fn list(r: &mut Random, kind: usize, roster: &mut Roster) -> Option<(u32, Vec<Job>)> {
    let phase = any_phase(r, roster.supply.phases());
    let most = r.pick(&[0, 4, 8, 16, 30]);
    let lines = roster.lines.clone();
    let jobs = legal(r, &lines, most);
    match kind {
        LEGAL => Some((phase, jobs)),
        ILLEGAL => Some((phase, illegal(r, &lines, jobs))),
        WITNESS => roster.witness(usize::MAX).ok(),
        MANY => many(r, &lines).map(|jobs| (phase, jobs)),
        LATE if jobs.is_empty() => None,
        LATE => Some((phase, late(r, &lines, jobs))),
        _ => Some((phase, wild(r))),
    }
}

/// A job list of the kind on the lines of a roster, or a legal one where these lines have none of the kind.
pub fn jobs(r: &mut Random, kind: usize, roster: &mut Roster) -> JobCase {
    let (kind, (phase, jobs)) = match list(r, kind, roster) {
        Some(made) => (kind, made),
        None => (LEGAL, list(r, LEGAL, roster).expect("every roster has a legal list")),
    };
    let last = last_deadline(&roster.lines, &jobs) as usize;
    let slots = match r.below(8) {
        0 => last.saturating_sub(1),
        1 => 0,
        2 => last + r.below(40) as usize,
        _ => last,
    };
    JobCase { kind, phase, jobs, slots }
}

/// The kind of a job list by its number.
pub fn job_kind(number: u64) -> usize {
    match number % 2000 {
        n if n % 250 == 0 => MANY,
        1..=19 => LATE,
        n if n % 10 < 4 => LEGAL,
        n if n % 10 < 6 => ILLEGAL,
        n if n % 10 < 9 => WITNESS,
        _ => WILD,
    }
}

#[cfg(test)]
mod tests {
    use super::*;
    use crate::sheet;
    use std::collections::BTreeSet;

    /// How many of a hundred sheets of a kind are accepted.
    fn accepted(kind: usize) -> usize {
        (0..100).filter(|seed| sheet::read(&sheet(&mut Random::new(*seed), kind)).is_ok()).count()
    }

    #[test]
    fn every_kind_of_sheet_is_made_and_is_accepted_where_it_should_be() {
        let made: BTreeSet<usize> = (0..1000).map(sheet_kind).collect();
        assert_eq!(made, (0..SHEET_KINDS.len()).collect());
        for kind in made {
            let accepted = accepted(kind);
            assert_eq!(accepted > 3, !SELDOM_ACCEPTED.contains(&kind), "{}: {accepted}", SHEET_KINDS[kind]);
        }
    }

    /// Whether a case is what its kind says.
    fn is_as_named(roster: &mut Roster, case: &JobCase) -> bool {
        let jobs = &case.jobs;
        match case.kind {
            LEGAL => deadlines(&roster.lines, jobs).is_ok(),
            ILLEGAL => deadlines(&roster.lines, jobs).is_err(),
            WITNESS => roster.witness(usize::MAX) == Ok((case.phase, jobs.clone())),
            MANY => jobs.len() >= MOST_JOBS - 1,
            LATE => last_deadline(&roster.lines, jobs) >= LAST_DUE,
            _ => jobs.len() < 6,
        }
    }

    #[test]
    fn every_kind_of_job_list_is_made_and_is_what_it_is_called() {
        let mut made = BTreeSet::new();
        for number in 0..2000 {
            let mut r = Random::new(number);
            if let Ok(mut roster) = sheet::read(&sheet(&mut r, 0)) {
                let case = jobs(&mut r, job_kind(number), &mut roster);
                assert!(is_as_named(&mut roster, &case), "{}: {case:?}", JOB_KINDS[case.kind]);
                made.insert(case.kind);
            }
        }
        assert_eq!(made, (0..JOB_KINDS.len()).collect());
    }

    #[test]
    fn lists_of_lines_that_fit_meet_every_deadline() {
        let mut runs = 0;
        for seed in 0..2000 {
            let mut r = Random::new(seed);
            let bytes = sheet(&mut r, 2);
            if let Ok(mut roster) = sheet::read(&bytes) {
                let case = jobs(&mut r, LEGAL, &mut roster);
                let mut slots = vec![0; case.slots];
                let end = roster.run(case.phase, &case.jobs, &mut slots);
                if roster.verdict() == crate::verdict::Verdict::Fits && end.is_ok() {
                    runs += 1;
                    assert_eq!(end, Ok(crate::run::End::Met));
                }
            }
        }
        assert!(runs > 100);
    }
}
