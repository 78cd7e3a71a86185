//! Seeded lines of input for the console, each made with a look at the roster: lawful ones and unlawful ones.

use crate::certificate::{Certificate, Cite};
use crate::console::{fields, hex};
use crate::lines::{first_rest, full_watch_list, Line};
use crate::make;
use crate::random::Random;
use crate::roster::Roster;
use crate::run::Job;
use crate::sheet::{self, Fields};

/// What the lines of one visit have in common.
#[derive(Clone, Debug)]
pub struct Plan {
    /// The lines that the visit sets out to enrol.
    pub lines: u32,
    /// Whether their periods are long.
    pub long: bool,
    /// How much of a supply they ask for, in hundredths.
    pub load: u32,
}

impl Plan {
    /// A plan.
    pub fn new(r: &mut Random) -> Plan {
        let lines = if r.one_in(15) { 9 } else { r.pick(&[1, 2, 2, 2, 3, 3, 3, 4, 5, 6]) };
        Plan { lines, long: r.one_in(15), load: r.pick(&[60, 100, 120, 160, 240]) }
    }
}

/// Makes a line of input.
type Maker = fn(&mut Random, &mut Roster, &Plan) -> String;

/// The makers, each with how often it is picked.
const MAKERS: [(u32, Maker); 24] = [
    (3, opened),
    (3, opened_wrongly),
    (4, count),
    (4, least),
    (7, enrol),
    (6, strike),
    (11, recost),
    (26, cut),
    (3, |_, _, _| "lines".to_string()),
    (3, |_, _, _| "rest".to_string()),
    (6, |_, _, _| "watched".to_string()),
    (3, |r, roster, _| format!("counts {}", instant(r, roster))),
    (5, |r, roster, _| format!("demand {}", instant(r, roster))),
    (10, |_, _, _| "verdict".to_string()),
    (6, |_, _, _| "witness".to_string()),
    (8, run),
    (4, |_, _, _| "run witness".to_string()),
    (3, |_, _, _| "write".to_string()),
    (1, read_made),
    (1, read_own),
    (1, read_anew),
    (2, wrong_words),
    (1, |_, _, _| "# a remark".to_string()),
    (1, |_, _, _| String::new()),
];

/// The next line of a visit.
pub fn next(r: &mut Random, roster: &mut Roster, plan: &Plan) -> String {
    if (roster.lines.len() as u32) < plan.lines && r.one_in(2) {
        return enrol(r, roster, plan);
    }
    let mut ticket = r.below(MAKERS.iter().map(|(often, _)| often).sum());
    for (often, maker) in MAKERS {
        if ticket < often {
            return maker(r, roster, plan);
        }
        ticket -= often;
    }
    unreachable!("a ticket is below the sum")
}

/// Opens a lawful supply.
pub fn opened(r: &mut Random, _: &mut Roster, _: &Plan) -> String {
    match r.below(100) {
        0 => open_words(make::fields(r, true)),
        1..=8 => open_words(any_timetable(r)),
        9..=16 => open_words(any_share(r)),
        _ => open_words(make::fields(r, false)),
    }
}

/// A timetable of any length: full, sparse or mixed.
fn any_timetable(r: &mut Random) -> Fields {
    let length = r.from_to(1, 64) as u8;
    let row = u64::MAX >> (64 - length);
    let word = match r.below(4) {
        0 => row,
        1 => r.word() & r.word() & row,
        _ => (r.word() | r.word()) & row,
    };
    Fields { length, word: if word == 0 { row } else { word }, s: 0, f: 0 }
}

/// Any share of the whole processor, mostly more than half of it.
fn any_share(r: &mut Random) -> Fields {
    let f = r.from_to(1, 64);
    let from = if r.one_in(4) { 1 } else { f.div_ceil(2) };
    Fields { length: 0, word: 0, s: r.from_to(from, f) as u8, f: f as u8 }
}

/// The words that open the supply of some fields.
fn open_words(fields: Fields) -> String {
    let Fields { length, word, s, f } = fields;
    let below = if length == 0 { "whole".to_string() } else { format!("timetable {length} {word}") };
    if f == 0 {
        return format!("open {below}");
    }
    format!("open {below} share {s} {f}")
}

/// Opens a supply that is often unlawful.
fn opened_wrongly(r: &mut Random, _: &mut Roster, _: &Plan) -> String {
    let below = match r.below(6) {
        0 => "whole".to_string(),
        1 => format!("timetable {} {}", r.pick(&[0, 65, 66, 128, 255]), r.pick(&[0, 1, u64::MAX])),
        2 => format!("timetable {} 0", r.from_to(1, 64)),
        3 => {
            let length = r.from_to(1, 63);
            format!("timetable {length} {}", 1_u64 << r.from_to(length - 1, (length + 1).min(63)))
        }
        4 => format!("timetable {} {}", r.from_to(1, 64), r.word()),
        _ => format!("timetable {} 1", r.from_to(1, 8)),
    };
    match r.below(4) {
        0 => format!("open {below}"),
        1 => format!("open {below} share {} {}", r.below(4), r.below(4)),
        2 => format!("open {below} share {} {}", r.pick(&[0, 1, 64, 65, 255]), r.pick(&[0, 1, 64, 65, 255])),
        _ => format!("open {below} share 1 2"),
    }
}

/// A phase of the supply, or any number.
fn phase(r: &mut Random, roster: &Roster) -> u32 {
    let phases = roster.supply.phases();
    match r.below(8) {
        0 => phases,
        1 => r.word() as u32,
        2 => u32::MAX,
        3 => 0,
        _ => r.below(phases),
    }
}

/// An instant: mostly near the watched deadlines or up to twice the first rest point.
fn instant(r: &mut Random, roster: &mut Roster) -> u32 {
    let rest = first_rest(&roster.lines);
    if r.one_in(300) && roster.supply.phases() <= 64 {
        return r.pick(&[65_535, 65_534, 32_000, 10_000]);
    }
    match r.below(10) {
        0..=4 if !roster.watched.is_empty() => {
            let near = r.pick(&roster.watched);
            near + r.pick(&[0, 0, 0, 1]) - u32::from(r.one_in(4))
        }
        5 | 6 => r.below(2 * rest.min(500) + 2),
        7 => r.below(rest.min(2000) + 1),
        8 => r.below(4),
        _ => r.below(130),
    }
}

/// Asks for a count.
fn count(r: &mut Random, roster: &mut Roster, _: &Plan) -> String {
    format!("count {} {}", phase(r, roster), instant(r, roster))
}

/// Asks for a least.
fn least(r: &mut Random, roster: &mut Roster, _: &Plan) -> String {
    format!("least {}", instant(r, roster))
}

/// A cost for a line of this period, by the plan.
fn cost(r: &mut Random, period: u32, plan: &Plan) -> u32 {
    let most = (period * plan.load / 100 / plan.lines).clamp(1, 1000);
    r.from_to(most.div_ceil(4), most)
}

/// A lawful row.
fn row(r: &mut Random, plan: &Plan) -> Line {
    let period = match (plan.long, r.below(5)) {
        (false, 0) => r.from_to(1, 30),
        (false, 1) => r.pick(&[4, 6, 8, 12, 16, 24]),
        (false, 2) => r.pick(&[5, 6, 10, 12, 15, 20, 30]),
        (false, 3) => r.pick(&[7, 14, 21, 28, 3, 6, 9, 18]),
        (false, _) => r.from_to(5, 15),
        (true, 0) => r.from_to(126, 131),
        (true, 1) => r.pick(&[48, 199, 200, 625, 1000]),
        (true, 2) => r.pick(&[60, 75, 100, 120, 150, 200, 240, 250, 300]),
        (true, _) => r.from_to(31, 250),
    };
    let deadline = match r.below(6) {
        0 => r.from_to(1, period),
        1 | 2 => period,
        _ => r.from_to(period.div_ceil(2), period),
    };
    Line { period, deadline, cost: cost(r, period, plan) }
}

/// Enrols a line; now and then an unlawful one.
fn enrol(r: &mut Random, _: &mut Roster, plan: &Plan) -> String {
    let mut row = row(r, plan);
    if r.one_in(12) {
        let wild = r.pick(&[0, 0, 1, 999, 1000, 1001, 65_535]);
        match r.below(4) {
            0 => row.period = wild,
            1 => row.deadline = row.period + 1,
            2 => row.deadline = wild,
            _ => row.cost = wild,
        }
    }
    format!("enrol {} {} {}", row.period, row.deadline, row.cost)
}

/// The number of a line; now and then of one that is not there.
fn line(r: &mut Random, roster: &Roster) -> u32 {
    let lines = roster.lines.len() as u32;
    if lines == 0 || r.one_in(12) {
        return r.pick(&[lines, lines + 1, 8, 255]);
    }
    r.below(lines)
}

/// Strikes a line.
fn strike(r: &mut Random, roster: &mut Roster, _: &Plan) -> String {
    format!("strike {}", line(r, roster))
}

/// Gives a line a new cost.
fn recost(r: &mut Random, roster: &mut Roster, plan: &Plan) -> String {
    let number = line(r, roster);
    let period = roster.lines.get(number as usize).map_or(10, |line| line.period);
    let wild = r.pick(&[0, 1, 1000, 1001, 65_535]);
    let cost = if r.one_in(12) { wild } else { cost(r, period, plan) };
    format!("recost {number} {cost}")
}

/// The words of a certificate.
fn cut_words(certificate: &Certificate) -> String {
    let mut words = format!("cut {} {}", certificate.deadline, certificate.divisor);
    for cite in &certificate.cites {
        words += &format!(" {}:{}", cite.deadline, cite.weight);
    }
    words
}

/// Cuts a deadline: mostly by a certificate that holds, where one is found.
fn cut(r: &mut Random, roster: &mut Roster, _: &Plan) -> String {
    if roster.watched.len() < 2 || r.one_in(10) {
        return cut_words(&any_certificate(r, roster));
    }
    let mut certificate = covering(r, &roster.watched);
    let mut tries = 0;
    while tries < 30 && roster.check(&certificate).is_err() {
        certificate = covering(r, &roster.watched);
        tries += 1;
    }
    if r.one_in(10) {
        damage(r, roster, &mut certificate);
    }
    cut_words(&certificate)
}

/// A certificate that may hold: cites that take up the divisor times the deadline, one behind the other.
fn covering(r: &mut Random, watched: &[u32]) -> Certificate {
    let deadline = r.pick(watched);
    let divisor = r.pick(&[1, 1, 1, 1, 2, 2, 3]);
    let mut left = divisor * deadline;
    let mut cites = Vec::new();
    for _ in 0..r.from_to(1, 8) {
        let fitting: Vec<u32> = watched.iter().copied().filter(|c| *c <= left && *c != deadline).collect();
        let Some(largest) = fitting.last() else { break };
        let cited = if r.one_in(3) { r.pick(&fitting) } else { *largest };
        let weight = if r.one_in(4) { (left / cited).min(1000) } else { 1 };
        left -= cited * weight;
        cites.push(Cite { deadline: cited, weight });
    }
    Certificate { deadline, divisor, cites }
}

/// Changes one figure of a certificate.
fn damage(r: &mut Random, roster: &Roster, certificate: &mut Certificate) {
    let wild = r.pick(&[0, 1, 2, 3, 1000, 1001, 65_535]);
    let watched = r.pick(&roster.watched);
    let full = full_watch_list(&roster.lines);
    let cut_before: Vec<u32> = full.into_iter().filter(|d| !roster.watched.contains(d)).collect();
    let again = if cut_before.is_empty() { watched } else { r.pick(&cut_before) };
    let own = certificate.deadline;
    let number = certificate.cites.len() as u32;
    let kind = r.below(10);
    match (kind, number) {
        (0, _) => certificate.divisor = wild,
        (1, _) => certificate.deadline = r.pick(&[watched, again, wild]),
        (2, _) => certificate.cites = vec![Cite { deadline: watched, weight: 1 }; r.pick(&[0, 8, 9, 10])],
        (_, 0) => {}
        (3, _) => certificate.cites[r.below(number) as usize].weight = wild,
        (4, _) => certificate.cites[r.below(number) as usize].deadline = r.pick(&[watched, wild, own]),
        (5, _) => certificate.divisor += 1,
        (6, _) => certificate.cites.truncate(number as usize - 1),
        _ => certificate.cites[r.below(number) as usize].deadline = again,
    }
}

/// A certificate of any figures.
fn any_certificate(r: &mut Random, roster: &mut Roster) -> Certificate {
    let deadline = instant(r, roster);
    let divisor = r.pick(&[1, 1, 2, 3, 1000, 0, 1001]);
    let number = r.pick(&[0, 1, 1, 1, 2, 2, 3, 8, 9]);
    let cites = (0..number)
        .map(|_| Cite { deadline: instant(r, roster), weight: r.pick(&[1, 1, 1, 1, 1, 1, 1, 2, 3, 5, 1000, 1001, 0]) })
        .collect();
    Certificate { deadline, divisor, cites }
}

/// The number of a kind by its name.
fn number_of(name: &str, kinds: &[&str]) -> usize {
    kinds.iter().position(|kind| *kind == name).expect("a known kind")
}

/// The words of a run.
fn run_words(phase: u32, jobs: &[Job]) -> String {
    let mut words = format!("run {phase}");
    for job in jobs {
        words += &format!(" {}@{}:{}", job.line, job.release, job.cost);
    }
    words
}

/// Runs a list of jobs, which is often the witness list, in its phase or in another.
fn run(r: &mut Random, roster: &mut Roster, _: &Plan) -> String {
    let kind = match r.below(2000) {
        0 => "many jobs",
        1..=10 => "late",
        _ => r.pick(&["legal", "legal", "legal", "illegal", "illegal", "witness", "witness", "witness", "wild"]),
    };
    let mut case = make::jobs(r, number_of(kind, &make::JOB_KINDS), roster);
    if r.one_in(2) {
        case.phase = phase(r, roster);
    }
    run_words(case.phase, &case.jobs)
}

/// Reads a sheet of any kind; now and then one of about the longest length.
fn read_made(r: &mut Random, _: &mut Roster, _: &Plan) -> String {
    let mixed = make::sheet_kind(r.word());
    let kind = if r.one_in(60) { number_of("long", &make::SHEET_KINDS) } else { mixed };
    format!("read {}", hex(&make::sheet(r, kind)))
}

/// Reads the sheet of the lines that are held, often with cuts, and now and then damaged.
fn read_own(r: &mut Random, roster: &mut Roster, _: &Plan) -> String {
    let mut records = vec![sheet::supply_record(fields(&roster.supply))];
    records.extend(roster.lines.iter().map(|line| sheet::line_record(*line)));
    let mut copy = roster.clone();
    copy.watched = full_watch_list(&copy.lines);
    for _ in 0..r.below(20) {
        if copy.watched.len() < 2 {
            break;
        }
        let certificate = covering(r, &copy.watched);
        if copy.cut(&certificate).is_ok() {
            records.push(sheet::cut_record(&certificate));
        }
    }
    let mut bytes = records.concat();
    bytes.extend(sheet::end_record(records.len()));
    if r.one_in(4) {
        let at = r.below(bytes.len() as u32) as usize;
        bytes[at] = bytes[at].wrapping_add(1);
    }
    let hex = hex(&bytes);
    format!("read {}", if r.one_in(4) { hex.to_uppercase() } else { hex })
}

/// Reads a sheet of a supply and of some lines of a plan, more than 8 of them now and then; or the sheet of no bytes.
fn read_anew(r: &mut Random, roster: &mut Roster, plan: &Plan) -> String {
    if r.one_in(10) {
        return "read".to_string();
    }
    let mut records = vec![sheet::supply_record(fields(&roster.supply))];
    let same = row(r, plan);
    let number = r.pick(&[1, 2, 2, 3, 3, 8, 9]);
    for _ in 0..number {
        let other = row(r, plan);
        records.push(sheet::line_record(if r.one_in(3) && number < 8 { other } else { same }));
    }
    let mut bytes = records.concat();
    bytes.extend(sheet::end_record(records.len()));
    format!("read {}", hex(&bytes))
}

/// A line of unknown or wrong words.
fn wrong_words(r: &mut Random, _: &mut Roster, _: &Plan) -> String {
    let lines = [
        "close",
        "open",
        "open half",
        "open timetable 4",
        "open whole share 1",
        "open timetable 4 18446744073709551616",
        "count 0",
        "count 4294967296 1",
        "least",
        "least 65536",
        "least five",
        "enrol 8 5",
        "enrol 8 5 2 1",
        "enrol 65536 5 2",
        "strike",
        "strike 256",
        "recost 0",
        "recost 256 1",
        "recost 0 65536",
        "cut 5",
        "cut 5 1 7",
        "cut 5 1 7:65536",
        "cut 5 65536 7:1",
        "rest 1",
        "watched all",
        "counts",
        "demand 65536",
        "verdict 1",
        "witness 0",
        "run",
        "run x",
        "run 4294967296",
        "run 0 0@0",
        "run 0 256@0:1",
        "run 0 0@65536:1",
        "run 0 0@0:65536",
        "run witness 1",
        "write 1",
        "read 5",
        "read 5g",
        "read 53 55",
    ];
    r.pick(&lines).to_string()
}
