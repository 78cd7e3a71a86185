//! The console: what it answers to each line of a visit, as docs/CONSOLE.md says it, given this roster.

use crate::chart::Made;
use crate::command::Command;
use crate::lines::{demand, first_rest, Line};
use crate::refusal::Refusal;
use crate::roster::Roster;
use crate::run::{deadlines, End, Job, NOT_GIVEN};
use crate::sheet::{self, Fields};
use crate::supply::Supply;
use crate::verdict::Verdict;

/// What is answered to a line.
#[derive(Clone, Debug, PartialEq, Eq)]
pub enum Answer {
    /// These lines, and no more.
    Lines(Vec<String>),
    /// One line that begins so; a colon and a sentence follow.
    Sentence(String),
}

impl Answer {
    /// One line.
    fn line(text: String) -> Answer {
        Answer::Lines(vec![text])
    }

    /// A refusal, up to its colon.
    fn refused(refusal: Refusal) -> Answer {
        Answer::Sentence(format!("refused {} {} place {}", refusal.number, refusal.layer.name(), refusal.place))
    }

    /// The answer as far as it is known.
    pub fn text(&self) -> String {
        match self {
            Answer::Lines(lines) => lines.join("\n"),
            Answer::Sentence(text) => format!("{text}: .."),
        }
    }

    /// Whether lines of output are this answer.
    pub fn agrees(&self, output: &[String]) -> bool {
        match self {
            Answer::Lines(lines) => lines == output,
            Answer::Sentence(text) => output.len() == 1 && output[0].starts_with(&format!("{text}: ")),
        }
    }
}

/// The console, with its one roster.
#[derive(Clone, Debug)]
pub struct Console {
    pub roster: Roster,
}

impl Console {
    /// The console at first: on the whole processor, without lines.
    pub fn start() -> Console {
        Console { roster: Roster::open(Supply::Whole) }
    }

    /// What is answered to a line of input.
    pub fn answer(&mut self, text: &str) -> Answer {
        if text.trim().is_empty() || text.starts_with('#') {
            return Answer::Lines(Vec::new());
        }
        match Command::of(text) {
            None => Answer::Sentence(format!("unknown: {text}")),
            Some(Command::Read(bytes)) => self.read(&bytes),
            Some(command) => self.call(command).unwrap_or_else(Answer::refused),
        }
    }

    /// Carries out a command that is not a read.
    fn call(&mut self, command: Command) -> Result<Answer, Refusal> {
        let roster = &mut self.roster;
        let text = match command {
            Command::Open { timetable, share } => {
                self.roster = Roster::open(supply(timetable, share)?);
                format!("opened phases {}", self.roster.supply.phases())
            }
            Command::Count { phase, slots } => format!("count {}", roster.supply.count(phase, slots as usize)),
            Command::Least(n) => format!("least {} phase {}", roster.least(n), roster.supply.worst(n as usize)),
            Command::Enrol(row) => {
                roster.enrol(row)?;
                format!("enrolled line {}", roster.lines.len() - 1)
            }
            Command::Strike(line) => {
                roster.strike(line)?;
                format!("struck line {line}")
            }
            Command::Recost { line, cost } => {
                roster.recost(line, cost)?;
                format!("recosted line {line}")
            }
            Command::Cut(certificate) => {
                roster.cut(&certificate)?;
                format!("cut {}", certificate.deadline)
            }
            Command::Lines => return Ok(Answer::Lines(lines_text(&roster.lines))),
            Command::Rest => format!("rest {}", first_rest(&roster.lines)),
            Command::Watched => watched_text(&roster.watched),
            Command::Counts(t) => row("counts", roster.lines.iter().map(|line| line.count(t).to_string())),
            Command::Demand(t) => format!("demand {} of {}", demand(&roster.lines, t), roster.least(t)),
            Command::Verdict => match roster.verdict() {
                Verdict::Fits => "fits".to_string(),
                Verdict::OverloadedAt(t) => format!("overloaded {t}"),
            },
            Command::Witness => {
                let (phase, jobs) = roster.witness(usize::MAX)?;
                return Ok(Answer::Lines(witness_text(&roster.lines, phase, &jobs)));
            }
            Command::Run { phase, jobs } => return self.run(phase, &jobs),
            Command::RunWitness => {
                let (phase, jobs) = roster.witness(usize::MAX)?;
                return self.run(phase, &jobs);
            }
            Command::Write => self.write()?,
            Command::Read(bytes) => return Ok(self.read(&bytes)),
        };
        Ok(Answer::line(text))
    }

    /// Runs jobs: how it ends, the slots up to the largest deadline or to the miss, and the chart.
    fn run(&self, phase: u32, jobs: &[Job]) -> Result<Answer, Refusal> {
        let deadlines = deadlines(&self.roster.lines, jobs)?;
        let last = deadlines.iter().copied().max().unwrap_or(0);
        let mut slots = vec![0; last as usize];
        let end = self.roster.run(phase, jobs, &mut slots)?;
        let (text, until) = match end {
            End::Met => ("all met".to_string(), last),
            End::Missed { job, at } => (format!("missed job {job} at {at}"), at),
        };
        slots.truncate(until as usize);
        let entry = |entry: &u16| if *entry == NOT_GIVEN { "-".to_string() } else { entry.to_string() };
        let mut text = vec![text, row("slots", slots.iter().map(entry))];
        text.extend(Made { jobs, deadlines: &deadlines, end, slots: &slots }.chart(self.roster.lines.len()));
        Ok(Answer::Lines(text))
    }

    /// Writes the sheet of the lines and of the supply that is open.
    fn write(&self) -> Result<String, Refusal> {
        let mut out = [0; 128];
        let length = sheet::write(&self.roster.lines, fields(&self.roster.supply), &mut out)?;
        Ok(format!("sheet {}", hex(&out[..length])))
    }

    /// Reads a sheet in place of the roster; a refused one leaves the roster as it is at first.
    fn read(&mut self, bytes: &[u8]) -> Answer {
        match sheet::read(bytes) {
            Ok(roster) => {
                self.roster = roster;
                Answer::line(format!("read {} lines", self.roster.lines.len()))
            }
            Err(refused) => {
                self.roster = Roster::open(Supply::Whole);
                let r = refused.refusal;
                let place = format!("place {} record {} byte {}", r.place, refused.record, refused.byte);
                Answer::Sentence(format!("refused {} {} {place}", r.number, r.layer.name()))
            }
        }
    }
}

/// The supply that is named by a timetable, or none for the whole processor, and by a share, or none.
fn supply(timetable: Option<(u32, u64)>, share: Option<(u32, u32)>) -> Result<Supply, Refusal> {
    let below = match timetable {
        None => Supply::Whole,
        Some((length, word)) => Supply::timetable(length, word)?,
    };
    match share {
        None => Ok(below),
        Some((s, f)) => Supply::share(below, s, f),
    }
}

/// The fields of a sheet that name a supply.
pub fn fields(supply: &Supply) -> Fields {
    match supply {
        Supply::Whole => Fields { length: 0, word: 0, s: 0, f: 0 },
        Supply::Timetable { length, word } => Fields { length: *length as u8, word: *word, s: 0, f: 0 },
        Supply::Share { below, s, f } => Fields { s: *s as u8, f: *f as u8, ..fields(below) },
    }
}

/// Bytes in hex, in small letters.
pub fn hex(bytes: &[u8]) -> String {
    bytes.iter().map(|byte| format!("{byte:02x}")).collect()
}

/// A word, and others behind it.
fn row(word: &str, others: impl Iterator<Item = String>) -> String {
    std::iter::once(word.to_string()).chain(others).collect::<Vec<_>>().join(" ")
}

/// What `lines` prints.
fn lines_text(lines: &[Line]) -> Vec<String> {
    let mut text = vec![format!("lines {}", lines.len())];
    for (i, line) in lines.iter().enumerate() {
        text.push(format!("line {i} period {} deadline {} cost {}", line.period, line.deadline, line.cost));
    }
    text
}

/// What `watched` prints.
fn watched_text(watched: &[u32]) -> String {
    if watched.is_empty() {
        return "watched 0".to_string();
    }
    row(&format!("watched {}:", watched.len()), watched.iter().map(u32::to_string))
}

/// What `witness` prints.
fn witness_text(lines: &[Line], phase: u32, jobs: &[Job]) -> Vec<String> {
    let mut text = vec![format!("witness phase {phase} jobs {}", jobs.len())];
    for (i, job) in jobs.iter().enumerate() {
        let deadline = job.release + lines[job.line as usize].deadline;
        text.push(format!("job {i} line {} release {} cost {} deadline {deadline}", job.line, job.release, job.cost));
    }
    text
}

#[cfg(test)]
mod tests {
    use super::*;

    /// What stands before each line of a visit but the first.
    const MARGIN: &str = "             ";

    /// A visit: lines that begin with `> ` are typed, and the others are what is answered. The console as it stands behind them.
    fn visit(text: &str) -> Console {
        let mut console = Console::start();
        let mut lines = text.lines().map(|line| line.strip_prefix(MARGIN).unwrap_or(line)).peekable();
        while let Some(typed) = lines.next() {
            let command = typed.strip_prefix("> ").expect("a command");
            let mut output = Vec::new();
            while let Some(line) = lines.next_if(|line| !line.starts_with("> ")) {
                output.push(line.to_string());
            }
            let answer = console.answer(command);
            assert!(answer.agrees(&output), "{command}\n{}\n{}", answer.text(), output.join("\n"));
        }
        console
    }

    #[test]
    fn three_lines_with_longer_jobs() {
        let mut console = visit(
            "> open whole
             opened phases 1
             > enrol 7 5 3
             enrolled line 0
             > enrol 11 7 2
             enrolled line 1
             > enrol 13 10 3
             enrolled line 2
             > lines
             lines 3
             line 0 period 7 deadline 5 cost 3
             line 1 period 11 deadline 7 cost 2
             line 2 period 13 deadline 10 cost 3
             > rest
             rest 62
             > watched
             watched 18: 5 7 10 12 18 19 23 26 29 33 36 40 47 49 51 54 61 62
             > counts 40
             counts 6 4 3
             > verdict
             fits
             > cut 62 1 40:1 12:1 10:1
             cut 62
             > cut 19 1 7:1 12:1
             cut 19
             > cut 26 1 7:1 19:1
             refused 8 roster place 2: a sentence
             > verdict
             fits
             > witness
             refused 12 roster place 0: a sentence
             > run witness
             refused 12 roster place 0: a sentence
             > recost 1 3
             recosted line 1
             > recost 2 4
             recosted line 2
             > demand 12
             demand 13 of 12
             > verdict
             overloaded 12
             > witness
             witness phase 0 jobs 4
             job 0 line 0 release 0 cost 3 deadline 5
             job 1 line 1 release 0 cost 3 deadline 7
             job 2 line 2 release 0 cost 4 deadline 10
             job 3 line 0 release 7 cost 3 deadline 12
             > run witness
             missed job 3 at 12
             slots 1 1 1 2 2 2 3 3 3 3 4 4
             slot    0         10
                     |----+----|--
             line 0  000....___33!
                     ^    v ^    v
             line 1  ___111......
                     ^      v
             line 2  ______2222..
                     ^         v",
        );
        let typed_out = console.answer("run 0 0@0:3 1@0:3 2@0:4 0@7:3");
        assert_eq!(typed_out, console.answer("run witness"));
    }

    #[test]
    fn a_deadline_that_is_cut() {
        visit(
            "> open whole
             opened phases 1
             > enrol 8 6 2
             enrolled line 0
             > enrol 13 12 9
             enrolled line 1
             > rest
             rest 38
             > watched
             watched 7: 6 12 14 22 25 30 38
             > cut 25 1 12:1 14:1
             refused 11 roster place 0: a sentence
             > cut 25 2 38:1 12:1
             cut 25
             > cut 22 1 14:1 6:1
             cut 22
             > cut 30 1 14:2
             cut 30
             > watched
             watched 4: 6 12 14 38
             > recost 1 10
             recosted line 1
             > verdict
             overloaded 25
             > strike 2
             refused 7 roster place 2: a sentence
             > strike 0
             struck line 0
             > lines
             lines 1
             line 0 period 13 deadline 12 cost 10
             > strike 0
             struck line 0
             > watched
             watched 0",
        );
    }

    #[test]
    fn supplies() {
        visit(
            "> count 0 13
             count 13
             > least 13
             least 13 phase 0
             > open timetable 4 3
             opened phases 4
             > least 3
             least 1 phase 1
             > least 4
             least 2 phase 0
             > open timetable 4 3 share 1 2
             opened phases 8
             > least 4
             least 1 phase 4
             > open timetable 4 16
             refused 17 supply place 0: a sentence
             > open whole share 3 2
             refused 18 supply place 0: a sentence
             > least 4
             least 1 phase 4
             > open whole share 2 3
             opened phases 3
             > enrol 8 5 2
             enrolled line 0
             > enrol 15 9 5
             enrolled line 1
             > verdict
             overloaded 9
             > witness
             witness phase 2 jobs 2
             job 0 line 0 release 0 cost 2 deadline 5
             job 1 line 1 release 0 cost 5 deadline 9
             > recost 1 4
             recosted line 1
             > verdict
             fits",
        );
    }

    #[test]
    fn sheets() {
        visit(
            "> enrol 8 5 2
             enrolled line 0
             > enrol 15 9 4
             enrolled line 1
             > write
             sheet 535500000000000000000000004c4e0008000500024c4e000f00090004454e0003
             > read 535500000000000000000000004c4e000800090002454e0002
             refused 3 roster place 0 record 2 byte 13: a line's deadline is from 1 to its period
             > lines
             lines 0
             > read 535500000000000000000002034c4e0008000500024c4e000f00090004454e0003
             read 2 lines
             > write
             sheet 535500000000000000000002034c4e0008000500024c4e000f00090004454e0003
             > read 5
             unknown: read 5: a sentence
             > verdict
             fits
             > read
             refused 19 sheet place 0 record 1 byte 0: a sentence
             > write
             sheet 53550000000000000000000000454e0001",
        );
    }

    #[test]
    fn a_run_of_more_than_60_slots() {
        let columns = |part: &str| format!("        {part}");
        let row = |part: &str| format!("line 0  {part}");
        let mut console = Console::start();
        console.answer("open timetable 2 1");
        console.answer("enrol 57 5 5");
        let Answer::Lines(lines) = console.answer("run 2 0@0:1 0@57:2") else { panic!("it is run") };
        let (idle, slots) = (".-".repeat(28), " 0 -".repeat(28));
        assert_eq!(lines[..2], ["all met".to_string(), format!("slots 1 -{slots} 2 - 2 -")]);
        let ruler = "slot    0         10        20        30        40        50".to_string();
        assert_eq!(lines[2..4], [ruler, columns(&"|----+----".repeat(6))]);
        assert_eq!(lines[4..6], [row(&format!("0-{idle}1-")), columns(&format!("^    v{}^", " ".repeat(51)))]);
        assert_eq!(lines[6..], ["slot    60".to_string(), columns("|--"), row("1-"), columns("  v")]);
    }

    #[test]
    fn known_bounds() {
        visit(
            "> enrol 128 128 1
             enrolled line 0
             > enrol 129 129 1
             enrolled line 1
             > strike 0
             struck line 0
             > enrol 130 130 1
             refused 6 roster place 0: a sentence
             > open whole
             opened phases 1
             > enrol 625 1 1
             enrolled line 0
             > enrol 48 1 1
             enrolled line 1
             > open whole
             opened phases 1
             > enrol 200 200 1
             enrolled line 0
             > enrol 199 199 1
             refused 5 roster place 0: a sentence",
        );
    }

    #[test]
    fn a_blank_line_and_a_remark() {
        let mut console = Console::start();
        assert_eq!(console.answer(""), Answer::Lines(vec![]));
        assert_eq!(console.answer("# a remark"), Answer::Lines(vec![]));
    }
}
