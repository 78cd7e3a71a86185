//! The commands of the console: what a line of text asks for, as docs/CONSOLE.md has the words.

use crate::certificate::{Certificate, Cite};
use crate::lines::Line;
use crate::run::Job;

/// The largest number of a line that can be typed.
const LINE: u64 = 255;

/// The largest L, S or F of a supply that can be typed: each has one byte on a sheet.
const SUPPLY: u64 = 255;

/// The largest phase that can be typed.
const PHASE: u64 = 4_294_967_295;

/// The largest of all other figures of a roster that can be typed.
const FIGURE: u64 = 65_535;

/// A command.
#[derive(Clone, Debug, PartialEq, Eq)]
pub enum Command {
    Open { timetable: Option<(u32, u64)>, share: Option<(u32, u32)> },
    Count { phase: u32, slots: u32 },
    Least(u32),
    Enrol(Line),
    Strike(u32),
    Recost { line: u32, cost: u32 },
    Cut(Certificate),
    Lines,
    Rest,
    Watched,
    Counts(u32),
    Demand(u32),
    Verdict,
    Witness,
    Run { phase: u32, jobs: Vec<Job> },
    RunWitness,
    Write,
    Read(Vec<u8>),
}

impl Command {
    /// The command that a line of text asks for, if its words are right.
    pub fn of(text: &str) -> Option<Command> {
        let words: Vec<&str> = text.split(' ').collect();
        let command = match words.as_slice() {
            ["open", supply @ ..] => return open(supply),
            ["count", phase, slots] => Command::Count { phase: number(phase, PHASE)?, slots: figure(slots)? },
            ["least", slots] => Command::Least(figure(slots)?),
            ["enrol", t, d, c] => Command::Enrol(Line { period: figure(t)?, deadline: figure(d)?, cost: figure(c)? }),
            ["strike", line] => Command::Strike(number(line, LINE)?),
            ["recost", line, cost] => Command::Recost { line: number(line, LINE)?, cost: figure(cost)? },
            ["cut", d, q, cites @ ..] => {
                let cites = cites.iter().map(|word| cite(word)).collect::<Option<_>>()?;
                Command::Cut(Certificate { deadline: figure(d)?, divisor: figure(q)?, cites })
            }
            ["lines"] => Command::Lines,
            ["rest"] => Command::Rest,
            ["watched"] => Command::Watched,
            ["counts", t] => Command::Counts(figure(t)?),
            ["demand", t] => Command::Demand(figure(t)?),
            ["verdict"] => Command::Verdict,
            ["witness"] => Command::Witness,
            ["run", "witness"] => Command::RunWitness,
            ["run", phase, jobs @ ..] => {
                let jobs = jobs.iter().map(|word| job(word)).collect::<Option<_>>()?;
                Command::Run { phase: number(phase, PHASE)?, jobs }
            }
            ["write"] => Command::Write,
            ["read"] => Command::Read(Vec::new()),
            ["read", hex] => Command::Read(bytes(hex)?),
            _ => return None,
        };
        Some(command)
    }
}

/// The command that opens a supply.
fn open(words: &[&str]) -> Option<Command> {
    let (timetable, rest) = match words {
        ["whole", rest @ ..] => (None, rest),
        ["timetable", length, word, rest @ ..] => (Some((number(length, SUPPLY)?, decimal(word, u64::MAX)?)), rest),
        _ => return None,
    };
    let share = match rest {
        [] => None,
        ["share", s, f] => Some((number(s, SUPPLY)?, number(f, SUPPLY)?)),
        _ => return None,
    };
    Some(Command::Open { timetable, share })
}

/// A decimal number up to a largest one.
fn decimal(word: &str, largest: u64) -> Option<u64> {
    if !word.bytes().all(|b| b.is_ascii_digit()) {
        return None;
    }
    word.parse().ok().filter(|number| *number <= largest)
}

/// A number of up to 32 bits.
fn number(word: &str, largest: u64) -> Option<u32> {
    decimal(word, largest).map(|number| number as u32)
}

/// A figure of a roster.
fn figure(word: &str) -> Option<u32> {
    number(word, FIGURE)
}

/// A cite, as C:W.
fn cite(word: &str) -> Option<Cite> {
    let (deadline, weight) = word.split_once(':')?;
    Some(Cite { deadline: figure(deadline)?, weight: figure(weight)? })
}

/// A job, as I@R:C.
fn job(word: &str) -> Option<Job> {
    let (line, rest) = word.split_once('@')?;
    let (release, cost) = rest.split_once(':')?;
    Some(Job { line: number(line, LINE)?, release: figure(release)?, cost: figure(cost)? })
}

/// Bytes in hex, two digits to each.
fn bytes(hex: &str) -> Option<Vec<u8>> {
    let digits: Option<Vec<u8>> = hex.chars().map(|c| c.to_digit(16).map(|digit| digit as u8)).collect();
    let digits = digits?;
    if digits.len() % 2 != 0 {
        return None;
    }
    Some(digits.chunks(2).map(|pair| pair[0] * 16 + pair[1]).collect())
}

#[cfg(test)]
mod tests {
    use super::*;

    #[test]
    fn the_largest_numbers() {
        assert_eq!(Command::of("strike 255"), Some(Command::Strike(255)));
        assert_eq!(Command::of("strike 256"), None);
        assert_eq!(Command::of("count 4294967295 65535"), Some(Command::Count { phase: u32::MAX, slots: 65_535 }));
        assert_eq!(Command::of("count 4294967296 1"), None);
        assert_eq!(Command::of("count 0 65536"), None);
        assert_eq!(Command::of("run 0 256@0:1"), None);
        let open = Command::Open { timetable: Some((64, u64::MAX)), share: Some((1, 255)) };
        assert_eq!(Command::of("open timetable 64 18446744073709551615 share 1 255"), Some(open));
        assert_eq!(Command::of("open whole share 1 256"), None);
        assert_eq!(Command::of("open timetable 64 18446744073709551616"), None);
    }

    #[test]
    fn wrong_words() {
        for text in ["", "opened", "open", "open whole share 1", "least", "least x", "least 1 2", "least -1"] {
            assert_eq!(Command::of(text), None, "{text}");
        }
        for text in ["cut 5 1 7", "cut 5 1 7:", "cut 5 1 7:1:1", "run 0 1@2", "run 0 1:2@3", "read 5", "read 5g"] {
            assert_eq!(Command::of(text), None, "{text}");
        }
    }

    #[test]
    fn bytes_in_small_and_capital_letters() {
        assert_eq!(Command::of("read 4c4E"), Some(Command::Read(vec![0x4c, 0x4e])));
        assert_eq!(Command::of("read"), Some(Command::Read(vec![])));
    }
}
