//! Seeded visits of the console: what is typed, what is to be answered, and of which kind both are.

use crate::command::Command;
use crate::console::{Answer, Console};
use crate::lines::full_watch_list;
use crate::random::Random;
use crate::roster::Roster;
use crate::typed::{self, Plan};
use crate::verdict::Verdict;

/// The kinds of lines, each with what can come of it. A visit has to bring all of them.
pub const KINDS: [(&str, &[&str]); 24] = [
    ("open whole", &["answered"]),
    ("open timetable", &["answered", "refused 17"]),
    ("open whole share", &["answered", "refused 18"]),
    ("open timetable share", &["answered", "refused 17", "refused 18"]),
    ("count", &["answered"]),
    ("least", &["answered"]),
    ("enrol", &["answered", "refused 1", "refused 2", "refused 3", "refused 4", "refused 5", "refused 6"]),
    ("strike", &["answered", "refused 7"]),
    ("recost", &["answered", "refused 4", "refused 7"]),
    ("cut", &["answered", "refused 8", "refused 9", "refused 10", "refused 11"]),
    ("lines", &["answered"]),
    ("rest", &["answered"]),
    ("watched", &["none", "some"]),
    ("counts", &["answered"]),
    ("demand", &["within least", "over least"]),
    ("verdict", &["fits", "overloaded"]),
    ("witness", &["answered", "refused 12"]),
    ("run", &["all met", "missed", "refused 14", "refused 15", "refused 16"]),
    ("run witness", &["missed", "refused 12"]),
    ("write", &["answered"]),
    ("read", &READ),
    ("wrong words", &["unknown"]),
    ("a remark", &["passed over"]),
    ("a blank line", &["passed over"]),
];

/// What can come of reading a sheet.
const READ: [&str; 18] = [
    "answered",
    "refused 1",
    "refused 2",
    "refused 3",
    "refused 4",
    "refused 5",
    "refused 6",
    "refused 8",
    "refused 9",
    "refused 10",
    "refused 11",
    "refused 16",
    "refused 17",
    "refused 18",
    "refused 19",
    "refused 20",
    "refused 21",
    "refused 22",
];

/// What else is looked for, since a roster has to be in some state for it. A visit has to bring all of it, too.
pub const STATES: [&str; 16] = [
    "cut after a cut",
    "enrolled after a cut",
    "struck after a cut",
    "recosted after a cut",
    "refused 8 at a cite that was cut before",
    "fits after a cut",
    "overloaded after a cut",
    "overloaded at a deadline that was cut",
    "witness after a cut",
    "witness in a phase that is not 0",
    "witness typed out and run in its phase",
    "witness typed out and run in another phase",
    "run in a phase that stands for its remainder",
    "open refused with lines",
    "read refused with lines",
    "read with cuts",
];

/// A line that is typed, with what is to be answered.
#[derive(Clone, Debug)]
pub struct Step {
    pub text: String,
    pub answer: Answer,
    pub kind: &'static str,
    pub outcome: String,
    pub states: Vec<&'static str>,
}

/// A visit that is being made: the console, and the deadlines that are cut from the full watch list.
struct Visit {
    console: Console,
    cut: Vec<u32>,
    steps: Vec<Step>,
}

/// Makes a visit. It begins with the opening of a lawful supply.
pub fn make(r: &mut Random) -> Vec<Step> {
    let plan = Plan::new(r);
    let mut visit = Visit { console: Console::start(), cut: Vec::new(), steps: Vec::new() };
    let text = typed::opened(r, &mut visit.console.roster, &plan);
    visit.step(text);
    for _ in 0..r.from_to(9, 39) {
        let text = typed::next(r, &mut visit.console.roster, &plan);
        visit.step(text);
    }
    visit.steps
}

impl Visit {
    /// Types a line.
    fn step(&mut self, text: String) {
        let command = Command::of(&text);
        let typed_witness = self.typed_witness(command.as_ref());
        let with_lines = !self.console.roster.lines.is_empty();
        let answer = self.console.answer(&text);
        let kind = kind(&text, command.as_ref());
        let outcome = outcome(&answer);
        let mut states = Vec::new();
        if let Some(command) = command {
            states.extend(typed_witness);
            states.extend(self.state(&command, &answer, with_lines));
            self.follow(&command, &answer);
        }
        self.steps.push(Step { text, answer, kind, outcome, states });
    }

    /// Whether a run is one of the witness list, before it is run.
    fn typed_witness(&mut self, command: Option<&Command>) -> Option<&'static str> {
        let Some(Command::Run { phase, jobs }) = command else { return None };
        let (worst, list) = self.console.roster.witness(usize::MAX).ok()?;
        if list != *jobs {
            return None;
        }
        let same = phase % self.console.roster.supply.phases() == worst;
        Some(if same { "witness typed out and run in its phase" } else { "witness typed out and run in another phase" })
    }

    /// What an answer shows of the state that the roster was in.
    fn state(&mut self, command: &Command, answer: &Answer, with_lines: bool) -> Option<&'static str> {
        if let Answer::Sentence(refused) = answer {
            return self.state_of_refused(command, refused, with_lines);
        }
        let roster = &self.console.roster;
        match command {
            Command::Read(_) if !cut_from(roster).is_empty() => Some("read with cuts"),
            Command::Run { phase, .. } if *phase >= roster.supply.phases() => {
                Some("run in a phase that stands for its remainder")
            }
            Command::Witness if !answer.text().starts_with("witness phase 0 ") => {
                Some("witness in a phase that is not 0")
            }
            _ if self.cut.is_empty() => None,
            Command::Verdict => Some(self.verdict_after_a_cut()),
            Command::Cut(_) => Some("cut after a cut"),
            Command::Enrol(_) => Some("enrolled after a cut"),
            Command::Strike(_) => Some("struck after a cut"),
            Command::Recost { .. } => Some("recosted after a cut"),
            Command::Witness => Some("witness after a cut"),
            _ => None,
        }
    }

    /// What a refusal shows of the state that the roster was in.
    fn state_of_refused(&self, command: &Command, refused: &str, with_lines: bool) -> Option<&'static str> {
        match command {
            Command::Open { .. } if with_lines => Some("open refused with lines"),
            Command::Read(_) if with_lines => Some("read refused with lines"),
            Command::Cut(certificate) => {
                let at = |i: usize| refused == format!("refused 8 roster place {}", i + 1);
                let mut cites = certificate.cites.iter().enumerate();
                let cut_before = cites.any(|(i, cite)| at(i) && self.cut.contains(&cite.deadline));
                cut_before.then_some("refused 8 at a cite that was cut before")
            }
            _ => None,
        }
    }

    /// What the verdict shows where there are cuts.
    fn verdict_after_a_cut(&mut self) -> &'static str {
        match self.console.roster.verdict() {
            Verdict::Fits => "fits after a cut",
            Verdict::OverloadedAt(t) if self.cut.contains(&t) => "overloaded at a deadline that was cut",
            Verdict::OverloadedAt(_) => "overloaded after a cut",
        }
    }

    /// Follows which deadlines are cut.
    fn follow(&mut self, command: &Command, answer: &Answer) {
        let refused = matches!(answer, Answer::Sentence(_));
        match command {
            Command::Read(_) => self.cut = cut_from(&self.console.roster),
            _ if refused => {}
            Command::Open { .. } | Command::Enrol(_) | Command::Strike(_) => self.cut.clear(),
            Command::Cut(certificate) => self.cut.push(certificate.deadline),
            _ => {}
        }
    }
}

/// The deadlines of the full watch list that are not watched.
fn cut_from(roster: &Roster) -> Vec<u32> {
    full_watch_list(&roster.lines).into_iter().filter(|d| !roster.watched.contains(d)).collect()
}

/// The kind of a line.
fn kind(text: &str, command: Option<&Command>) -> &'static str {
    let Some(command) = command else {
        return match text {
            "" => "a blank line",
            _ if text.starts_with('#') => "a remark",
            _ => "wrong words",
        };
    };
    match command {
        Command::Open { timetable: None, share: None } => "open whole",
        Command::Open { timetable: Some(_), share: None } => "open timetable",
        Command::Open { timetable: None, share: Some(_) } => "open whole share",
        Command::Open { timetable: Some(_), share: Some(_) } => "open timetable share",
        Command::Count { .. } => "count",
        Command::Least(_) => "least",
        Command::Enrol(_) => "enrol",
        Command::Strike(_) => "strike",
        Command::Recost { .. } => "recost",
        Command::Cut(_) => "cut",
        Command::Lines => "lines",
        Command::Rest => "rest",
        Command::Watched => "watched",
        Command::Counts(_) => "counts",
        Command::Demand(_) => "demand",
        Command::Verdict => "verdict",
        Command::Witness => "witness",
        Command::Run { .. } => "run",
        Command::RunWitness => "run witness",
        Command::Write => "write",
        Command::Read(_) => "read",
    }
}

/// What comes of a line, in a word or two.
fn outcome(answer: &Answer) -> String {
    let text = answer.text();
    let words: Vec<&str> = text.split_whitespace().collect();
    match words.as_slice() {
        [] => "passed over".to_string(),
        ["refused", number, ..] => format!("refused {number}"),
        ["unknown:", ..] => "unknown".to_string(),
        ["watched", "0"] => "none".to_string(),
        ["watched", ..] => "some".to_string(),
        ["demand", asked, "of", least] if figure(asked) <= figure(least) => "within least".to_string(),
        ["demand", ..] => "over least".to_string(),
        ["fits"] => "fits".to_string(),
        ["overloaded", _] => "overloaded".to_string(),
        ["all", "met", ..] => "all met".to_string(),
        ["missed", ..] => "missed".to_string(),
        _ => "answered".to_string(),
    }
}

/// A figure of an answer.
fn figure(word: &str) -> u64 {
    word.parse().expect("a figure")
}

#[cfg(test)]
mod tests {
    use super::*;
    use std::collections::BTreeSet;

    #[test]
    fn the_same_visit_from_the_same_seed() {
        let texts = |seed| make(&mut Random::new(seed)).into_iter().map(|step| step.text).collect::<Vec<_>>();
        for seed in 0..20 {
            assert_eq!(texts(seed), texts(seed));
            assert!((10..=40).contains(&texts(seed).len()));
        }
    }

    #[test]
    fn every_kind_has_known_outcomes() {
        let mut came = BTreeSet::new();
        for seed in 0..500 {
            for step in make(&mut Random::new(seed)) {
                let (_, outcomes) = KINDS.iter().find(|(kind, _)| *kind == step.kind).expect("a known kind");
                assert!(outcomes.contains(&step.outcome.as_str()), "{}: {}", step.text, step.outcome);
                assert!(step.states.iter().all(|state| STATES.contains(state)));
                came.insert(step.kind);
            }
        }
        assert_eq!(came.len(), KINDS.len());
    }
}
