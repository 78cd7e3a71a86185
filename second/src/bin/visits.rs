//! Makes seeded visits of the console, types them to the console program, and holds what it prints to this roster.
//!
//! `visits program [seed] [number] [folder]`: so many visits from the seed, to the console program at this path, as one
//! input; visits that differ go into the folder. It ends with status 1 where an answer differs, and where something
//! that can come of a line has not come.

use second::random::Random;
use second::visit::{self, Step, KINDS, STATES};
use std::collections::BTreeMap;
use std::io::{BufRead, BufReader, BufWriter, Write};
use std::path::PathBuf;
use std::process::{Child, ChildStdin, ChildStdout, Command, Stdio};
use std::sync::mpsc::{channel, Receiver, Sender};

/// How many differing visits are written out.
const WRITTEN: u64 = 50;

/// The words that are typed behind each line, with the number of the line. They are unknown, so that their answer shows
/// where the answer to the line ends.
const END: &str = "end of";

/// What came of the lines of a kind, and how many answers differ.
#[derive(Default)]
struct Tally {
    outcomes: BTreeMap<String, u64>,
    differ: u64,
}

/// Everything that is counted, and the folder for differing visits.
struct Counts {
    kinds: BTreeMap<&'static str, Tally>,
    states: BTreeMap<&'static str, u64>,
    visits: u64,
    differ: u64,
    not_compared: u64,
    folder: PathBuf,
}

impl Counts {
    /// Counts a line whose answer has been compared.
    fn step(&mut self, step: &Step, agrees: bool) {
        let tally = self.kinds.entry(step.kind).or_default();
        *tally.outcomes.entry(step.outcome.clone()).or_default() += 1;
        tally.differ += u64::from(!agrees);
        for state in &step.states {
            *self.states.entry(state).or_default() += 1;
        }
    }

    /// Writes a visit into the folder, up to the answer that differs, while there are few of them.
    fn keep(&mut self, name: &str, steps: &[Step], theirs: &[String]) {
        self.differ += 1;
        if self.differ > WRITTEN {
            return;
        }
        let typed: String = steps.iter().map(|step| format!("{}\n", step.text)).collect();
        let ours = steps.last().expect("a visit has a line").answer.text();
        let answers = format!("ours:\n{ours}\ntheirs:\n{}\n", theirs.join("\n"));
        std::fs::create_dir_all(&self.folder).expect("the folder is made");
        std::fs::write(self.folder.join(format!("visit-{name}.txt")), typed).expect("the visit is written");
        std::fs::write(self.folder.join(format!("visit-{name}.answers")), answers).expect("the answers are written");
    }

    /// Prints everything, and answers whether all that can come has come, and nothing else.
    fn print(&self) -> bool {
        let mut complete = true;
        let mut all = 0;
        for (kind, outcomes) in KINDS {
            let none = Tally::default();
            let tally = self.kinds.get(kind).unwrap_or(&none);
            all += tally.outcomes.values().sum::<u64>();
            let came = |outcome: &str| tally.outcomes.get(outcome).copied().unwrap_or(0);
            let text: Vec<String> = outcomes.iter().map(|outcome| format!("{} {outcome}", came(outcome))).collect();
            println!("{kind}: {}; {} differ", text.join(", "), tally.differ);
            complete &= outcomes.iter().all(|outcome| came(outcome) > 0);
            for outcome in tally.outcomes.keys().filter(|outcome| !outcomes.contains(&outcome.as_str())) {
                println!("{kind}: {outcome} should not come");
                complete = false;
            }
        }
        for state in STATES {
            let times = self.states.get(state).copied().unwrap_or(0);
            println!("{state}: {times}");
            complete &= times > 0;
        }
        println!("visits: {} with {all} lines compared; {} differ", self.visits, self.differ);
        if self.not_compared > 0 {
            println!("lines behind a difference, not compared: {}", self.not_compared);
        }
        complete
    }
}

/// Makes the visits and types them; each is handed on before it is typed.
fn make_and_type(seed: u64, number: u64, input: ChildStdin, made: Sender<Vec<Step>>) {
    let mut input = BufWriter::new(input);
    let mut typed: u64 = 0;
    for i in 0..number {
        let steps = visit::make(&mut Random::new(seed.wrapping_mul(1 << 32).wrapping_add(i)));
        let mut text = String::new();
        for step in &steps {
            typed += 1;
            text += &format!("{}\n{END} {typed}\n", step.text);
        }
        // Both fail where the console has ended, which shows in what it has printed.
        if made.send(steps).is_err() || input.write_all(text.as_bytes()).is_err() {
            return;
        }
    }
}

/// What the console prints for a line, up to the answer to the words behind it. It is no answer where the output ends
/// before, or where the words behind another line are answered.
fn answer(output: &mut BufReader<ChildStdout>, number: u64) -> Result<Vec<String>, Vec<String>> {
    let end = format!("unknown: {END} {number}: ");
    let any_end = format!("unknown: {END} ");
    let mut lines = Vec::new();
    loop {
        let mut bytes = Vec::new();
        if output.read_until(b'\n', &mut bytes).expect("the output is read") == 0 {
            return Err(lines);
        }
        let line = String::from_utf8_lossy(&bytes);
        let line = line.strip_suffix('\n').unwrap_or(&line);
        if line.starts_with(&end) {
            return Ok(lines);
        }
        lines.push(line.to_string());
        if line.starts_with(&any_end) {
            return Err(lines);
        }
    }
}

/// Compares the visits with what the console prints; false where it ends too early or prints more.
fn compare(output: ChildStdout, made: Receiver<Vec<Step>>, seed: u64, counts: &mut Counts) -> bool {
    let mut output = BufReader::new(output);
    let mut typed = 0;
    for steps in made {
        let name = format!("{seed}-{}", counts.visits);
        counts.visits += 1;
        let mut differs = false;
        for (i, step) in steps.iter().enumerate() {
            typed += 1;
            let (theirs, ended) = match answer(&mut output, typed) {
                Ok(lines) => (lines, false),
                Err(lines) => (lines, true),
            };
            if differs {
                // The roster may no longer be the same.
                counts.not_compared += 1;
            } else {
                differs = ended || !step.answer.agrees(&theirs);
                counts.step(step, !differs);
                if differs {
                    counts.keep(&name, &steps[..=i], &theirs);
                }
            }
            if ended {
                println!("the console ended in visit {name}, or left an answer out");
                return false;
            }
        }
    }
    let mut rest = Vec::new();
    let more = output.read_until(b'\n', &mut rest).expect("the output is read") > 0;
    if more {
        println!("behind the last answer stands: {}", String::from_utf8_lossy(&rest).trim_end());
    }
    !more
}

/// Starts the console.
fn start(program: &str) -> Child {
    Command::new(program).stdin(Stdio::piped()).stdout(Stdio::piped()).spawn().expect("the console starts")
}

fn main() {
    let arguments: Vec<String> = std::env::args().collect();
    let figure = |i: usize, otherwise: u64| arguments.get(i).map_or(otherwise, |a| a.parse().expect("a number"));
    let program = arguments.get(1).expect("the path of the console program");
    let seed = figure(2, 1);
    let number = figure(3, 20_000);
    let folder = PathBuf::from(arguments.get(4).map_or("differ", |a| a.as_str()));
    let mut counts =
        Counts { kinds: BTreeMap::new(), states: BTreeMap::new(), visits: 0, differ: 0, not_compared: 0, folder };
    let mut console = start(program);
    let input = console.stdin.take().expect("an input");
    let output = console.stdout.take().expect("an output");
    let (made, visits) = channel();
    let typing = std::thread::spawn(move || make_and_type(seed, number, input, made));
    let whole = compare(output, visits, seed, &mut counts);
    typing.join().expect("the visits are made");
    let status = console.wait().expect("the console ends");
    if !status.success() {
        println!("the console ends with {status}");
    }
    let complete = counts.print();
    if !complete {
        println!("not everything came that should come, or something came that should not");
    }
    if counts.differ > 0 || !whole || !complete || !status.success() {
        std::process::exit(1);
    }
}
