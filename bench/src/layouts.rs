//! How code lies to the borders of 32 and 64 bytes moves its speed by up to a quarter. So the program is built at several places,
//! each build writes down its times, and the tables are made of the middle times.

use std::arch::global_asm;
use std::fs::{read_to_string, File};
use std::hint::black_box;
use std::io::Write;

// As many bytes as BENCH_SHIFT says stand before all other code of the program.
global_asm!(".globl shifted", "shifted:", concat!(".skip ", env!("BENCH_SHIFT"), ", 0x90"), "ret");

extern "C" {
    fn shifted();
}

/// Keeps the bytes in the program.
pub fn keep_shift() {
    black_box(shifted as unsafe extern "C" fn());
}

/// The times that a build wrote down: a line for each comparison, with the time of each side.
pub struct Record(std::vec::IntoIter<Vec<f64>>);

impl Record {
    pub fn read(path: &str) -> Record {
        let text = read_to_string(path).expect("a record of times");
        let times = |line: &str| line.split(' ').map(|time| time.parse().expect("a time")).collect();
        Record(text.lines().map(times).collect::<Vec<_>>().into_iter())
    }
}

/// Where the times of a comparison come from.
pub enum Times {
    /// They are taken, and written down if a file is named.
    Taken(Option<File>),
    /// They are the middle of those that some builds wrote down.
    Middle(Vec<Record>),
}

/// The middle of some times: the mean of the two in the middle where their number is even.
fn middle(mut all: Vec<f64>) -> f64 {
    all.sort_by(f64::total_cmp);
    (all[(all.len() - 1) / 2] + all[all.len() / 2]) / 2.0
}

impl Times {
    /// The times of the sides of the next comparison, which `take` takes. Each build took its sides in turn, so the ratios to the
    /// first side are the middle of those of the builds.
    pub fn next(&mut self, take: impl FnOnce() -> Vec<f64>) -> Vec<f64> {
        match self {
            Times::Taken(file) => {
                let times = take();
                if let Some(file) = file {
                    let words: Vec<String> = times.iter().map(f64::to_string).collect();
                    writeln!(file, "{}", words.join(" ")).expect("the times are written");
                }
                times
            }
            Times::Middle(records) => {
                let builds: Vec<Vec<f64>> =
                    records.iter_mut().map(|record| record.0.next().expect("times of this comparison")).collect();
                let of_builds = |time: &dyn Fn(&[f64]) -> f64| middle(builds.iter().map(|times| time(times)).collect());
                let first = of_builds(&|times| times[0]);
                (0..builds[0].len()).map(|side| first / of_builds(&|times| times[0] / times[side])).collect()
            }
        }
    }
}
