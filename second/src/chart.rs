//! The chart of a run, as docs/CONSOLE.md has its signs.

use crate::run::{End, Job, NOT_GIVEN};

/// How many slots stand in one part of a chart.
const WIDTH: usize = 60;

/// A run that has been made: its jobs with their deadlines, how it ended, and the slots up to there.
pub struct Made<'a> {
    pub jobs: &'a [Job],
    pub deadlines: &'a [u32],
    pub end: End,
    pub slots: &'a [u16],
}

impl Made<'_> {
    /// The chart of the run, with a row for each of so many lines.
    pub fn chart(&self, lines: usize) -> Vec<String> {
        let rows: Vec<String> = (0..lines as u32).map(|line| self.row(line)).collect();
        let marks: Vec<String> = (0..lines as u32).map(|line| self.marks(line)).collect();
        let mut text = Vec::new();
        for (from, to) in self.parts() {
            text.extend(ruler(from, to));
            for (line, (row, marks)) in rows.iter().zip(&marks).enumerate() {
                text.push(format!("line {line}  {}", part(row, from, to)).trim_end().to_string());
                let marks = part(marks, from, to).trim_end();
                if !marks.is_empty() {
                    text.push(format!("        {marks}"));
                }
            }
        }
        text
    }

    /// The parts of the chart: the columns from one to before another. The last part has one more for the end.
    fn parts(&self) -> Vec<(usize, usize)> {
        let mut parts = Vec::new();
        let mut from = 0;
        while self.slots.len() - from > WIDTH {
            parts.push((from, from + WIDTH));
            from += WIDTH;
        }
        parts.push((from, self.slots.len() + 1));
        parts
    }

    /// The signs of a line, one for each slot, and one more where a job of it is missed.
    fn row(&self, line: u32) -> String {
        let mut left: Vec<(usize, u32, u32)> = self.of(line).map(|(i, job)| (i, job.release, job.cost)).collect();
        let mut row = String::new();
        for (now, entry) in self.slots.iter().enumerate() {
            let waits = left.iter().any(|(_, release, left)| *release as usize <= now && *left > 0);
            let runs = left.iter_mut().find(|(i, _, _)| *i + 1 == usize::from(*entry));
            row.push(match runs {
                _ if *entry == NOT_GIVEN => '-',
                Some((i, _, left)) => {
                    *left -= 1;
                    char::from(b'0' + (*i % 10) as u8)
                }
                None if waits => '_',
                None => '.',
            });
        }
        if matches!(self.end, End::Missed { job, .. } if self.jobs[job as usize].line == line) {
            row.push('!');
        }
        row
    }

    /// The marks of a line, one for each instant up to the end.
    fn marks(&self, line: u32) -> String {
        let mut marks = vec![' '; self.slots.len() + 1];
        for (_, job) in self.of(line) {
            if let Some(mark) = marks.get_mut(job.release as usize) {
                *mark = '^';
            }
        }
        for (i, _) in self.of(line) {
            if let Some(mark) = marks.get_mut(self.deadlines[i] as usize) {
                *mark = if *mark == '^' { 'x' } else { 'v' };
            }
        }
        marks.into_iter().collect()
    }

    /// The jobs of a line, with their places.
    fn of(&self, line: u32) -> impl Iterator<Item = (usize, &Job)> {
        self.jobs.iter().enumerate().filter(move |(_, job)| job.line == line)
    }
}

/// The columns from one to before another, as far as there are any. All signs are of one byte.
fn part(row: &str, from: usize, to: usize) -> &str {
    &row[from.min(row.len())..to.min(row.len())]
}

/// The ruler above some columns: numbers at the tens, and signs at the tens and fives.
fn ruler(from: usize, to: usize) -> [String; 2] {
    let numbers: String = (from..to).step_by(10).map(|ten| format!("{ten:<10}")).collect();
    let sign = |column: usize| match column % 10 {
        0 => '|',
        5 => '+',
        _ => '-',
    };
    let signs: String = (from..to).map(sign).collect();
    [format!("slot    {}", numbers.trim_end()), format!("        {signs}")]
}
