//! How long a call takes: the median of several repetitions, taken in turn from each side.

use std::hint::black_box;
use std::time::Instant;

/// One way to an answer, which makes it a number of times.
pub struct Side<'a, A> {
    pub name: &'static str,
    pub times: u32,
    pub answer: Box<dyn FnMut(u32) -> A + 'a>,
}

impl<'a, A> Side<'a, A> {
    /// A way that is told how often it is to make its answer.
    pub fn often(name: &'static str, times: u32, answer: impl FnMut(u32) -> A + 'a) -> Side<'a, A> {
        Side { name, times, answer: Box::new(answer) }
    }

    /// A way that makes its answer once.
    pub fn single(name: &'static str, times: u32, mut answer: impl FnMut() -> A + 'a) -> Side<'a, A> {
        Side::often(name, times, move |times| {
            for _ in 1..times {
                black_box(answer());
            }
            answer()
        })
    }
}

fn median(mut all: Vec<f64>) -> f64 {
    all.sort_by(f64::total_cmp);
    all[all.len() / 2]
}

/// The median time of an answer on each side, in microseconds.
pub fn medians<A>(repetitions: usize, sides: &mut [Side<A>]) -> Vec<f64> {
    let mut taken: Vec<Vec<f64>> = sides.iter().map(|_| Vec::new()).collect();
    for _ in 0..repetitions {
        for (side, taken) in sides.iter_mut().zip(&mut taken) {
            let start = Instant::now();
            black_box((side.answer)(side.times));
            taken.push(start.elapsed().as_secs_f64() * 1e6 / f64::from(side.times));
        }
    }
    taken.into_iter().map(median).collect()
}
