//! Medians over rounds in which all calls take turns.

use std::hint::black_box;
use std::time::{Duration, Instant};

/// A call and its name.
pub type Subject<'a> = (&'static str, &'a mut dyn FnMut());

/// Keeps an answer that nobody uses.
pub fn keep<T>(answer: T) {
    black_box(answer);
}

pub fn once(call: &mut dyn FnMut()) -> Duration {
    let start = Instant::now();
    call();
    start.elapsed()
}

/// The median of each call; every round begins with another call.
pub fn medians(subjects: &mut [Subject], rounds: usize) -> Vec<Duration> {
    let mut times = vec![Vec::with_capacity(rounds); subjects.len()];
    for round in 0..rounds.max(1) {
        for turn in 0..subjects.len() {
            let index = (round + turn) % subjects.len();
            times[index].push(once(subjects[index].1));
        }
    }
    times.iter_mut().map(|times| median(times)).collect()
}

fn median(times: &mut [Duration]) -> Duration {
    times.sort();
    times[times.len() / 2]
}
