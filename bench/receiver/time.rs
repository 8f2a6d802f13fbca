//! Nanoseconds a message, or a frame in fragments, of all receivers in turn.

use crate::calls::Receiver;
use crate::cases::Case;
use crate::hosts::{open, BY_VALUE, WAYS};
use std::hint::black_box;
use std::time::{Duration, Instant};

/// A run is shorter than a turn of the scheduler, so that some are undisturbed.
const RUN: Duration = Duration::from_micros(60);
pub const RUNS: usize = 400;

/// The best times in nanoseconds a message or frame, in the order of the ways.
pub type Best = [f64; WAYS.len()];

/// What is measured: it does one thing so many times.
pub type Work<'a> = Box<dyn FnMut(usize) + 'a>;

pub fn best(case: &Case) -> Best {
    let works = [0, 1, 2, 3].map(|way| {
        let mut host = open(way, case);
        Box::new(move |times| host.repeat(&case.messages, times)) as Work
    });
    alternating(works)
}

/// The best time of each.
pub fn alternating<const WORKS: usize>(mut works: [Work; WORKS]) -> [f64; WORKS] {
    let times = works.each_mut().map(fitting);
    let mut best = [f64::INFINITY; WORKS];
    // They alternate, so that a slow moment does not meet one alone.
    for _ in 0..RUNS {
        for (which, work) in works.iter_mut().enumerate() {
            best[which] = best[which].min(run(work, times[which]));
        }
    }
    best
}

/// How many times a run has; to find it out also warms up.
fn fitting(work: &mut Work) -> usize {
    let one = run(work, 100).min(run(work, 100));
    (RUN.as_nanos() as f64 / one).max(1.0) as usize
}

fn run(work: &mut Work, times: usize) -> f64 {
    let start = Instant::now();
    work(times);
    start.elapsed().as_nanos() as f64 / times as f64
}

/// The best time by value where the host keeps one outcome.
pub fn best_in_one_variable(case: &Case) -> f64 {
    let mut host = open(BY_VALUE, case);
    let [best] = alternating([Box::new(move |times| {
        for _ in 0..times {
            for octets in &case.messages {
                host.offer(black_box(octets));
            }
        }
    })]);
    best
}

/// The best time of one copy of a record.
pub fn best_copy() -> f64 {
    let [best] = alternating([copies()]);
    best
}

/// Copies of a record.
pub fn copies() -> Work<'static> {
    let mut records = vec![[7u8; size_of::<Receiver>()]; 2];
    Box::new(move |times| {
        for _ in 0..times {
            let (from, to) = black_box(&mut records).split_at_mut(1);
            to[0].copy_from_slice(&from[0]);
        }
    })
}
