//! Readings near the limits of the meters, and waves and frames that just
//! reach a limit or pass it by 1.

use crate::random::Random;
use crate::samples::{lit_samples, Lit};
use decoder::dictionary::Layout;
use decoder::message::WAVE;
use decoder::receiver::{Receiver, LIMIT};

/// How far a reading near the limit is below it.
const DISTANCES: [u64; 16] = [
    0,
    1,
    2,
    3,
    5,
    19,
    20,
    21,
    40,
    100,
    300,
    999,
    1 << 14,
    1 << 22,
    1 << 24,
    1 << 26,
];

/// Which readings may be near the limit. A meter that is full keeps messages
/// from the others, so most of these have one alone.
const NEAR: [[bool; 3]; 8] = [
    [false, false, false],
    [false, false, false],
    [false, false, false],
    [true, true, true],
    [true, false, false],
    [false, true, false],
    [false, false, true],
    [false, false, true],
];

/// Starting readings: 0, small, near the limit, at it or above it.
pub fn start(random: &mut Random) -> [u64; 3] {
    let above = random.chance(4);
    random.pick(&NEAR).map(|near| match random.below(4) {
        0 if above => random.pick(&[LIMIT + 1, LIMIT + 2, u64::MAX]),
        0..=2 if near => LIMIT - random.pick(&DISTANCES),
        2 => random.next() % LIMIT,
        _ => random.pick(&[0, 0, 1, 4_294_967_295]),
    })
}

/// What is left of each meter.
pub fn room(receiver: &Receiver) -> [u64; 3] {
    receiver.readings().map(|reading| LIMIT - reading)
}

/// The most that may be left of a meter for one message to reach its limit. A
/// Duration has 24 bits and is to pass it by 1.
const REACH: [u64; 3] = [0xFF_FFFE, 500, 500];

/// A wave or frame.
#[derive(Clone, Copy)]
struct Plan {
    duration: u64,
    points: usize,
    lit: Lit,
}

/// The Duration and the samples of a wave or frame that reaches the limit of
/// a meter or passes it by 1. None if every meter is far from its limit.
pub fn aimed(
    random: &mut Random,
    layout: &Layout,
    kind: u8,
    room: [u64; 3],
) -> Option<(u32, Vec<u8>)> {
    let near: Vec<usize> = (0..3)
        .filter(|meter| room[*meter] <= REACH[*meter])
        .collect();
    if near.is_empty() {
        return None;
    }
    let plan = match random.pick(&near) {
        0 => lit_time(random, kind, room),
        1 => points(random, kind, room),
        _ => lit_points(random, kind, room),
    };
    let samples = lit_samples(random, layout, plan.points, plan.lit);
    Some((plan.duration as u32, samples))
}

/// Check 20: the fewest samples, but for a frame without any.
fn fewest(kind: u8) -> usize {
    if kind == WAVE {
        20
    } else {
        2
    }
}

/// A Duration that fits in what is left.
fn fitting(random: &mut Random, room: [u64; 3]) -> u64 {
    random.between(0, 50_000).min(room[0] as usize) as u64
}

/// Few lit points, so that another meter decides; most often the first one.
fn few(random: &mut Random) -> Lit {
    let first = random.chance(75);
    let others = if first { random.pick(&[0, 0, 1, 2]) } else { 1 };
    Lit { first, others }
}

fn lit_time(random: &mut Random, kind: u8, room: [u64; 3]) -> Plan {
    Plan {
        duration: room[0] + random.below(2) as u64,
        points: fewest(kind) + random.below(3),
        lit: few(random),
    }
}

/// Most pass the limit, so that something is left for the next one.
fn points(random: &mut Random, kind: u8, room: [u64; 3]) -> Plan {
    let points = room[1] as usize + random.pick(&[0, 1, 1, 1]);
    Plan {
        duration: fitting(random, room),
        points: points.max(fewest(kind)),
        lit: few(random),
    }
}

/// The first point of a wave counts as lit, that of a frame does not. Most
/// waves pass the limit, so that what is left serves a frame.
fn lit_points(random: &mut Random, kind: u8, room: [u64; 3]) -> Plan {
    let left = room[2] as usize;
    let first = random.chance(85);
    let others = if kind == WAVE {
        let counted = left + random.pick(&[0, 1, 1, 1]);
        counted.saturating_sub(usize::from(first))
    } else {
        left + random.below(2)
    };
    Plan {
        duration: fitting(random, room),
        points: fewest(kind).max(1 + others) + random.below(3),
        lit: Lit { first, others },
    }
}
