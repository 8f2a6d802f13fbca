//! What the first point of a wave or frame decides: request C-11. It counts as
//! lit in a wave and never does in a frame, so each message is also worked out
//! the other way.

use crate::coverage::Case;
use decoder::chunk::{self, Content};
use decoder::message::{FIRST, FRAME, WAVE};
use decoder::receiver::LIMIT;
use decoder::rows::lit;

const METERS: [&str; 3] = ["lit microseconds", "points", "lit points"];

/// The situations that must occur: in how many messages of the streams of
/// coverage.rs, and in how many histories of histories.rs. Each number is at
/// most half of the least that twelve seeds gave when the table was made; the
/// streams have changed since.
pub const SITUATIONS: [(&str, u64, usize); 25] = [
    ("frame lit only at first", 370, 75),
    ("frame lit at first and later", 500, 80),
    ("frame lit only later", 350, 70),
    ("wave lit only at first", 110, 35),
    ("wave lit at first and later", 200, 50),
    (
        "frame lit only at first, 23 in lit points if the first counted",
        50,
        10,
    ),
    (
        "frame lit only at first, 23 in lit microseconds if the first counted",
        35,
        8,
    ),
    (
        "frame lit at first and later, 23 in lit points if the first counted",
        13,
        7,
    ),
    (
        "frame lit at first and later, 23 by 1 in lit points",
        50,
        10,
    ),
    (
        "frame lit at first and later, 23 by 1 in lit microseconds",
        18,
        3,
    ),
    ("frame lit only later, 23 by 1 in lit points", 15, 6),
    ("frame lit only later, 23 by 1 in lit microseconds", 13, 4),
    ("frame lit only at first, 23 by 1 in points", 12, 2),
    (
        "wave lit only at first, 23 in lit points as the first counts",
        50,
        10,
    ),
    (
        "wave lit only at first, 23 in lit microseconds as the first counts",
        17,
        4,
    ),
    (
        "wave lit at first and later, 23 in lit points as the first counts",
        11,
        5,
    ),
    ("split frame dark", 77, 27),
    ("split frame lit at first and later", 92, 32),
    (
        "split frame lit at first and later, 23 by 1 in lit microseconds",
        2,
        0,
    ),
    (
        "split frame lit at first and later, 23 by 1 in lit points",
        10,
        3,
    ),
    (
        "split frame lit at first and later, 23 in lit points if the first counted",
        2,
        1,
    ),
    ("split frame lit only at first", 73, 26),
    (
        "split frame lit only at first, 23 in lit microseconds if the first counted",
        7,
        2,
    ),
    (
        "split frame lit only at first, 23 in lit points if the first counted",
        7,
        3,
    ),
    ("split frame lit only later", 74, 22),
];

/// A wave or frame that passed the checks before 23.
struct Points {
    kind: u8,
    /// Whether it came in fragments.
    split: bool,
    first: bool,
    /// The lit points after the first.
    others: u64,
    count: u64,
    duration: u64,
}

impl Points {
    /// None for a message that is no such wave or frame, or has no points.
    fn of(case: &Case) -> Option<Points> {
        let (message, lent) = (&case.message, case.offer.lent);
        let read = match &case.whole {
            Some(whole) => chunk::whole(&case.governing, FRAME, whole, lent),
            None if message.kind == FIRST => return None,
            None => chunk::read(&case.governing, message.kind, message.data, lent),
        };
        let Ok(Content::Points { rows, duration, .. }) = read else {
            return None;
        };
        let (first, others) = rows.split_first()?;
        Some(Points {
            kind: if message.kind == WAVE { WAVE } else { FRAME },
            split: case.whole.is_some(),
            first: lit(first),
            others: others.iter().filter(|row| lit(row)).count() as u64,
            count: rows.len() as u64,
            duration,
        })
    }

    /// What it adds to the meters if its first point counts as lit where it
    /// is, or if it never does.
    fn adds(&self, first_counts: bool) -> [u64; 3] {
        let lit_points = self.others + u64::from(self.first && first_counts);
        let duration = if lit_points > 0 { self.duration } else { 0 };
        [duration, self.count, lit_points]
    }

    fn name(&self) -> String {
        let kind = match (self.kind, self.split) {
            (WAVE, _) => "wave",
            (_, false) => "frame",
            (_, true) => "split frame",
        };
        let lit = match (self.first, self.others > 0) {
            (true, false) => "lit only at first",
            (true, true) => "lit at first and later",
            (false, true) => "lit only later",
            (false, false) => "dark",
        };
        format!("{kind} {lit}")
    }
}

/// By how much each meter would pass its limit.
fn passed(meters: [u64; 3], adds: [u64; 3]) -> [u64; 3] {
    [0, 1, 2].map(|meter| (meters[meter] + adds[meter]).saturating_sub(LIMIT))
}

/// The names of the meters that would pass their limits.
fn names(passed: [u64; 3]) -> String {
    let names: Vec<&str> = (0..3)
        .filter(|meter| passed[*meter] > 0)
        .map(|meter| METERS[meter])
        .collect();
    names.join(" and ")
}

/// The situations of a message that was accepted or refused by 23.
pub fn situations(case: &Case) -> Vec<String> {
    let number = case.reply.number;
    let Some(points) = Points::of(case).filter(|_| matches!(number, 0 | 23)) else {
        return Vec::new();
    };
    let name = points.name();
    let adds = points.adds(points.kind == WAVE);
    let own = passed(case.meters, adds);
    let otherwise = passed(case.meters, points.adds(points.kind == FRAME));
    assert_eq!(number == 23, own != [0; 3], "{name}");
    let mut list = Vec::new();
    if number == 0 {
        assert_eq!(u64::from(case.reply.lit_points), adds[2], "{name}");
        list.push(name.clone());
    } else if own.iter().sum::<u64>() == 1 {
        list.push(format!("{name}, 23 by 1 in {}", names(own)));
    }
    if number == 0 && otherwise != [0; 3] {
        let meters = names(otherwise);
        list.push(format!("{name}, 23 in {meters} if the first counted"));
    }
    if number == 23 && otherwise == [0; 3] {
        let meters = names(own);
        list.push(format!("{name}, 23 in {meters} as the first counts"));
    }
    list
}
