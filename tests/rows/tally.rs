//! Counts cases and outcomes, and prints the first differences.

use std::fmt::Write;

/// How many differences are printed.
const PRINTED: u64 = 10;

/// What the decoder expected of a call, as far as it is counted.
#[derive(Clone, Copy)]
#[repr(usize)]
pub enum Outcome {
    Layout,
    Refused8,
    Refused9,
    Refused10,
    Refused11,
    Refused12,
    Exact,
    Short,
    Longer,
    Dark,
    AllLit,
    SomeLit,
    CutSample,
    Mapping,
    Refused13,
    Refused14,
    Placed4,
    Placed6,
    Dropped,
    Refused21,
}

/// The words of the last line, in the order of the outcomes.
const WORDS: [&str; 20] = [
    "layouts",
    "8:",
    "9:",
    "10:",
    "11:",
    "12:",
    "draws exact",
    "short",
    "longer",
    "dark",
    "all-lit",
    "some-lit",
    "cut-sample",
    "mappings",
    "13:",
    "14:",
    "placed mode-4",
    "mode-6",
    "dropped",
    "21:",
];

/// The outcome of a refusal by the checks 8 to 14.
pub fn refusal(number: u32) -> Outcome {
    match number {
        8 => Outcome::Refused8,
        9 => Outcome::Refused9,
        10 => Outcome::Refused10,
        11 => Outcome::Refused11,
        12 => Outcome::Refused12,
        13 => Outcome::Refused13,
        14 => Outcome::Refused14,
        _ => panic!("the decoder gives no refusal of 8 to 14"),
    }
}

/// What was seen so far.
#[derive(Default)]
pub struct Tally {
    cases: u64,
    points: u64,
    lit_points: u64,
    outcomes: [u64; WORDS.len()],
    differed: u64,
}

impl Tally {
    /// Counts one call, and prints `what` where it differed.
    pub fn case(&mut self, same: bool, what: impl FnOnce() -> String) {
        self.cases += 1;
        if !same {
            self.differed += 1;
            if self.differed <= PRINTED {
                println!("differs: {}", what());
            }
        }
    }

    pub fn outcome(&mut self, outcome: Outcome) {
        self.outcomes[outcome as usize] += 1;
    }

    pub fn drawn(&mut self, points: usize, lit_points: usize) {
        self.points += points as u64;
        self.lit_points += lit_points as u64;
    }

    /// The line printed at the end.
    pub fn line(&self) -> String {
        let mut text = format!("cases {}", self.cases);
        for (word, count) in WORDS.iter().zip(self.outcomes) {
            let _ = write!(text, " {word} {count}");
        }
        let _ = write!(text, " points {} lit {}", self.points, self.lit_points);
        let _ = write!(text, " differed {}", self.differed);
        text
    }

    /// True if nothing differed and every outcome occurred.
    pub fn passed(&self) -> bool {
        self.differed == 0 && self.outcomes.iter().all(|count| *count > 0)
    }
}

/// Octets in hexadecimal, cut where they are many.
pub fn hexadecimal(octets: &[u8]) -> String {
    let mut text = String::new();
    for octet in octets.iter().take(160) {
        let _ = write!(text, "{octet:02X}");
    }
    if octets.len() > 160 {
        let _ = write!(text, ".. ({} octets)", octets.len());
    }
    text
}
