//! Calls both sides and counts the answers.

use crate::cases::shown;
use decoder::dictionary::answer;
use std::fmt::Write;

extern "C" {
    fn mewkoast_dictionary(mode: u32, tags: *const u8, length: usize) -> u32;
}

/// The answers counted one by one; every other one counts as accepted.
const REFUSALS: [u32; 7] = [105, 106, 108, 109, 110, 111, 112];

/// The widths a sample can have.
const WIDTHS: std::ops::RangeInclusive<u32> = 3..=32;

/// How many differences are printed.
const PRINTED: u64 = 10;

/// What was seen so far.
#[derive(Default)]
pub struct Tally {
    pub cases: u64,
    pub accepted: u64,
    pub refused: [u64; 7],
    pub differed: u64,
}

impl Tally {
    /// Offers one dictionary to both sides.
    pub fn compare(&mut self, mode: u32, tags: &[u8]) {
        // SAFETY: the pointer and the length are those of one slice.
        let given = unsafe { mewkoast_dictionary(mode, tags.as_ptr(), tags.len()) };
        let expected = answer(mode, tags);
        self.cases += 1;
        if given != expected {
            self.differ(mode, tags, given, expected);
        }
        match REFUSALS.iter().position(|refusal| *refusal == expected) {
            Some(place) => self.refused[place] += 1,
            None => {
                assert!(WIDTHS.contains(&expected), "the decoder gives no width");
                self.accepted += 1;
            }
        }
    }

    #[cold]
    fn differ(&mut self, mode: u32, tags: &[u8], given: u32, expected: u32) {
        self.differed += 1;
        if self.differed <= PRINTED {
            let case = shown(mode, tags);
            println!("{case}: given {given}, expected {expected}");
        }
    }

    /// The line printed at the end.
    pub fn line(&self) -> String {
        let mut text = format!("cases {} accepted {}", self.cases, self.accepted);
        for (refusal, count) in REFUSALS.iter().zip(self.refused) {
            let _ = write!(text, " {refusal}: {count}");
        }
        let _ = write!(text, " differed {}", self.differed);
        text
    }

    /// True if nothing differed and every kind of answer occurred.
    pub fn passed(&self) -> bool {
        self.differed == 0 && self.accepted > 0 && self.refused.iter().all(|count| *count > 0)
    }
}
