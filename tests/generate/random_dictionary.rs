//! Random dictionaries near those that are accepted, for the comparisons of
//! the tag layer.

use crate::random::Random;
use crate::unknown;

/// The signals other than colours.
const SIGNALS: [u16; 7] = [0x4200, 0x4210, 0x4220, 0x4201, 0x4211, 0x5C10, 0x5C20];

/// Known tags and words near them, put in at random places: unknown tags of
/// each group that has them, words that give 9, and groups that are not defined.
pub const NOTABLE: [u16; 52] = [
    0x0000, 0x0001, 0x0002, 0x000F, 0x0010, 0x0012, 0x0021, 0x00FF, 0x0100, 0x1000, 0x1001, 0x100F,
    0x1010, 0x10FF, 0x1100, 0x1120, 0x1180, 0x1108, 0x1102, 0x11FF, 0x1200, 0x4000, 0x4001, 0x4010,
    0x4011, 0x40F0, 0x4100, 0x4101, 0x4102, 0x410F, 0x4110, 0x4200, 0x4201, 0x4202, 0x4210, 0x4211,
    0x4212, 0x4220, 0x4221, 0x4230, 0x4300, 0x5000, 0x5001, 0x53FF, 0x5400, 0x5C00, 0x5C01, 0x5C10,
    0x5C20, 0x5C30, 0x5CFF, 0xC000,
];

impl Random {
    fn one_in(&mut self, count: usize) -> bool {
        self.below(count) == 0
    }

    /// Any word, or one of the notable ones.
    fn word(&mut self) -> u16 {
        if self.one_in(3) {
            self.next() as u16
        } else {
            NOTABLE[self.below(NOTABLE.len())]
        }
    }

    /// A dictionary that keeps the rules unless it grows too long, then
    /// changed in up to three places.
    pub fn dictionary(&mut self) -> Vec<u16> {
        let mut words = self.orderly();
        let changes = [0, 0, 1, 1, 2, 3][self.below(6)];
        for _ in 0..changes {
            self.change(&mut words);
        }
        words.truncate(510);
        words
    }

    /// Groups of words that belong together, in a random order.
    fn orderly(&mut self) -> Vec<u16> {
        let optional = self.below(101);
        let mut groups: Vec<Vec<u16>> = Vec::new();
        for (place, signal) in SIGNALS.into_iter().enumerate() {
            if place < 2 || self.below(100) < optional {
                groups.push(self.precise(vec![signal]));
            }
        }
        for _ in 0..[1, 1, 2, 3, 5, 8, 8, 9][self.below(8)] {
            groups.push(self.colour());
        }
        for _ in 0..[0, 0, 1, 2, 4, 8, 16][self.below(7)] {
            groups.push(vec![0x4000]);
        }
        for _ in 0..[0, 0, 1, 2, 4, 30][self.below(6)] {
            groups.push(self.void());
        }
        for _ in 0..[0, 0, 0, 1, 2, 4, 12][self.below(7)] {
            groups.push(unknown::group(self));
        }
        if self.one_in(2) {
            groups.push(vec![0x4100 + u16::from(self.one_in(2))]);
        }
        if self.one_in(2) {
            groups.push(vec![self.space()]);
        }
        self.shuffle(&mut groups);
        groups.concat()
    }

    /// The words, in half the cases with precision after them.
    fn precise(&mut self, mut words: Vec<u16>) -> Vec<u16> {
        if self.one_in(2) {
            words.push(0x4010);
        }
        words
    }

    fn colour(&mut self) -> Vec<u16> {
        let mut words = if self.one_in(3) {
            self.precise(vec![0x5C00])
        } else {
            Vec::new()
        };
        words.push(match words.len() {
            0 => 0x5001 + self.below(0x3FF) as u16,
            _ => 0x5000,
        });
        self.precise(words)
    }

    fn void(&mut self) -> Vec<u16> {
        let skipped = self.below(16) as u16;
        let mut words = vec![skipped];
        words.extend((0..skipped).map(|_| self.word()));
        words
    }

    /// A space modifier without reserved values.
    fn space(&mut self) -> u16 {
        let mut field = |values: &[u16]| values[self.below(values.len())];
        let (glin, clin) = (field(&[0, 1, 3]), field(&[0, 1, 2, 3]));
        let (cbal, ctim) = (field(&[0, 1, 3]), field(&[0, 1, 3]));
        0x1100 | glin << 6 | clin << 4 | cbal << 2 | ctim
    }

    /// Replaces, inserts, removes, doubles or swaps a word, or cuts the end.
    fn change(&mut self, words: &mut Vec<u16>) {
        if words.is_empty() {
            return;
        }
        let place = self.below(words.len());
        let other = self.below(words.len());
        match self.below(6) {
            0 => words[place] = self.word(),
            1 => words.insert(place, self.word()),
            2 => {
                words.remove(place);
            }
            3 => words.insert(other, words[place]),
            4 => words.swap(place, other),
            _ => words.truncate(place),
        }
    }
}
