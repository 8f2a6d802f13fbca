//! The lengths of the assembly slices lent with the messages of a stream
//! (request C-12). A host lends the start of one buffer: where a length
//! changes, the octets that both slices have stay as they are.

use crate::random::Random;
use decoder::receiver::Gathering;

/// The most octets that are ever lent.
pub const LONGEST: usize = 1 << 18;

/// In so many of 100 streams with split frames the length changes while a
/// frame is gathered, with so many of 100 messages.
const UNSTEADY: (usize, usize) = (10, 15);

/// In so many of 100 streams with split frames the length is chosen for each
/// frame; in the others it is one over the whole stream.
const BY_FRAME: usize = 40;

pub struct Lengths {
    now: usize,
    by_frame: bool,
    /// How many of 100 messages change it while a frame is gathered.
    changes: usize,
}

impl Lengths {
    /// Of a stream with split frames or without.
    pub fn new(random: &mut Random, split: bool) -> Lengths {
        let short = [0, 3, 4, 64, 300];
        let long = [1_000, 1_000, 4_000, 4_000, 16_000, 16_000, 65_536];
        let now = if split && random.chance(75) {
            random.pick(&long)
        } else {
            random.pick(&short)
        };
        let unsteady = split && random.chance(UNSTEADY.0);
        Lengths {
            now,
            by_frame: split && random.chance(BY_FRAME),
            changes: if unsteady { UNSTEADY.1 } else { 0 },
        }
    }

    pub fn now(&self) -> usize {
        self.now
    }

    /// Before the first fragment of a frame, with the octets so far after each
    /// of its fragments: none, one too short at one of them, exactly enough
    /// or more.
    pub fn begin(&mut self, random: &mut Random, gathering: Option<Gathering>, sums: &[usize]) {
        if !self.by_frame || gathering.is_some() {
            return;
        }
        let total = sums[sums.len() - 1];
        let chosen = match random.below(20) {
            0 => 0,
            1..=4 => random.pick(sums).saturating_sub(1),
            5 => total.saturating_sub(1),
            6..=11 => total,
            12 => total + 1,
            13 => 65_536,
            _ => total + random.between(2, 400),
        };
        self.now = chosen.min(LONGEST);
    }

    /// The length lent with the next message.
    pub fn next(&mut self, random: &mut Random, gathering: Option<Gathering>) -> usize {
        if let Some(held) = gathering.filter(|_| random.chance(self.changes)) {
            self.now = match random.below(5) {
                0 => held.octets.saturating_sub(random.between(1, 3)),
                1 => held.octets + random.below(4),
                2 => self.now + random.between(1, 50),
                _ => held.octets + random.between(4, 3_000),
            };
            self.now = self.now.min(LONGEST);
        }
        self.now
    }
}
