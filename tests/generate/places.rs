//! Sets with the wrong message in each place (request C-14).

use crate::random::Random;
use crate::set::{accepted, Set};
use crate::wrong::Wrong;
use crate::wrong_octets::Place;
use decoder::receiver::Receiver;

/// Every channel.
pub fn channels() -> Vec<u8> {
    (0..64).collect()
}

/// A set that is accepted but for one message.
pub struct Placed {
    pub octets: Vec<u8>,
    /// How many messages there are, the wrong one counted.
    pub count: usize,
    pub place: usize,
    pub wrong: Wrong,
}

/// A set of messages that a receiver accepts, and what to put in their places.
pub struct Places {
    set: Set,
    channels: Vec<u8>,
}

impl Places {
    /// So many messages on these channels.
    pub fn new(random: &mut Random, receiver: &Receiver, channels: &[u8], count: usize) -> Places {
        Places {
            set: accepted(random, receiver, channels, count),
            channels: channels.to_vec(),
        }
    }

    /// The octets of all messages, none of them wrong.
    pub fn accepted(&self) -> Vec<u8> {
        self.set.messages.concat()
    }

    /// The set with the message at a place wrong in this way. None if no
    /// channel is such that it can be. What cannot stand before another message
    /// is the last.
    pub fn with(&self, random: &mut Random, place: usize, wrong: Wrong) -> Option<Placed> {
        let behind = self.behind(place, wrong);
        self.placed(random, place, wrong, behind)
    }

    /// The same with one more that is wrong behind it: the first counts.
    pub fn with_two(
        &self,
        random: &mut Random,
        (place, wrong): (usize, Wrong),
        (later, second): (usize, Wrong),
    ) -> Option<Placed> {
        let behind = self.behind(later, second);
        let second = self.wrong(random, later, second, behind)?;
        let between = &self.set.messages[place + 1..later];
        let behind = [between, &[second], behind].concat();
        self.placed(random, place, wrong, &behind)
    }

    /// The messages before a place, the wrong one, and those behind.
    fn placed(
        &self,
        random: &mut Random,
        place: usize,
        wrong: Wrong,
        behind: &[Vec<u8>],
    ) -> Option<Placed> {
        let own = self.wrong(random, place, wrong, behind)?;
        let parts = [&self.set.messages[..place], &[own], behind].concat();
        Some(Placed {
            octets: parts.concat(),
            count: parts.len(),
            place,
            wrong,
        })
    }

    fn behind(&self, place: usize, wrong: Wrong) -> &[Vec<u8>] {
        match wrong.ends() {
            true => &[],
            false => &self.set.messages[place + 1..],
        }
    }

    fn wrong(
        &self,
        random: &mut Random,
        place: usize,
        wrong: Wrong,
        behind: &[Vec<u8>],
    ) -> Option<Vec<u8>> {
        let of = Place {
            receiver: &self.set.states[place],
            channels: &self.channels,
            behind: behind.iter().map(Vec::len).sum(),
        };
        of.octets(random, wrong)
    }
}
