//! Accepted sets of 0 to 200 messages, and sets with the wrong message in each
//! place, behind generated streams.

use crate::compare::All;
use crate::patched::{self, alike, hexadecimal, Patched};
use crate::tally::Tally;
use decoder::set::SetReply;
use generate::places::{channels, Placed, Places};
use generate::probes::probes;
use generate::random::Random;
use generate::stream::stream;
use generate::wrong::ALL;

/// The most messages of the stream that comes before the sets.
const BEFORE: usize = 60;

/// The most messages of a set.
const LONGEST: usize = 200;

/// Lengths of which each place is made wrong in each way; the others have the
/// ways in turn.
const EACH_WAY: [usize; 6] = [1, 2, 3, 9, 64, LONGEST];

/// After every so many places a second message behind is wrong too.
const TWO: usize = 8;

/// So many rounds: each with sets of every length on one receiver, and each way
/// to be wrong in each place of some lengths on others.
pub fn compare(rounds: usize, tally: &mut Tally) {
    for round in 0..rounds as u64 {
        let seed = 1_000 * round;
        let every = left_by_stream(seed, tally);
        for length in 0..=LONGEST {
            let mut sets = Sets::new(&every, length, seed);
            sets.accepted(tally);
            sets.ways_in_turn(tally);
        }
        for (turn, length) in EACH_WAY.into_iter().enumerate() {
            let seed = seed + 1 + turn as u64;
            let of = left_by_stream(seed, tally);
            let mut sets = Sets::new(&of, length, seed);
            sets.accepted(tally);
            sets.each_way(tally);
        }
    }
}

/// The receivers that a generated stream left.
fn left_by_stream(seed: u64, tally: &mut Tally) -> All {
    let stream = stream(&mut Random::new(seed), BEFORE);
    let mut all = All::start(stream.start, tally);
    for (place, offer) in stream.offers.iter().enumerate() {
        let name = format!("before the sets, stream {seed}, message {place}");
        if !all.offer(offer, &name, tally) {
            break;
        }
    }
    all
}

/// Sets of one length on one receiver. The seed and the length give the same
/// sets again.
struct Sets {
    all: All,
    places: Places,
    length: usize,
    random: Random,
    name: String,
}

impl Sets {
    fn new(all: &All, length: usize, seed: u64) -> Sets {
        let mut random = Random::new(seed << 8 | length as u64);
        Sets {
            all: all.clone(),
            places: Places::new(&mut random, &all.second.receiver, &channels(), length),
            length,
            random,
            name: format!("behind stream {seed}, a set of {length}"),
        }
    }

    /// With no wrong message: the record shows what the second receiver has
    /// come to, and what its messages one by one leave.
    fn accepted(&mut self, tally: &mut Tally) {
        let octets = self.places.accepted();
        let mut all = self.all.clone();
        let expected = SetReply {
            place: self.length,
            number: 0,
        };
        let own = self.one_by_one(&octets, expected, &self.name, tally);
        let reply = all.patch(&octets, &self.name, tally);
        let name = &self.name;
        if !tally.same(reply == Some(expected), || format!("{name}: {reply:?}")) {
            return;
        }
        tally.sets.shown += 1;
        let probes = probes(&mut self.random, &all.second.receiver);
        let records = [&all.by_value.receiver, &own.record];
        let name = format!("{name}, beside its messages one by one");
        alike(records, &probes, &name, tally);
        all.probe(&mut self.random, &self.name, tally);
    }

    /// What the message calls say of the messages, one by one.
    fn one_by_one(
        &self,
        octets: &[u8],
        expected: SetReply,
        name: &str,
        tally: &mut Tally,
    ) -> Patched {
        let own = patched::one_by_one(&self.all.by_value.receiver, octets);
        tally.sets.one_by_one += 1;
        tally.same(own.reply == expected, || {
            let (reply, octets) = (own.reply, hexadecimal(octets));
            format!("{name}: one by one {reply:?}, expected {expected:?}: {octets}")
        });
        own
    }

    fn ways_in_turn(&mut self, tally: &mut Tally) {
        for place in 0..self.length {
            let wrong = ALL[(self.length + place) % ALL.len()];
            let placed = self.places.with(&mut self.random, place, wrong);
            let two = place % TWO == 0 && place + 1 < self.length && !wrong.ends();
            let twice = two.then(|| {
                let later = self.random.between(place + 1, self.length - 1);
                let second = (later, self.random.pick(&ALL));
                (self.places).with_two(&mut self.random, (place, wrong), second)
            });
            for placed in placed.into_iter().chain(twice.flatten()) {
                if !self.refused(&placed, tally) {
                    return;
                }
            }
        }
    }

    fn each_way(&mut self, tally: &mut Tally) {
        for place in 0..self.length {
            for wrong in ALL {
                let placed = self.places.with(&mut self.random, place, wrong);
                if placed.is_some_and(|placed| !self.refused(&placed, tally)) {
                    return;
                }
            }
        }
    }

    /// With a wrong message. The receivers are as before, so the next set is
    /// offered to the same ones; false if they are not.
    fn refused(&mut self, placed: &Placed, tally: &mut Tally) -> bool {
        let Placed { place, wrong, .. } = *placed;
        let name = format!("{}, {wrong:?} at {place}", self.name);
        let expected = SetReply {
            place,
            number: wrong.number(),
        };
        self.one_by_one(&placed.octets, expected, &name, tally);
        let reply = self.all.patch(&placed.octets, &name, tally);
        tally.same(reply == Some(expected), || format!("{name}: {reply:?}"))
    }
}
