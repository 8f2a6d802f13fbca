//! Records that break the consistency rule: document 01, check 1, "The record
//! given breaks the receiver's written consistency rule [...]; it is handed
//! back as it came." include/mewkoast.h has the rule. And records at its edges,
//! which keep it. All have numbers of what is gathered at random: "no value in
//! `gathered`" breaks the rule.

use crate::calls::{self, Receiver};
use crate::lent::{Record, Slices};
use crate::messages::{first_fragment, FRAME, ROUTINGS};
use crate::most::MOST;
use crate::record::{channel, Channel, CHANNELS, KNOWN};
use crate::set_records;
use crate::tally::Tally;
use decoder::receiver::{Reply, LIMIT};
use generate::random::Random;

/// A message that check 2 refuses, so that none but check 1 comes before.
const CUT: &[u8] = FRAME.first_chunk::<3>().unwrap();

/// A record with an open channel of each mode.
pub fn opened(tally: &mut Tally) -> Receiver {
    let mut record = calls::start([0; 3]).receiver;
    for octets in ROUTINGS {
        let next = calls::message(&record, &octets, &mut [], &mut [], &mut []);
        let reply = next.reply.own();
        tally.same(reply.number == 0, || format!("a routing: {reply:?}"));
        record = next.receiver;
    }
    record
}

/// Offers messages to every broken copy of a record, and to copies that just
/// keep the rule.
pub fn offer(record: &Receiver, tally: &mut Tally) {
    let mut copies = Copies {
        record,
        tally,
        number: 1,
        way: "",
        random: Random::new(1),
    };
    copies.meters(LIMIT + 1);
    copies.meters(u64::MAX);
    for number in 0..CHANNELS {
        copies.broken(number);
    }
    // 2 is the first check after the record's own.
    copies.number = 2;
    copies.meters(LIMIT);
    for number in 0..CHANNELS {
        copies.sound(number);
    }
}

/// Four numbers of what is gathered, most of them at an edge.
fn gathered(random: &mut Random) -> [u32; 4] {
    let edges = [0, 1, 3, 4, 64, 65, 256, MOST, MOST + 1, u32::MAX];
    [(); 4].map(|()| match random.chance(70) {
        true => random.pick(&edges),
        false => random.next() as u32,
    })
}

struct Copies<'a> {
    record: &'a Receiver,
    tally: &'a mut Tally,
    /// What a message of three octets gets.
    number: u32,
    way: &'static str,
    random: Random,
}

impl Copies<'_> {
    fn meters(&mut self, reading: u64) {
        self.way = "a meter";
        for meter in 0..3 {
            let mut copy = *self.record;
            copy.meters[meter] = reading;
            self.answered(copy);
        }
    }

    /// What no channel may have, open or closed.
    fn broken(&mut self, number: usize) {
        self.way = "an unknown state";
        for state in [4, 6, 8, 9, 128, 255] {
            self.with(number, |channel| channel.set_state(state));
        }
        for state in KNOWN {
            self.way = "a size above 32";
            self.sizes(number, state, [(33, 3), (128, 0), (255, 8)]);
            self.way = "colours above 8";
            self.sizes(number, state, [(5, 9), (32, 128), (0, 255)]);
        }
    }

    /// The most and the least that the rule allows.
    fn sound(&mut self, number: usize) {
        self.way = "a size of 0 or 32, 0 or 8 colours";
        for state in KNOWN {
            self.sizes(number, state, [(0, 0), (0, 8), (32, 8)]);
        }
    }

    /// A channel in this state with each size and count of colours.
    fn sizes(&mut self, number: usize, state: u8, sizes: [(u8, u8); 3]) {
        for (size, colours) in sizes {
            self.with(number, |channel| {
                channel.set_state(state);
                channel.set_size(size);
                channel.set_colours(colours);
            });
        }
    }

    fn with(&mut self, number: usize, change: impl FnOnce(&mut Channel)) {
        let mut copy = *self.record;
        change(&mut channel(&mut copy, number));
        self.answered(copy);
    }

    fn answered(&mut self, mut copy: Receiver) {
        copy.gathered = gathered(&mut self.random);
        self.refused(&copy, CUT);
        if self.number == 1 {
            self.refused(&copy, &FRAME);
            self.refused(&copy, &first_fragment(2));
            self.tally.number(1);
            set_records::broken(&copy, self.way, self.tally);
        } else {
            set_records::sound(&copy, self.way, self.tally);
        }
    }

    /// By value and in place: the reply is the number and 0, the record is the
    /// one given, the readings are those of the record "as they stand", and
    /// the slices are unchanged.
    fn refused(&mut self, copy: &Receiver, octets: &[u8]) {
        let [before, mut by_value, mut in_place] = [(); 3].map(|()| Slices::small());
        let back = by_value.message(copy, octets);
        let mut lent = Record::of(copy);
        let replies = [back.reply.own(), lent.offer(octets, &mut in_place)];
        let expected = Reply {
            number: self.number,
            ..Reply::default()
        };
        let way = self.way;
        self.tally.broken += usize::from(self.number == 1);
        for reply in replies {
            self.tally
                .same(reply == expected, || format!("{way}: {reply:?}"));
        }
        self.tally
            .same(back.receiver == *copy && lent.holds(copy), || {
                format!("{way}: another record")
            });
        self.tally
            .same(by_value == before && in_place == before, || {
                format!("{way}: the slices")
            });
        for readings in [calls::readings(copy), lent.readings()] {
            self.tally
                .same(readings == copy.meters, || format!("{way}: {readings:?}"));
        }
    }
}
