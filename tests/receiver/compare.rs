//! One stream through the proved receiver by value and in place, the second
//! receiver and the look-back rule.

use crate::calls;
use crate::kept::Kept;
use crate::lent::{Lengths, Record, Slices};
use crate::record::shown;
use crate::section;
use crate::tally::Tally;
use decoder::chunk::Lent;
use decoder::lookback::{sums, verdicts, Offered};
use decoder::receiver::Receiver;
use generate::assembly::LONGEST;
use generate::random::Random;
use generate::stream::{Offer, Stream};

/// The receivers, and what the proved one gave so far.
#[derive(Clone)]
pub struct All {
    pub by_value: Kept<calls::Receiver>,
    pub in_place: Kept<Record>,
    pub second: Kept<Receiver>,
    given: Vec<(u32, [u64; 3])>,
}

impl All {
    pub fn start(readings: [u64; 3], tally: &mut Tally) -> All {
        let [lit_time, points, lit_points] = readings;
        let (second, expected) = Receiver::start(lit_time, points, lit_points);
        let started = calls::start(readings);
        let by_value = started.receiver;
        // What the record held before must not matter.
        let mut in_place = Record::new(Lengths::RECORD);
        for reply in [started.reply.own(), in_place.begin(readings)] {
            tally.same(reply == expected, || {
                format!("start {readings:?}: {reply:?}")
            });
        }
        for after in [calls::readings(&by_value), in_place.readings()] {
            tally.same(after == second.readings(), || {
                format!("start {readings:?}: readings {after:?}")
            });
        }
        let alike = in_place.holds(&by_value) && shown(&by_value.gathered).is_none();
        tally.same(alike, || format!("start {readings:?}: the records"));
        let lent = Lent {
            rows: 0,
            levels: 0,
            assembly: LONGEST,
        };
        let slices = Slices::new(lent, tally.messages as u32);
        All {
            by_value: Kept::new(by_value, &slices),
            in_place: Kept::new(in_place, &slices),
            second: Kept::new(second, &slices),
            given: Vec::new(),
        }
    }

    fn slices(&mut self) -> [&mut Slices; 3] {
        [
            &mut self.by_value.slices,
            &mut self.in_place.slices,
            &mut self.second.slices,
        ]
    }

    /// Offers one message to all; true if they did the same.
    pub fn offer(&mut self, offer: &Offer, name: &str, tally: &mut Tally) -> bool {
        let salt = 0x9E37_79B1u32.wrapping_mul(tally.messages as u32 | 1);
        let next = Slices::rows_and_levels(offer.lent, salt);
        for slices in self.slices() {
            slices.renew(&next, offer.lent.assembly);
        }
        let (before, octets) = (self.by_value.receiver, &offer.octets);
        let in_place = self.in_place.offer(octets);
        let by_value = self.by_value.offer(octets);
        let expected = self.second.offer(octets);
        let number = by_value.reply.number;
        tally.messages += 1;
        tally.number(number);
        self.given.push((number, by_value.readings));
        let mut same = by_value.same(&expected, &format!("{name}, by value"), tally);
        same &= in_place.same(&expected, &format!("{name}, in place"), tally);
        same &= section::same(octets, name, tally);
        let now = &self.by_value.receiver;
        same &= tally.same(self.in_place.receiver.holds(now), || {
            format!("{name}: the records differ")
        });
        // "A refusal changes no record, meter or slice; only 19 closes the
        // channel." What is gathered and the assembly slice are compared above.
        let kept = before.channels == now.channels && before.meters == now.meters;
        same & tally.same(kept || matches!(number, 0 | 19), || {
            format!("{name}: a refusal changed the record")
        })
    }

    /// The number that the latest message got.
    pub fn last_number(&self) -> u32 {
        self.given.last().map_or(0, |(number, _)| *number)
    }

    /// Alters some octets of the assembly slice, most of them octets of the
    /// frame that is being gathered.
    fn alter(&mut self, random: &mut Random) {
        let lent = self.second.slices.assembly.read().len();
        let held = self.second.receiver.gathering();
        let frame = held.map_or(0, |held| held.octets).min(lent);
        for _ in 0..random.between(1, 4) {
            let within = if random.chance(70) { frame } else { lent };
            if within > 0 {
                let (place, octet) = (random.below(within), random.octet());
                for slices in self.slices() {
                    slices.assembly.slice()[place] = octet;
                }
            }
        }
    }

    /// Every octet of the buffers, also those that were not lent at last.
    pub fn ended(&self, name: &str, tally: &mut Tally) {
        let expected = &self.second.slices.assembly;
        for given in [&self.by_value.slices, &self.in_place.slices] {
            tally.same(given.assembly == *expected, || {
                format!("{name}: the assembly buffer at the end")
            });
        }
    }

    /// Document 01, "Meters and the look-back rule".
    fn look_back(&self, start: [u64; 3], offers: &[Offer], name: &str, tally: &mut Tally) {
        let given = &offers[..self.given.len()];
        let list: Vec<Offered> = given.iter().map(Offer::offered).collect();
        let verdicts = verdicts(start, &list);
        tally.looked_back += self.given.len();
        for (place, (number, readings)) in self.given.iter().enumerate() {
            let expected = (verdicts[place].number, sums(start, &verdicts[..=place]));
            let same = (*number, *readings) == expected;
            tally.same(same, || {
                format!("{name}, message {place}: {number} {readings:?}, look-back {expected:?}")
            });
        }
    }
}

/// Runs one stream and gives the last record. After the first message that
/// differs the rest of the stream is left out.
pub fn stream(stream: &Stream, name: &str, tally: &mut Tally) -> calls::Receiver {
    let mut all = All::start(stream.start, tally);
    let start = all.second.receiver.readings();
    for (place, offer) in stream.offers.iter().enumerate() {
        if !all.offer(offer, &format!("{name}, message {place}"), tally) {
            break;
        }
    }
    all.ended(name, tally);
    // "Where the host lends the assembly slice unaltered and at one length for
    // as long as a frame is gathered, demand 3 holds with split frames too".
    if stream.steady {
        all.look_back(start, &stream.offers, name, tally);
    }
    all.by_value.receiver
}

/// The same stream with a host that alters the assembly slice before some of
/// the messages: all read what is lent, so call by call they still agree.
pub fn altered(stream: &Stream, name: &str, random: &mut Random, tally: &mut Tally) {
    let mut all = All::start(stream.start, tally);
    for (place, offer) in stream.offers.iter().enumerate() {
        if random.chance(40) {
            all.alter(random);
            tally.altered += 1;
        }
        if !all.offer(offer, &format!("{name}, altered, message {place}"), tally) {
            break;
        }
    }
    all.ended(name, tally);
}
