//! Records that a host changed and that keep the consistency rule: with ranges
//! that no dimmer tags give, and with anything where nothing is read.

use crate::calls::{self, Receiver};
use crate::lent::{Record, Slices};
use crate::messages::{frame, keep_alive, levels, FRAME};
use crate::record::{self, channel, Channel, CHANNELS, DIMMER, GRAPHIC, LAYOUT};
use crate::tally::Tally;
use crate::{set_calls, set_records};
use decoder::receiver::Reply;

/// Ranges that are not within 1 to 512.
const OUTSIDE: [(u16, u8); 6] = [
    (0, 1),
    (512, 2),
    (513, 1),
    (1024, 3),
    (0xFFFE, 255),
    (300, 214),
];

/// Where a base is FFFF the octets are dropped (document 01, "Dimmer tags").
const DROPPED: u16 = 0xFFFF;

/// Offers messages to copies of a record: eight open channels and a closed one
/// are changed.
pub fn offer(record: &Receiver, tally: &mut Tally) {
    let of = |open: bool| {
        (0..CHANNELS).filter(move |number| (record::state(record, *number) != 0) == open)
    };
    for number in of(true).take(8).chain(of(false).take(1)) {
        let mut copies = Copies {
            record,
            number,
            tally,
        };
        copies.unread();
        if DIMMER.contains(&record::state(record, number)) {
            match record::ranges(record, number).len() {
                0 => copies.base_outside(),
                count => copies.ranges_outside(count),
            }
        }
    }
}

struct Copies<'a> {
    record: &'a Receiver,
    number: usize,
    tally: &'a mut Tally,
}

impl Copies<'_> {
    fn with(&self, change: impl FnOnce(&mut Channel)) -> Receiver {
        let mut copy = *self.record;
        change(&mut channel(&mut copy, self.number));
        copy
    }

    /// A range outside 1 to 512 "takes its octets from the message like a
    /// dropped one: it is passed over and does not count as written".
    fn ranges_outside(&mut self, count: usize) {
        for place in [0, count - 1] {
            for (base, levels) in OUTSIDE {
                let forged = self.with(|channel| channel.set_range(place, base, levels));
                let dropped = self.with(|channel| channel.set_range(place, DROPPED, levels));
                let mut ranges = record::ranges(self.record, self.number);
                ranges[place] = (DROPPED, levels);
                let sum = |ranges: &[(u16, u8)]| -> usize {
                    ranges.iter().map(|(_, count)| usize::from(*count)).sum()
                };
                let all = sum(&ranges);
                ranges.retain(|(base, _)| *base != DROPPED);
                let message = self.levels(all);
                let reply = self.same_as(forged, dropped, &[&message]);
                let written = (reply.number, reply.levels as usize);
                self.tally.same(written == (0, sum(&ranges)), || {
                    format!("range {base} {levels} at {place}: {reply:?}")
                });
                let more = self.levels(all + 1);
                let reply = self.same_as(forged, dropped, &[&more]);
                self.expect(reply, 21, &format!("range {base} {levels}, a level more"));
            }
        }
    }

    /// Check 21: "without 43, base + levels passes 513 (FFFF excepted)".
    fn base_outside(&mut self) {
        for (base, count, number) in [(513, 1, 21), (513, 0, 0), (514, 0, 21), (0xFFFE, 3, 21)] {
            let forged = self.with(|channel| channel.set_base(base));
            let message = self.levels(count);
            let reply = self.same_as(forged, forged, &[&message]);
            self.expect(reply, number, &format!("base {base}, {count} levels"));
        }
    }

    /// The number, and no level written.
    fn expect(&mut self, reply: Reply, number: u32, what: &str) {
        self.tally
            .same(reply.number == number && reply.levels == 0, || {
                format!("{what}: {reply:?}")
            });
    }

    fn levels(&self, count: usize) -> Vec<u8> {
        levels(
            self.number,
            record::match_bits(self.record, self.number),
            count,
        )
    }

    /// A channel that is closed or in mode 0 has nothing that is read, a layout
    /// no more than its octets and colours, a mapping no more than its ranges.
    fn unread(&mut self) {
        let (record, number) = (self.record, self.number);
        let (state, size) = (record::state(record, number), record::size(record, number));
        let size = usize::from(size);
        let colours = usize::from(record::colours(record, number));
        let copy = self.with(|channel| {
            if GRAPHIC.contains(&state) {
                channel.area()[size..32].fill(9);
                channel.area()[32 + 2 * colours..48].fill(0xA5);
                channel.area()[LAYOUT..].fill(0xA5);
            } else if DIMMER.contains(&state) {
                channel.set_colours(8);
                channel.area()[2 * size..64].fill(0xA5);
                channel.area()[64 + size..96].fill(0xA5);
                if size != 0 {
                    channel.set_base(700);
                }
            } else {
                channel.set_match_bits(255);
                channel.set_size(32);
                channel.set_colours(8);
                channel.area().fill(0xA5);
            }
        });
        let (routing, alive) = (frame(number), keep_alive(number));
        let one = self.levels(1);
        self.same_as(copy, *record, &[&alive, &FRAME[..3], &one]);
        self.same_as(copy, *record, &[&routing, &alive]);
        for octets in set_records::on_channel(number) {
            self.set_same_as(&copy, &octets);
        }
    }

    /// A set on a copy gets the reply that it gets on the record, and leaves
    /// what its messages one by one leave.
    fn set_same_as(&mut self, copy: &Receiver, octets: &[u8]) {
        let expected = set_calls::patch(self.record, octets).reply.own();
        let reply = set_calls::patch(copy, octets).reply.own();
        self.tally.same(reply == expected, || {
            format!("a forged record, a set: {reply:?}, not {expected:?}")
        });
        set_records::one_by_one(copy, octets, self.number, self.tally);
    }

    /// Offers messages to a copy by value and in place, and to the record that
    /// it must be answered like. Gives the last reply.
    fn same_as(&mut self, mut copy: Receiver, mut like: Receiver, messages: &[&[u8]]) -> Reply {
        let mut lent = Record::of(&copy);
        let mut last = Reply::default();
        for octets in messages {
            let mut slices = [(); 3].map(|()| Slices::small());
            let [first, second, third] = &mut slices;
            let next = first.message(&copy, octets);
            let expected = second.message(&like, octets);
            let replies = [next.reply.own(), lent.offer(octets, third)];
            last = expected.reply.own();
            (copy, like) = (next.receiver, expected.receiver);
            self.tally.same(replies == [last; 2], || {
                format!("a forged record: {replies:?}, not {last:?}")
            });
            let written = last.points != 0 || last.levels != 0;
            let same = slices[0] == slices[1]
                && slices[2] == slices[1]
                && (written || slices[1] == Slices::small());
            self.tally
                .same(same, || "a forged record: the slices".to_string());
            let readings = [calls::readings(&copy), lent.readings()];
            self.tally.same(readings == [like.meters; 2], || {
                format!("a forged record: {readings:?}")
            });
            self.tally.same(lent.holds(&copy), || {
                "a forged record: the records".to_string()
            });
        }
        last
    }
}
