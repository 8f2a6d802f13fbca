//! The octets of messages that a set is refused by, made for what the receiver
//! has come to before them.

use crate::asking::holder;
use crate::damage::size;
use crate::data::data;
use crate::draft::Draft;
use crate::limits::room;
use crate::random::Random;
use crate::set::{of, open, routing};
use crate::spoiled::{refused, spoiled};
use crate::words::accepted_words;
use crate::wrong::Wrong;
use decoder::message::{Channel, MOST, VOID};
use decoder::receiver::Receiver;

/// Types that check 4 lets in nowhere.
const UNKNOWN: [u8; 8] = [0x04, 0x10, 0x11, 0x19, 0x80, 0xBF, 0xC1, 0xFF];

/// Where a wrong message is to stand.
#[derive(Clone, Copy)]
pub struct Place<'a> {
    /// What the receiver has come to before it.
    pub receiver: &'a Receiver,
    pub channels: &'a [u8],
    /// The octets of the messages behind it.
    pub behind: usize,
}

impl Place<'_> {
    /// The octets of a message that is wrong in this way; none if the receiver
    /// has no channel for it.
    pub fn octets(&self, random: &mut Random, wrong: Wrong) -> Option<Vec<u8>> {
        let octets = match wrong {
            Wrong::LoneOctet => self.cut(random, 1),
            Wrong::FewOctets => {
                let few = random.between(2, 7);
                self.cut(random, few)
            }
            Wrong::SizeBelow8 => self.sized(random, |random| random.below(8)),
            Wrong::SizePast => return self.past(random),
            Wrong::SizeAbove => self.above(random),
            Wrong::TopBit => self.top_bit(random, VOID),
            Wrong::TopBitAndType => {
                let kind = random.pick(&UNKNOWN);
                self.top_bit(random, kind)
            }
            Wrong::KnownType(kind) => self.of_type(random, kind),
            Wrong::UnknownType => {
                let kind = random.pick(&UNKNOWN);
                self.of_type(random, kind)
            }
            Wrong::Header => {
                let length = random.between(8, 11);
                self.cut(random, length)
            }
            Wrong::Words => self.words_past(random),
            Wrong::Mode => self.unknown_mode(random),
            Wrong::Service => self.other_service(random),
            Wrong::Tags(number) => self.tags(random, number),
            Wrong::Taken => return self.taken(random),
            Wrong::Closed => return self.closed(random),
            Wrong::Data => return self.with_data(random),
            Wrong::RoutedData => self.routed_with_data(random),
        };
        Some(octets)
    }

    fn channel(&self, random: &mut Random) -> Channel {
        Channel(random.pick(self.channels))
    }

    /// A message with Routing, most of which would be accepted.
    fn routing(&self, random: &mut Random) -> Vec<u8> {
        let channel = self.channel(random);
        routing(random, channel, false).octets()
    }

    /// The first octets of such a message. From 8 on, Total Size is their count.
    fn cut(&self, random: &mut Random, length: usize) -> Vec<u8> {
        let mut octets = self.routing(random);
        octets.truncate(length);
        if length >= 8 {
            size(&mut octets);
        }
        octets
    }

    /// Such a message with another Total Size.
    fn sized(&self, random: &mut Random, other: impl FnOnce(&mut Random) -> usize) -> Vec<u8> {
        let mut octets = self.routing(random);
        let other = other(random) as u16;
        octets[..2].copy_from_slice(&other.to_be_bytes());
        octets
    }

    /// A Total Size that is past the slice, if 16 bits can tell it.
    fn past(&self, random: &mut Random) -> Option<Vec<u8>> {
        let mut octets = self.routing(random);
        let left = octets.len() + self.behind;
        let over = random.pick(&[1, 1, 2, 300]);
        let size = u16::try_from(left + over).ok()?;
        octets[..2].copy_from_slice(&size.to_be_bytes());
        Some(octets)
    }

    fn above(&self, random: &mut Random) -> Vec<u8> {
        let mut octets = self.routing(random);
        octets.resize(random.pick(&[MOST + 1, MOST + 2, 65_535]), 0);
        octets[3] = random.pick(&[VOID, VOID, 0x02]);
        size(&mut octets);
        octets
    }

    fn top_bit(&self, random: &mut Random, kind: u8) -> Vec<u8> {
        let mut octets = self.routing(random);
        octets[2] &= 0x7F;
        octets[3] = kind;
        octets
    }

    /// Of another type: with a configuration, cut inside its header, or with
    /// data that fit the channel, which one by one is often accepted.
    fn of_type(&self, random: &mut Random, kind: u8) -> Vec<u8> {
        let fitting = open(random, self.receiver, self.channels);
        if let Some(channel) = fitting.filter(|_| random.chance(40)) {
            let governing = self.receiver.governing(channel);
            let data = data(random, governing, kind, room(self.receiver));
            return Draft::plain(random, channel, kind, data).octets();
        }
        let mut octets = match random.chance(25) {
            true => self.cut(random, 8),
            false => self.routing(random),
        };
        octets[3] = kind;
        octets
    }

    /// Its words pass the end.
    fn words_past(&self, random: &mut Random) -> Vec<u8> {
        let scwc = random.pick(&[1, 2, 60, 255]);
        let there = random.below(4 * usize::from(scwc));
        let data = random.octets(there);
        let mode = random.pick(&[0, 1, 2, 4, 6, 7]);
        self.header(random, [scwc, 1, 0, mode], Vec::new(), data)
    }

    fn unknown_mode(&self, random: &mut Random) -> Vec<u8> {
        let mode = random.pick(&[3, 5, 7, 8, 0x11, 0xC0, 0xFF]);
        let service = random.pick(&[0, 1, 2, 9]);
        self.header(random, [0, 1, service, mode], Vec::new(), Vec::new())
    }

    /// "1 is the laser (modes 1, 2, 4), 2 is DMX (mode 6)".
    fn other_service(&self, random: &mut Random) -> Vec<u8> {
        let mode = random.pick(&[0, 1, 2, 4, 6]);
        let service = match mode {
            0 => random.pick(&[3, 9, 255]),
            6 => random.pick(&[1, 3, 255]),
            _ => random.pick(&[2, 3, 255]),
        };
        let words = accepted_words(random, mode);
        self.routed(random, (mode, service), words, Vec::new())
    }

    /// Tags that the number refuses; data would be refused later.
    fn tags(&self, random: &mut Random, number: u32) -> Vec<u8> {
        let (mode, words) = spoiled().pick(random, number).clone();
        let count = random.pick(&[0, 0, 0, 5]);
        let data = random.octets(count);
        self.routed(random, (mode, 0), words, data)
    }

    /// Asks for mode 1, which another channel has.
    fn taken(&self, random: &mut Random) -> Option<Vec<u8>> {
        let holder = holder(self.receiver)?;
        let channel = of(random, self.channels, |channel| channel != holder)?;
        let words = right_words(random, 1);
        let mut octets = self.routed(random, (1, 0), words, Vec::new());
        octets[2] = 0xC0 | channel.0;
        Some(octets)
    }

    /// Without Routing on a closed channel.
    fn closed(&self, random: &mut Random) -> Option<Vec<u8>> {
        let is_closed = |channel| self.receiver.governing(channel).is_none();
        let channel = of(random, self.channels, is_closed)?;
        Some(unrouted(random, channel, Vec::new()))
    }

    /// A Void chunk with data on a channel of another mode than 0.
    fn with_data(&self, random: &mut Random) -> Option<Vec<u8>> {
        let has_mode = |channel| {
            let own = self.receiver.governing(channel);
            own.is_some_and(|governing| governing.mode != 0)
        };
        let channel = of(random, self.channels, has_mode)?;
        let count = random.between(1, 20);
        let data = random.octets(count);
        Some(unrouted(random, channel, data))
    }

    fn routed_with_data(&self, random: &mut Random) -> Vec<u8> {
        let mode = random.pick(&[1, 2, 4, 6]);
        let words = right_words(random, mode);
        let count = random.between(1, 20);
        let data = random.octets(count);
        self.routed(random, (mode, 0), words, data)
    }

    /// With Routing, and SCWC as many words as there are.
    fn routed(
        &self,
        random: &mut Random,
        (mode, service): (u8, u8),
        words: Vec<u8>,
        data: Vec<u8>,
    ) -> Vec<u8> {
        let flags = random.octet() & 0xFE | 1;
        let scwc = (words.len() / 4) as u8;
        self.header(random, [scwc, flags, service, mode], words, data)
    }

    fn header(
        &self,
        random: &mut Random,
        header: [u8; 4],
        words: Vec<u8>,
        data: Vec<u8>,
    ) -> Vec<u8> {
        let channel = self.channel(random);
        let draft = Draft {
            header: Some(header),
            words,
            ..Draft::plain(random, channel, VOID, data)
        };
        draft.octets()
    }
}

/// Words for a mode from 1 on that are accepted.
fn right_words(random: &mut Random, mode: u8) -> Vec<u8> {
    loop {
        let words = accepted_words(random, mode);
        if refused(mode, &words).is_none() {
            return words;
        }
    }
}

/// Without Routing: with Close, with a header that is ignored, or without one.
fn unrouted(random: &mut Random, channel: Channel, data: Vec<u8>) -> Vec<u8> {
    let header = [0xFF, random.octet() & 0xFE, 0x01, 0x02];
    let draft = Draft {
        header: random.chance(60).then_some(header),
        ..Draft::plain(random, channel, VOID, data)
    };
    draft.octets()
}
