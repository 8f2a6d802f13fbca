//! What comes between the fragments of a frame on its own channel: whole
//! frames, routings, closes, other first fragments, refusals by 19 and by
//! other numbers.

use crate::data::data;
use crate::draft::{routed, routing, unrouted, Draft};
use crate::random::Random;
use crate::words::words;
use decoder::message::{Channel, FIRST, FRAME, VOID};
use decoder::route::Governing;

/// A channel that a frame is gathered on, what governs it, and what is left
/// of each meter.
#[derive(Clone, Copy)]
pub struct Gathered<'a> {
    pub channel: Channel,
    pub open: Option<&'a Governing>,
    pub room: [u64; 3],
}

impl Gathered<'_> {
    /// A message on the channel, most of them such that the gathering stays.
    pub fn between(self, random: &mut Random) -> Draft {
        match random.below(18) {
            0 | 1 => self.plain(random, VOID, Vec::new()),
            2..=5 => self.with_data(random, FRAME),
            6 => routing(random, self.channel, self.room),
            7 => close(self.plain(random, VOID, Vec::new())),
            8 => close(self.with_data(random, FRAME)),
            9 => self.other_match_bits(random),
            10 => {
                let mut frame = self.with_data(random, FRAME);
                unrouted(random, &mut frame);
                frame
            }
            11 => self.first_with_routing(random),
            12 if random.chance(50) => close(self.with_data(random, FIRST)),
            12 => self.with_data(random, FIRST),
            _ => self.refused(random),
        }
    }

    fn plain(self, random: &mut Random, kind: u8, data: Vec<u8>) -> Draft {
        Draft::plain(random, self.channel, kind, data)
    }

    /// A chunk that fits what governs the channel, most of them.
    fn with_data(self, random: &mut Random, kind: u8) -> Draft {
        let data = data(random, self.open, kind, self.room);
        self.plain(random, kind, data)
    }

    /// A chunk header with these match bits.
    fn header(self, difference: u8) -> Vec<u8> {
        let sdm = self.open.map_or(0, |governing| governing.sdm);
        vec![(sdm ^ difference) << 4, 0, 0, 1]
    }

    /// A frame or a first fragment that 19 refuses.
    fn other_match_bits(self, random: &mut Random) -> Draft {
        let header = self.header(random.pick(&[1, 2, 3]));
        let kind = random.pick(&[FRAME, FRAME, FIRST]);
        self.plain(random, kind, header)
    }

    /// The first fragment of another frame, by another configuration.
    fn first_with_routing(self, random: &mut Random) -> Draft {
        let mode = random.pick(&[2, 2, 2, 0, 0]);
        let words = words(random, mode);
        let close = random.chance(25);
        let room = self.room;
        routed(random, self.channel, (mode, 0), words, |random, own| {
            (FIRST, close, data(random, own, FIRST, room))
        })
    }

    /// A message that is refused, most often with Routing or Close: an unknown
    /// mode by 6, a Void chunk with data or three octets by 18, one octet that
    /// is no whole sample by 20.
    fn refused(self, random: &mut Random) -> Draft {
        match random.below(5) {
            0 => {
                let draft = routing(random, self.channel, self.room);
                let unknown = |[scwc, cfl, service, _]: [u8; 4]| [scwc, cfl, service, 7];
                Draft {
                    header: draft.header.map(unknown),
                    ..draft
                }
            }
            1 => {
                let mut draft = routing(random, self.channel, self.room);
                draft.kind = VOID;
                draft.data.push(0);
                draft
            }
            2 => close(self.plain(random, VOID, vec![0])),
            3 => self.plain(random, FIRST, self.header(0)[1..].to_vec()),
            _ => {
                let octet = random.octets(1);
                self.plain(random, FRAME, [self.header(0), octet].concat())
            }
        }
    }
}

/// The same with Close and without Routing.
fn close(draft: Draft) -> Draft {
    let header = Some([0, 0x02, 0, 0]);
    Draft { header, ..draft }
}
