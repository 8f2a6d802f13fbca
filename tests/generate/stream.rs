//! Random streams of messages for the receiver, with the lengths of the
//! slices lent with each. The same seed gives the same streams.

use crate::asking::asking;
use crate::assembly::{Lengths, LONGEST};
use crate::damage::damage;
use crate::data::data;
use crate::draft::{kind, routing, unrouted, Draft};
use crate::limits::{room, start};
use crate::random::Random;
use crate::sender::Sender;
use decoder::chunk::Lent;
use decoder::lookback::Offered;
use decoder::message::{self, Channel, Message, SEQUEL};
use decoder::receiver::Receiver;
use decoder::route::{self, Governing, Tags};

/// So many of 100 messages ask for mode 1, where another channel has it.
const ASKING: usize = 8;

/// One message and the lengths of the slices lent with it.
#[derive(Clone, Debug)]
pub struct Offer {
    pub octets: Vec<u8>,
    pub lent: Lent,
}

impl Offer {
    /// What the look-back rule is given of it.
    pub fn offered(&self) -> Offered<'_> {
        Offered {
            octets: &self.octets,
            lent: self.lent,
        }
    }
}

/// The readings that start is given, and the messages in order.
#[derive(Clone, Debug)]
pub struct Stream {
    pub start: [u64; 3],
    pub offers: Vec<Offer>,
    /// Whether the assembly slice has one length for as long as a frame is
    /// gathered. Where it has not, the look-back rule promises nothing.
    pub steady: bool,
}

/// A stream of up to `most` messages, at least 1.
pub fn stream(random: &mut Random, most: usize) -> Stream {
    let start = start(random);
    let count = random.between(1, most);
    let mut maker = Maker::new(random, start);
    let mut offers: Vec<Offer> = Vec::new();
    let mut steady = true;
    while offers.len() < count {
        let offer = maker.offer(random, &offers);
        if let (Some(_), Some(before)) = (maker.receiver.gathering(), offers.last()) {
            steady &= before.lent.assembly == offer.lent.assembly;
        }
        maker.follow(&offer);
        offers.push(offer);
    }
    Stream {
        start,
        offers,
        steady,
    }
}

/// Makes messages that fit what the receiver has come to, most of them.
pub(crate) struct Maker {
    pub channels: Vec<u8>,
    pub receiver: Receiver,
    rows: Vec<i32>,
    levels: Vec<u8>,
    assembly: Vec<u8>,
    lengths: Lengths,
    sender: Sender,
    /// The channel of the latest message that asked for mode 1 while another
    /// had it, and what governed it before. Messages that fit this follow.
    asked: Option<(Channel, Option<Governing>)>,
}

impl Maker {
    pub fn new(random: &mut Random, start: [u64; 3]) -> Maker {
        let channels = random.pick(&[1, 2, 3, 3, 4, 6, 64]);
        let sender = Sender::new(random);
        Maker {
            channels: (0..channels).map(|_| random.octet() & 0x3F).collect(),
            receiver: Receiver::start(start[0], start[1], start[2]).0,
            rows: vec![0; 24 * message::MOST],
            levels: vec![0; 4096],
            assembly: vec![0; LONGEST],
            lengths: Lengths::new(random, sender.splits()),
            sender,
            asked: None,
        }
    }

    pub fn follow(&mut self, offer: &Offer) {
        let rows = &mut self.rows[..offer.lent.rows];
        let levels = &mut self.levels[..offer.lent.levels];
        let assembly = &mut self.assembly[..offer.lent.assembly];
        self.receiver.message(&offer.octets, rows, levels, assembly);
    }

    /// The next message; `earlier` are those before it.
    pub fn offer(&mut self, random: &mut Random, earlier: &[Offer]) -> Offer {
        let lengths = &mut self.lengths;
        let sent = (self.sender).next(random, &self.receiver, &self.channels, lengths);
        // Fewer of the fragments are damaged, so that frames come to their end.
        let mut chance = if sent.is_some() { 2 } else { 7 };
        let mut octets = match sent {
            Some(octets) => octets,
            None if !earlier.is_empty() && random.chance(6) => self.again(random, earlier),
            None => self.draft(random).octets(),
        };
        while random.chance(chance) {
            damage(random, &mut octets);
            chance = 35;
        }
        let assembly = self.lengths.next(random, self.receiver.gathering());
        let lent = self.lent(random, &octets, assembly);
        Offer { octets, lent }
    }

    /// An earlier message, on its own channel or another one.
    fn again(&self, random: &mut Random, earlier: &[Offer]) -> Vec<u8> {
        let mut octets = earlier[random.below(earlier.len())].octets.clone();
        if octets.len() > 2 && random.chance(50) {
            octets[2] = octets[2] & 0xC0 | random.pick(&self.channels);
        }
        octets
    }

    fn draft(&mut self, random: &mut Random) -> Draft {
        let room = room(&self.receiver);
        if let Some((channel, was)) = self.asked.take().filter(|_| random.chance(50)) {
            let kind = kind(random, was.as_ref());
            let data = data(random, was.as_ref(), kind, room);
            return Draft::plain(random, channel, kind, data);
        }
        let channel = Channel(random.pick(&self.channels));
        let open = self.receiver.governing(channel);
        let asked = (random.chance(ASKING)).then(|| asking(random, &self.receiver, channel));
        if let Some(draft) = asked.flatten() {
            self.asked = Some((channel, open.cloned()));
            return draft;
        }
        if random.chance(if open.is_some() { 30 } else { 75 }) {
            return routing(random, channel, room);
        }
        let kind = kind(random, open);
        let data = data(random, open, kind, room);
        let mut draft = Draft::plain(random, channel, kind, data);
        if random.chance(45) {
            unrouted(random, &mut draft);
        }
        draft
    }

    /// Slices that hold the points or levels, most of them.
    fn lent(&self, random: &mut Random, octets: &[u8], assembly: usize) -> Lent {
        let need = 24 * self.points(octets).min(message::MOST / 3);
        let rows = match random.below(20) {
            0 | 1 => need.saturating_sub(1),
            2 => 0,
            3 => random.below(need + 1),
            4..=7 => need + random.between(1, 60),
            8 => need.max(12_000),
            _ => need,
        };
        let levels = match random.below(20) {
            0 | 1 => 1_023,
            2 => random.below(1_024),
            3 => 0,
            4..=6 => 1_024 + random.between(1, 900),
            _ => 1_024,
        };
        Lent {
            rows,
            levels,
            assembly,
        }
    }

    /// The points of a message as far as its octets can be read.
    fn points(&self, octets: &[u8]) -> usize {
        let Ok(message) = message::read(octets) else {
            return 2;
        };
        let own = message
            .routing
            .and_then(|routing| route::check(&routing).ok());
        let tags = match message.routing {
            Some(_) => own.map(|governing| governing.tags),
            None => {
                let open = self.receiver.governing(message.channel);
                open.map(|governing| governing.tags.clone())
            }
        };
        match tags {
            Some(Tags::Graphic(layout)) => {
                self.frame_octets(&message).saturating_sub(4) / layout.width()
            }
            _ => 1,
        }
    }

    /// The octets of the chunk: with a sequel they are those so far.
    fn frame_octets(&self, message: &Message) -> usize {
        let held = (self.receiver.gathering())
            .filter(|held| message.kind == SEQUEL && held.is_on(message.channel));
        held.map_or(0, |held| held.octets) + message.data.len()
    }
}
