//! Messages that show what a receiver has come to: which channels are open, by
//! which mode, match bits and tags, what is gathered, and which channel has mode
//! 1. Replies, rows, levels and the assembly slice tell.

use crate::asking::holder;
use crate::draft::Draft;
use crate::random::Random;
use crate::stream::Offer;
use decoder::chunk::Lent;
use decoder::dictionary::Layout;
use decoder::dimmer::Map;
use decoder::message::{Channel, FRAME, LEVELS, SEQUEL, VOID, WAVE};
use decoder::receiver::{Gathering, Receiver};
use decoder::route::{Governing, Tags};

/// What the receiver must have come to for the messages to fit; one that has
/// come to something else answers otherwise.
pub fn probes(random: &mut Random, receiver: &Receiver) -> Vec<Offer> {
    let mut list = Vec::new();
    list.extend(receiver.gathering().map(|held| {
        let own = receiver.governing(Channel(held.channel));
        last(random, held, own)
    }));
    for channel in (0..64).map(Channel) {
        let own = receiver.governing(channel);
        list.push(offer(
            Draft::plain(random, channel, VOID, Vec::new()),
            NOTHING,
        ));
        list.extend(own.map(|own| chunk(random, channel, own)));
    }
    list.push(asks(random, receiver));
    list
}

const NOTHING: Lent = Lent {
    rows: 0,
    levels: 0,
    assembly: 0,
};

fn offer(draft: Draft, lent: Lent) -> Offer {
    Offer {
        octets: draft.octets(),
        lent,
    }
}

/// The last fragment of the frame that is gathered. It makes the samples whole,
/// and at least 2 of them.
fn last(random: &mut Random, held: Gathering, own: Option<&Governing>) -> Offer {
    let width = own.map_or(1, |own| match &own.tags {
        Tags::Graphic(layout) => layout.width(),
        _ => 1,
    });
    let there = held.octets.saturating_sub(4);
    let points = there.div_ceil(width).max(2);
    let data = random.octets(points * width - there);
    let lent = Lent {
        rows: 24 * points,
        levels: 0,
        assembly: held.octets + data.len(),
    };
    let mut draft = Draft::plain(random, Channel(held.channel), SEQUEL, data);
    draft.timestamp = held.due();
    let mut last = offer(draft, lent);
    // CCLF marks the last one, without a configuration.
    last.octets[2] |= 0x40;
    last
}

/// A chunk that fits what governs the channel.
fn chunk(random: &mut Random, channel: Channel, own: &Governing) -> Offer {
    let header = [own.sdm << 4 | random.octet() & 0xCF, 0, 0, 7];
    let (kind, body, lent) = match &own.tags {
        Tags::Ignored => (VOID, random.octets(3), NOTHING),
        Tags::Graphic(layout) => points(random, own.mode, layout),
        Tags::Dimmer(map) => levels(random, map),
    };
    let data = [&header[..], &body].concat();
    offer(Draft::plain(random, channel, kind, data), lent)
}

fn points(random: &mut Random, mode: u8, layout: &Layout) -> (u8, Vec<u8>, Lent) {
    let (kind, fewest) = if mode == 1 { (WAVE, 20) } else { (FRAME, 2) };
    let points = fewest + random.below(3);
    let lent = Lent {
        rows: 24 * points,
        ..NOTHING
    };
    (kind, random.octets(points * layout.width()), lent)
}

fn levels(random: &mut Random, map: &Map) -> (u8, Vec<u8>, Lent) {
    let count = match map {
        Map::Whole(0xFFFF) => 5,
        Map::Whole(base) => 513 - usize::from(*base),
        Map::Subsets(subsets) => subsets.iter().map(|own| usize::from(own.count)).sum(),
    };
    let lent = Lent {
        levels: 1_024,
        ..NOTHING
    };
    (LEVELS, random.octets(count), lent)
}

/// Asks for mode 1 on a channel that does not have it.
fn asks(random: &mut Random, receiver: &Receiver) -> Offer {
    let holder = holder(receiver);
    let others: Vec<Channel> = (0..64)
        .map(Channel)
        .filter(|channel| Some(*channel) != holder)
        .collect();
    let channel = random.pick(&others);
    let draft = Draft {
        header: Some([2, 1, 0, 1]),
        words: vec![0x42, 0x00, 0x42, 0x10, 0x52, 0x7E, 0x00, 0x00],
        ..Draft::plain(random, channel, VOID, Vec::new())
    };
    offer(draft, NOTHING)
}
