//! Sets of messages that are accepted (request C-14): each is of type 0x00 and
//! fits what the ones before it leave.

use crate::draft::{mode_and_service, routed, Draft};
use crate::random::Random;
use crate::words::accepted_words;
use decoder::message::{Channel, VOID};
use decoder::receiver::Receiver;

/// Tries at a message before one is taken that is always accepted.
const TRIES: usize = 8;

/// The messages of a set.
pub struct Set {
    pub messages: Vec<Vec<u8>>,
    /// What the receiver has come to before each of them.
    pub states: Vec<Receiver>,
}

/// So many messages on these channels, offered to a receiver in order.
pub fn accepted(random: &mut Random, receiver: &Receiver, channels: &[u8], count: usize) -> Set {
    let mut now = receiver.clone();
    let mut set = Set {
        messages: Vec::new(),
        states: Vec::new(),
    };
    for _ in 0..count {
        set.states.push(now.clone());
        set.messages.push(next(random, &mut now, channels));
    }
    set
}

/// A message that the receiver accepts, and that is offered to it. A refused
/// Void chunk changes nothing, so the receiver itself is asked.
fn next(random: &mut Random, receiver: &mut Receiver, channels: &[u8]) -> Vec<u8> {
    for _ in 0..TRIES {
        let octets = draft(random, receiver, channels).octets();
        if takes(receiver, &octets) {
            return octets;
        }
    }
    let channel = Channel(random.pick(channels));
    let mut to_mode_0 = Draft::plain(random, channel, VOID, Vec::new());
    to_mode_0.header = Some([0, 1, 0, 0]);
    let octets = to_mode_0.octets();
    assert!(takes(receiver, &octets));
    octets
}

fn takes(receiver: &mut Receiver, octets: &[u8]) -> bool {
    receiver.message(octets, &mut [], &mut [], &mut []).number == 0
}

/// A routing, or another configuration or none on a channel that is open, if
/// there is one.
fn draft(random: &mut Random, receiver: &Receiver, channels: &[u8]) -> Draft {
    if random.chance(40) {
        if let Some(channel) = open(random, receiver, channels) {
            return unrouted(random, receiver, channel);
        }
    }
    let channel = Channel(random.pick(channels));
    let close = random.chance(12);
    routing(random, channel, close)
}

/// A Void chunk with Routing to any mode.
pub fn routing(random: &mut Random, channel: Channel, close: bool) -> Draft {
    let to = mode_and_service(random);
    let words = accepted_words(random, to.0);
    routed(random, channel, to, words, |random, _| {
        let ignored = to.0 == 0 && random.chance(30);
        let count = if ignored { random.below(20) } else { 0 };
        (VOID, close, random.octets(count))
    })
}

/// A Void chunk without Routing: with Close, with a header that is ignored, or
/// without a header. In mode 0 it may have data.
fn unrouted(random: &mut Random, receiver: &Receiver, channel: Channel) -> Draft {
    let mode_0 = receiver.governing(channel).is_some_and(|own| own.mode == 0);
    let count = match mode_0 && random.chance(50) {
        true => random.below(20),
        false => 0,
    };
    let data = random.octets(count);
    let mut draft = Draft::plain(random, channel, VOID, data);
    if random.chance(60) {
        let close = u8::from(random.chance(50)) << 1;
        let [scwc, cfl, service, mode] = [(); 4].map(|()| random.octet());
        draft.header = Some([scwc, cfl & 0xFC | close, service, mode]);
    }
    draft
}

/// One of the channels that are open.
pub fn open(random: &mut Random, receiver: &Receiver, channels: &[u8]) -> Option<Channel> {
    of(random, channels, |channel| {
        receiver.governing(channel).is_some()
    })
}

/// One of the channels of which something holds; none if there is none.
pub fn of(
    random: &mut Random,
    channels: &[u8],
    holds: impl Fn(Channel) -> bool,
) -> Option<Channel> {
    let all = channels.iter().map(|number| Channel(*number));
    let those: Vec<Channel> = all.filter(|channel| holds(*channel)).collect();
    (!those.is_empty()).then(|| random.pick(&those))
}
