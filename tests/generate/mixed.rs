//! Random lists of messages and sets for the receiver (request C-14), the sets
//! among the fragments of frames too. The same seed gives the same lists.

use crate::limits::start;
use crate::places::{Placed, Places};
use crate::random::Random;
use crate::stream::{Maker, Offer};
use crate::wrong::{Wrong, ALL};
use decoder::calls;
use decoder::receiver::Receiver;

/// One call.
#[derive(Clone, Debug)]
pub enum Call {
    Message(Offer),
    /// The octets of a set.
    Set(Vec<u8>),
}

impl Call {
    /// What the look-back rule is given of it.
    pub fn offered(&self) -> calls::Call<'_> {
        match self {
            Call::Message(offer) => calls::Call::Message(offer.offered()),
            Call::Set(octets) => calls::Call::Set(octets),
        }
    }
}

/// The readings that start is given, and the calls in order.
#[derive(Clone, Debug)]
pub struct Mixed {
    pub start: [u64; 3],
    pub calls: Vec<Call>,
    /// Whether the assembly slice lent with the messages has one length for as
    /// long as a frame is gathered. Where it has not, the look-back rule
    /// promises nothing. With a set no slice is lent.
    pub steady: bool,
}

/// So many of 100 sets that come while a frame is gathered have messages on its
/// channel and one more alone.
const ON_ITS_CHANNEL: usize = 50;

/// So many of 100 sets have a wrong message.
const WRONG: usize = 45;

/// A list of up to `most` calls, at least 1.
pub fn mixed(random: &mut Random, most: usize) -> Mixed {
    let start = start(random);
    let count = random.between(1, most);
    let mut maker = Maker::new(random, start);
    let sets = random.pick(&[6, 15, 15, 40]);
    let mut list = Mixed {
        start,
        calls: Vec::new(),
        steady: true,
    };
    let mut offers: Vec<Offer> = Vec::new();
    while list.calls.len() < count {
        let gathering = maker.receiver.gathering().is_some();
        if random.chance(if gathering { sets + 10 } else { sets }) {
            let octets = set(random, &maker.receiver, &maker.channels);
            maker.receiver.patch(&octets);
            list.calls.push(Call::Set(octets));
            continue;
        }
        let offer = maker.offer(random, &offers);
        if let Some(before) = offers.last().filter(|_| gathering) {
            list.steady &= before.lent.assembly == offer.lent.assembly;
        }
        maker.follow(&offer);
        offers.push(offer.clone());
        list.calls.push(Call::Message(offer));
    }
    list
}

/// How many messages a set has.
fn length(random: &mut Random) -> usize {
    match random.below(100) {
        0..=5 => 0,
        6..=24 => 1,
        25..=44 => 2,
        45..=84 => random.between(3, 12),
        85..=90 => random.between(13, 63),
        91..=96 => 64,
        97 => random.between(65, 199),
        _ => 200,
    }
}

/// The octets of a set, accepted or with a wrong message in one place or two.
fn set(random: &mut Random, receiver: &Receiver, channels: &[u8]) -> Vec<u8> {
    let count = length(random);
    let held = receiver.gathering();
    let on_its_channel = held.filter(|_| random.chance(ON_ITS_CHANNEL));
    let channels = match on_its_channel {
        Some(held) => vec![held.channel, random.pick(channels)],
        None => channels.to_vec(),
    };
    let places = Places::new(random, receiver, &channels, count);
    if count == 0 || !random.chance(WRONG) {
        return places.accepted();
    }
    let placed = match random.chance(20) {
        true => two_wrong(random, &places, count),
        false => one_wrong(random, &places, count),
    };
    placed.map_or_else(|| places.accepted(), |placed| placed.octets)
}

/// What depends on the channels, 15 and 16 among it, cannot be made in every
/// place, so more of the tries are at it.
const DEPENDS: [Wrong; 4] = [Wrong::Taken, Wrong::Taken, Wrong::Closed, Wrong::Data];

fn kind(random: &mut Random) -> Wrong {
    match random.chance(30) {
        true => random.pick(&DEPENDS),
        false => random.pick(&ALL),
    }
}

fn one_wrong(random: &mut Random, places: &Places, count: usize) -> Option<Placed> {
    let wrong = kind(random);
    let mut tries = (0..8).map(|_| {
        let any = random.below(count);
        let place = random.pick(&[0, count - 1, any, any]);
        places.with(random, place, wrong)
    });
    tries.find_map(|placed| placed)
}

/// None if there is no place behind the first.
fn two_wrong(random: &mut Random, places: &Places, count: usize) -> Option<Placed> {
    let place = random.below(count);
    let (wrong, second) = (kind(random), kind(random));
    if place + 1 == count || wrong.ends() {
        return None;
    }
    let later = random.between(place + 1, count - 1);
    places.with_two(random, (place, wrong), (later, second))
}
