//! Messages that ask for mode 1 on a channel while another one has it: request
//! C-13, "A stale player asked for mode 1 while another channel held it".

use crate::data::data;
use crate::draft::{routed, Draft};
use crate::limits::room;
use crate::random::Random;
use crate::words::accepted_words;
use decoder::message::{Channel, FIRST, FRAME, LEVELS, VOID, WAVE};
use decoder::receiver::Receiver;
use decoder::route::Governing;

/// Such a message. None if no other channel has mode 1.
pub fn asking(random: &mut Random, receiver: &Receiver, channel: Channel) -> Option<Draft> {
    holder(receiver).filter(|holder| *holder != channel)?;
    let room = room(receiver);
    let close = random.chance(20);
    let draft = to_mode_1(random, channel, |random, own| {
        let (kind, data) = chunk(random, own, room);
        (kind, close, data)
    });
    Some(draft)
}

/// The same, or where no channel has mode 1 a message that opens another one
/// in it, if there is another.
pub fn asking_or_first(
    random: &mut Random,
    receiver: &Receiver,
    channel: Channel,
    channels: &[u8],
) -> Option<Draft> {
    if holder(receiver).is_some() {
        return asking(random, receiver, channel);
    }
    let other = Channel(random.pick(channels));
    let room = room(receiver);
    (other != channel).then(|| {
        to_mode_1(random, other, |random, own| match random.below(2) {
            0 => (VOID, false, Vec::new()),
            _ => (WAVE, false, data(random, own, WAVE, room)),
        })
    })
}

fn to_mode_1(
    random: &mut Random,
    channel: Channel,
    rest: impl FnOnce(&mut Random, Option<&Governing>) -> (u8, bool, Vec<u8>),
) -> Draft {
    let service = random.pick(&[0, 1]);
    let words = accepted_words(random, 1);
    routed(random, channel, (1, service), words, rest)
}

/// The channel that has mode 1; check 15 leaves it one at most.
pub fn holder(receiver: &Receiver) -> Option<Channel> {
    let has_it = |channel: &Channel| {
        let open = receiver.governing(*channel);
        open.is_some_and(|governing| governing.mode == 1)
    };
    (0..64).map(Channel).find(has_it)
}

/// A type and data that 17, 18, 19 or none of them refuses.
fn chunk(random: &mut Random, own: Option<&Governing>, room: [u64; 3]) -> (u8, Vec<u8>) {
    match random.below(9) {
        0 | 1 => {
            let kind = random.pick(&[FRAME, FIRST, LEVELS]);
            (kind, data(random, own, kind, room))
        }
        2 => {
            let count = random.below(4);
            (WAVE, random.octets(count))
        }
        3 => {
            let count = random.pick(&[1, 4, 64]);
            (VOID, random.octets(count))
        }
        4..=6 => {
            let mut data = data(random, own, WAVE, room);
            if let (Some(flags), Some(own)) = (data.first_mut(), own) {
                let scm = own.sdm ^ random.pick(&[1, 2, 3]);
                *flags = *flags & 0xCF | scm << 4;
            }
            (WAVE, data)
        }
        7 => (VOID, Vec::new()),
        _ => (WAVE, data(random, own, WAVE, room)),
    }
}
