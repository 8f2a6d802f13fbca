//! Messages before their octets are put together: routings, configuration
//! headers without Routing, and chunk types that fit, most of them.

use crate::damage::size;
use crate::data::data;
use crate::random::Random;
use crate::words::words;
use decoder::message::{Channel, Routing, Service, FIRST, FRAME, LEVELS, SEQUEL, VOID, WAVE};
use decoder::route::{self, Governing};

#[derive(Clone)]
pub struct Draft {
    pub channel: Channel,
    pub kind: u8,
    pub timestamp: u32,
    /// SCWC, CFL, service and mode, if there is a configuration header.
    pub header: Option<[u8; 4]>,
    /// The octets between the header and the data.
    pub words: Vec<u8>,
    pub data: Vec<u8>,
}

impl Draft {
    /// Without a configuration header and with any timestamp.
    pub fn plain(random: &mut Random, channel: Channel, kind: u8, data: Vec<u8>) -> Draft {
        Draft {
            channel,
            kind,
            timestamp: random.next() as u32,
            header: None,
            words: Vec::new(),
            data,
        }
    }

    pub fn octets(&self) -> Vec<u8> {
        let mut octets = vec![0, 0, 0x80 | self.channel.0, self.kind];
        octets.extend(self.timestamp.to_be_bytes());
        if let Some(header) = self.header {
            octets[2] |= 0x40;
            octets.extend(header);
        }
        octets.extend(&self.words);
        octets.extend(&self.data);
        size(&mut octets);
        octets
    }
}

/// A mode and a service, most of them fitting.
pub fn mode_and_service(random: &mut Random) -> (u8, u8) {
    let mut mode = random.pick(&[0, 1, 1, 1, 2, 2, 2, 4, 4, 6, 6]);
    if random.chance(3) {
        mode = random.pick(&[3, 5, 7, 8, 0x11, 0xC0, 0xFF]);
    }
    let fitting = match mode {
        0 => random.pick(&[0, 1, 2]),
        6 => random.pick(&[0, 2]),
        _ => random.pick(&[0, 1]),
    };
    let service = if random.chance(4) {
        random.pick(&[1, 2, 3, 255])
    } else {
        fitting
    };
    (mode, service)
}

/// A message with Routing, with what is left of each meter.
pub fn routing(random: &mut Random, channel: Channel, room: [u64; 3]) -> Draft {
    let to = mode_and_service(random);
    let words = words(random, to.0);
    let close = random.chance(15);
    routed(random, channel, to, words, |random, governing| {
        let kind = kind(random, governing);
        (kind, close, data(random, governing, kind, room))
    })
}

/// A message with Routing to a mode and service by these words. Its type,
/// Close and its data come from what is to govern it, if that can be read.
pub fn routed(
    random: &mut Random,
    channel: Channel,
    (mode, service): (u8, u8),
    words: Vec<u8>,
    rest: impl FnOnce(&mut Random, Option<&Governing>) -> (u8, bool, Vec<u8>),
) -> Draft {
    let sdm = random.pick(&[0, 0, 1, 2, 3]);
    let read = Routing {
        service: Service(service),
        mode,
        sdm,
        words: &words,
    };
    let governing = route::check(&read).ok();
    let (kind, close, data) = rest(random, governing.as_ref());
    let mut scwc = (words.len() / 4) as u8;
    if random.chance(3) {
        scwc = scwc.saturating_add(random.pick(&[1, 2, 60]));
    }
    let flags = random.octet() & 0xCC | sdm << 4 | u8::from(close) << 1 | 1;
    Draft {
        header: Some([scwc, flags, service, mode]),
        words,
        ..Draft::plain(random, channel, kind, data)
    }
}

/// A configuration header without Routing; SCWC, SDM, service, mode and
/// words, if any, are to be ignored.
pub fn unrouted(random: &mut Random, draft: &mut Draft) {
    let close = u8::from(random.chance(40)) << 1;
    let mut scwc = random.pick(&[0, 0, 1, 3, 255]);
    if random.chance(15) {
        let mode = random.pick(&[1, 2, 4]);
        draft.words = words(random, mode);
        scwc = (draft.words.len() / 4) as u8;
    }
    let service = random.pick(&[0, 1, 2, 9]);
    let mode = random.pick(&[0, 1, 2, 6, 255]);
    draft.header = Some([scwc, random.octet() & 0xFC | close, service, mode]);
}

/// A chunk type that goes with the mode, most of the time.
pub fn kind(random: &mut Random, governing: Option<&Governing>) -> u8 {
    if random.chance(1) {
        return random.pick(&[0x04, 0x10, 0x11, 0xC1, 0x19, 0xFF]);
    }
    let every = [VOID, WAVE, FRAME, LEVELS, FIRST, SEQUEL];
    if random.chance(6) {
        return random.pick(&every);
    }
    match governing.map(|governing| governing.mode) {
        Some(1) => random.pick(&[WAVE, WAVE, WAVE, WAVE, VOID]),
        Some(2) => random.pick(&[FRAME, FRAME, FRAME, FRAME, VOID]),
        Some(4 | 6) => random.pick(&[LEVELS, LEVELS, LEVELS, LEVELS, VOID]),
        _ => random.pick(&every),
    }
}
