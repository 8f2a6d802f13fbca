//! Random data sections: waves, frames and dimmer levels that fit what
//! governs them, most of them.

use crate::limits::aimed;
use crate::random::Random;
use crate::samples::samples;
use decoder::dictionary::Layout;
use decoder::dimmer::Map;
use decoder::message::{LEVELS, VOID};
use decoder::route::{Governing, Tags};

/// A data section for a chunk type, with what is left of each meter.
pub fn data(
    random: &mut Random,
    governing: Option<&Governing>,
    kind: u8,
    room: [u64; 3],
) -> Vec<u8> {
    if kind == VOID && random.chance(85) {
        return Vec::new();
    }
    let Some(governing) = governing else {
        let count = random.pick(&[0, 3, 4, 20, 64]);
        return random.octets(count);
    };
    if random.chance(4) {
        let count = random.below(4);
        return random.octets(count);
    }
    let mut data = header(random, governing.sdm);
    let octets = match &governing.tags {
        Tags::Ignored => {
            let count = random.below(40);
            random.octets(count)
        }
        Tags::Graphic(layout) if kind != LEVELS => points(random, layout, kind, room, &mut data),
        Tags::Graphic(_) => random.octets(9),
        Tags::Dimmer(map) => levels(random, map),
    };
    data.extend(octets);
    data
}

/// The flags octet and the three octets after it; the other bits of the
/// flags are random.
fn header(random: &mut Random, sdm: u8) -> Vec<u8> {
    let other = random.pick(&[1, 2, 3]);
    let scm = if random.chance(6) { sdm ^ other } else { sdm };
    let flags = random.octet() & 0xCF | scm << 4;
    let duration: u32 = match random.below(5) {
        0 => random.pick(&[0, 1, 0xFF_FFFF]),
        1 => random.next() as u32,
        _ => random.between(1, 50_000) as u32,
    };
    let [_, high, middle, low] = duration.to_be_bytes();
    vec![flags, high, middle, low]
}

/// Samples of any kind, or those of a wave or frame near the limit of a meter,
/// with its Duration put in the header.
fn points(
    random: &mut Random,
    layout: &Layout,
    kind: u8,
    room: [u64; 3],
    header: &mut [u8],
) -> Vec<u8> {
    if random.chance(40) {
        if let Some((duration, samples)) = aimed(random, layout, kind, room) {
            header[1..4].copy_from_slice(&duration.to_be_bytes()[1..]);
            return samples;
        }
    }
    samples(random, layout)
}

/// As many levels as fit, most of the time; sometimes one more or fewer.
fn levels(random: &mut Random, map: &Map) -> Vec<u8> {
    let most = match map {
        Map::Whole(0xFFFF) => random.pick(&[0, 1, 512, 513, 700]),
        Map::Whole(base) => 513 - usize::from(*base),
        Map::Subsets(subsets) => subsets.iter().map(|s| usize::from(s.count)).sum(),
    };
    let count = match (map, random.below(10)) {
        (_, 0) => most + 1,
        (_, 1) => most.saturating_sub(1),
        (Map::Whole(_), 2..=6) => random.below(most + 1),
        _ => most,
    };
    random.octets(count)
}
