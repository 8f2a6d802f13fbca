//! Messages that are cut, lengthened or changed.

use crate::random::Random;
use decoder::message::MOST;

/// Sets Total Size to the length.
pub fn size(octets: &mut [u8]) {
    let length = octets.len() as u16;
    if octets.len() >= 2 {
        octets[..2].copy_from_slice(&length.to_be_bytes());
    }
}

/// Cuts, lengthens or changes a message.
pub fn damage(random: &mut Random, octets: &mut Vec<u8>) {
    let place = random.below(octets.len().max(1));
    match random.below(12) {
        0 if !octets.is_empty() => octets[place] ^= 1 << random.below(8),
        1 if octets.len() > 3 => octets[random.between(2, 3)] = random.octet(),
        2 if octets.len() > 2 => octets[2] &= 0x7F,
        3 => octets.truncate(place),
        4 => {
            octets.truncate(place);
            size(octets);
        }
        5 => {
            let more = random.pick(&[1, 2, 3, 4]);
            octets.extend(random.octets(more));
            size(octets);
        }
        6 => octets.push(random.octet()),
        7 => *octets = random.octets(place),
        8 if octets.len() > 11 => {
            octets[random.between(8, 11)] = random.octet();
        }
        9 if octets.len() > 12 => {
            let early = random.between(12, (octets.len() - 1).min(30));
            octets[early] = random.octet();
        }
        10 => {
            octets.truncate(random.pick(&[8, 9, 11, 12, 15, 16]));
            size(octets);
        }
        11 if random.chance(10) => {
            many_octets(random, octets);
            size(octets);
        }
        _ => {}
    }
}

/// Lengthens a message to a length at or past the limit.
fn many_octets(random: &mut Random, octets: &mut Vec<u8>) {
    let length = random.pick(&[MOST - 1, MOST, MOST, MOST + 1, 65_535, 65_536 + 8]);
    let more = length.saturating_sub(octets.len());
    octets.extend(random.octets(more));
}
