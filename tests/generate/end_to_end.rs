//! Generated messages as one input of the listing program.

use crate::random::Random;
use crate::stream::stream;
use decoder::message::{FRAME, VOID};

/// About `count` messages end to end, each with its length as Total Size, and
/// the beginning of one more. After each stream its channels are closed.
pub fn end_to_end(random: &mut Random, count: usize) -> Vec<u8> {
    let mut octets = Vec::new();
    let mut messages = 0;
    while messages < count {
        let offers = stream(random, count.min(200)).offers;
        let mut channels = [false; 64];
        for offer in &offers {
            let length = offer.octets.len();
            if length >= 8 && offer.octets[..2] == (length as u16).to_be_bytes() && length < 65_536
            {
                octets.extend(&offer.octets);
                channels[usize::from(offer.octets[2] & 0x3F)] = true;
                messages += 1;
            }
        }
        for channel in (0..64).filter(|channel| channels[usize::from(*channel)]) {
            octets.extend([0, 12, 0xC0 | channel, VOID, 0, 0, 0, 0, 0, 0x02, 0, 0]);
        }
    }
    octets.extend([0, 40, 0x85, FRAME, 1]);
    octets
}
