//! The frame that a receiver gathers: request C-12, "One frame at a time is
//! gathered, header first, at the start of a lent assembly slice". The octets
//! stand in that slice and nowhere else; the host could alter them.

use crate::message::{Channel, Message};

/// Check 26: the most octets of a frame.
pub const MOST_GATHERED: usize = 1_000_000_000;

/// What is kept of the frame being gathered.
#[derive(Clone, Copy, Debug, PartialEq, Eq)]
pub struct Gathering {
    pub channel: u8,
    /// The octets so far, with those of the header.
    pub octets: usize,
    /// The timestamp of the first fragment.
    pub timestamp: u32,
    /// The number of the next sequel, modulo 2 to the power 32.
    pub sequel: u32,
}

impl Gathering {
    /// What an accepted first fragment begins, its octets written.
    pub fn begin(first: &Message, assembly: &mut [u8]) -> Gathering {
        assembly[..first.data.len()].copy_from_slice(first.data);
        Gathering {
            channel: first.channel.0,
            octets: first.data.len(),
            timestamp: first.timestamp,
            sequel: 1,
        }
    }

    pub fn is_on(&self, channel: Channel) -> bool {
        self.channel == channel.0
    }

    /// "a timestamp of the first plus their number from 1 (wrapping at 32
    /// bits)".
    pub fn due(&self) -> u32 {
        self.timestamp.wrapping_add(self.sequel)
    }

    /// The same with a sequel that passed check 26, its octets written.
    pub fn and(self, sequel: &Message, assembly: &mut [u8]) -> Gathering {
        let octets = self.octets + sequel.data.len();
        assembly[self.octets..octets].copy_from_slice(sequel.data);
        Gathering {
            octets,
            sequel: self.sequel.wrapping_add(1),
            ..self
        }
    }
}

/// Check 26: "an assembly slice too short for the octets so far, or over
/// 1,000,000,000 of them". The octets so far are with those of the fragment.
pub fn room(so_far: usize, assembly: usize) -> Result<(), u32> {
    if so_far > assembly || so_far > MOST_GATHERED {
        Err(26)
    } else {
        Ok(())
    }
}
