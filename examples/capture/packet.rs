//! The packets of a capture file, whichever of the two formats it has.

use crate::counts::{Counts, Reason};
use crate::{pcap, pcapng};

/// A packet as the capture holds it.
#[derive(Clone, Copy, Debug)]
pub struct Packet<'a> {
    /// When it was captured, in nanoseconds, where the file says so.
    pub time: Option<u128>,
    /// The link type of its interface.
    pub link: u32,
    /// How many octets it had on the wire.
    pub original: usize,
    /// The octets that were captured.
    pub octets: &'a [u8],
}

impl Packet<'_> {
    /// Why a packet with too few octets is skipped.
    pub fn missing(&self) -> Reason {
        if self.octets.len() < self.original {
            Reason::Cut
        } else {
            Reason::Damaged
        }
    }
}

/// The packets of a file in its order, or nothing if it does not begin as a
/// capture does. What cannot be read is counted.
pub fn read<'a>(file: &'a [u8], counts: &mut Counts) -> Option<Vec<Packet<'a>>> {
    let magic = u32::from_be_bytes(*file.first_chunk()?);
    if magic == pcapng::SECTION && pcapng::order(file).is_some() {
        return Some(pcapng::read(file, counts));
    }
    let format = pcap::Format::of(magic)?;
    Some(pcap::read(file, format, counts))
}
