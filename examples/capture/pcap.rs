//! The classic pcap file: one header, then records.

use crate::counts::{Counts, Reason};
use crate::octets::Order;
use crate::packet::Packet;

/// The octets of the file header.
const FILE_HEADER: usize = 24;
/// The octets of a record header.
const RECORD_HEADER: usize = 16;
/// The most octets a record can have: the largest snap length that capture
/// programs set for the link types read here.
const MOST: usize = 262_144;

/// What the magic number of a file says.
#[derive(Clone, Copy, Debug)]
pub struct Format {
    order: Order,
    /// The nanoseconds in the unit of the second time field.
    unit: u128,
}

impl Format {
    /// The format of a magic number, read in the order of the network.
    pub fn of(magic: u32) -> Option<Format> {
        let (order, unit) = match magic {
            0xA1B2_C3D4 => (Order::Big, 1_000),
            0xD4C3_B2A1 => (Order::Little, 1_000),
            0xA1B2_3C4D => (Order::Big, 1),
            0x4D3C_B2A1 => (Order::Little, 1),
            _ => return None,
        };
        Some(Format { order, unit })
    }
}

/// The packets of a file, up to the first record that cannot be right.
pub fn read<'a>(file: &'a [u8], format: Format, counts: &mut Counts) -> Vec<Packet<'a>> {
    let mut packets = Vec::new();
    let link = format.order.u32(file, FILE_HEADER - 4);
    let (Some(link), Some(mut rest)) = (link, file.get(FILE_HEADER..)) else {
        counts.octets(Reason::PastEnd, file.len());
        return packets;
    };
    // The top bits tell of a frame check sequence behind each packet: four have
    // its length, and 0400_0000 says that they do. It is behind the IP packet,
    // too, where octets are ignored.
    let link = link & 0x03FF_FFFF;
    while !rest.is_empty() {
        match record(rest, format, link) {
            Ok((Ok(packet), after)) => {
                packets.push(packet);
                rest = after;
            }
            Ok((Err(reason), after)) => {
                counts.packet(reason);
                rest = after;
            }
            Err(reason) => {
                counts.octets(reason, rest.len());
                break;
            }
        }
    }
    packets
}

/// The packet of a record, or why it is skipped.
type Taken<'a> = Result<Packet<'a>, Reason>;

/// The record at the start, and what is behind it.
///
/// Nothing but its length says where the next record is, so a length above what
/// capture programs capture ends the reading. One above the original length
/// leaves open which of the two is wrong: the packet is skipped, and if the
/// captured length was the wrong one, the next record will show it.
fn record(rest: &[u8], format: Format, link: u32) -> Result<(Taken<'_>, &[u8]), Reason> {
    let past = Reason::PastEnd;
    let seconds = format.order.u32(rest, 0).ok_or(past)?;
    let fraction = format.order.u32(rest, 4).ok_or(past)?;
    let captured = format.order.length(rest, 8).ok_or(past)?;
    let original = format.order.length(rest, 12).ok_or(past)?;
    if captured > MOST {
        return Err(Reason::BadRecord);
    }
    let body = rest.get(RECORD_HEADER..).ok_or(past)?;
    let (octets, after) = body.split_at_checked(captured).ok_or(past)?;
    if captured > original {
        return Ok((Err(Reason::MoreThanSent), after));
    }
    let packet = Packet {
        time: Some(u128::from(seconds) * 1_000_000_000 + u128::from(fraction) * format.unit),
        link,
        original,
        octets,
    };
    Ok((Ok(packet), after))
}
