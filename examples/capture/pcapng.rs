//! The pcapng file: blocks, each with its length at both ends.

use crate::counts::{Counts, Reason};
use crate::octets::Order;
use crate::packet::Packet;

/// The type of a section header block, the same in either octet order.
pub const SECTION: u32 = 0x0A0D_0D0A;
/// The number that shows the octet order of a section.
const ORDER: u32 = 0x1A2B_3C4D;

/// The other block types that are read.
const INTERFACE: u32 = 1;
const OLD_PACKET: u32 = 2;
const SIMPLE_PACKET: u32 = 3;
const PACKET: u32 = 6;

/// The option of an interface that gives the unit of its times.
const TIME_RESOLUTION: u16 = 9;

/// What a section says of an interface.
#[derive(Clone, Copy)]
struct Interface {
    link: u32,
    /// The most octets captured of a packet, 0 for no limit.
    snap: usize,
    /// The unit of times: 10 or 2 to the power of minus the exponent.
    base: u128,
    exponent: u32,
}

/// A block without its type and lengths.
struct Block<'a> {
    kind: u32,
    body: &'a [u8],
    /// Whether both lengths are the same.
    sound: bool,
}

/// A section as far as it was read.
struct Section {
    order: Order,
    /// The interfaces by number, nothing where a description was damaged: the
    /// ones behind it keep their numbers.
    interfaces: Vec<Option<Interface>>,
}

/// The packets of a file, up to the first block that cannot be right.
pub fn read<'a>(file: &'a [u8], counts: &mut Counts) -> Vec<Packet<'a>> {
    let mut packets = Vec::new();
    let mut section = Section {
        order: Order::Big,
        interfaces: Vec::new(),
    };
    let mut rest = file;
    while !rest.is_empty() {
        let read = block(rest, &mut section).and_then(|(block, after)| {
            let packet = section.take(&block)?;
            Ok((packet, after))
        });
        match read {
            Ok((taken, after)) => {
                match taken {
                    Taken::Packet(packet) => packets.push(packet),
                    Taken::Skipped(reason) => counts.packet(reason),
                    Taken::TwoLengths => counts.block(Reason::TwoLengths),
                    Taken::Nothing => {}
                }
                rest = after;
            }
            Err(reason) => {
                counts.octets(reason, rest.len());
                break;
            }
        }
    }
    packets
}

/// The order of the section whose header is at the start.
pub fn order(rest: &[u8]) -> Option<Order> {
    match Order::Big.u32(rest, 8)? {
        ORDER => Some(Order::Big),
        order if order.swap_bytes() == ORDER => Some(Order::Little),
        _ => None,
    }
}

/// The block at the start, and what is behind it. A section header begins the
/// section anew, because the length of the header is in the section's order.
fn block<'a>(rest: &'a [u8], section: &mut Section) -> Result<(Block<'a>, &'a [u8]), Reason> {
    let past = Reason::PastEnd;
    let kind = section.order.u32(rest, 0).ok_or(past)?;
    if kind == SECTION {
        section.order = order(rest).ok_or(Reason::BadSection)?;
        section.interfaces.clear();
    }
    let bad = match kind {
        SECTION => Reason::BadSection,
        _ => Reason::BadRecord,
    };
    let length = section.order.length(rest, 4).ok_or(past)?;
    if length < least(kind) || length % 4 != 0 {
        return Err(bad);
    }
    let (block, after) = rest.split_at_checked(length).ok_or(past)?;
    let sound = section.order.length(block, length - 4) == Some(length);
    if kind == SECTION && !sound {
        return Err(bad);
    }
    let body = block.get(8..length - 4).ok_or(bad)?;
    Ok((Block { kind, body, sound }, after))
}

/// The least length of a block: its fixed fields, its type and both lengths.
fn least(kind: u32) -> usize {
    match kind {
        SECTION => 28,
        INTERFACE => 20,
        OLD_PACKET | PACKET => 32,
        SIMPLE_PACKET => 16,
        _ => 12,
    }
}

/// What a block gave.
enum Taken<'a> {
    Packet(Packet<'a>),
    Skipped(Reason),
    TwoLengths,
    Nothing,
}

impl Section {
    /// Takes a block in.
    fn take<'a>(&mut self, block: &Block<'a>) -> Result<Taken<'a>, Reason> {
        if !block.sound {
            if block.kind == INTERFACE {
                self.interfaces.push(None);
            }
            return Ok(Taken::TwoLengths);
        }
        let taken = match block.kind {
            INTERFACE => self.describe(block.body).map(|()| Taken::Nothing),
            PACKET => self.packet(block.body, self.order.length(block.body, 0)),
            OLD_PACKET => {
                let interface = self.order.u16(block.body, 0).map(usize::from);
                self.packet(block.body, interface)
            }
            SIMPLE_PACKET => self.simple_packet(block.body),
            _ => Some(Taken::Nothing),
        };
        taken.ok_or(Reason::BadRecord)
    }

    /// Adds the interface of a description.
    fn describe(&mut self, body: &[u8]) -> Option<()> {
        let resolution = time_resolution(self.order, body.get(8..)?).unwrap_or(6);
        let interface = Interface {
            link: u32::from(self.order.u16(body, 0)?),
            snap: self.order.length(body, 4)?,
            base: if resolution & 0x80 == 0 { 10 } else { 2 },
            exponent: u32::from(resolution & 0x7F),
        };
        self.interfaces.push(Some(interface));
        Some(())
    }

    /// The interface of a number, if the section describes it.
    fn interface(&self, number: usize) -> Option<Interface> {
        self.interfaces.get(number).copied().flatten()
    }

    /// The packet of an enhanced packet block, or of the old packet block: these
    /// differ only in the first four octets. Nothing where the captured length
    /// is above the block. Where it is above the original length, the block is
    /// known to end where it says, so only this packet is lost.
    fn packet<'a>(&self, body: &'a [u8], interface: Option<usize>) -> Option<Taken<'a>> {
        let high = self.order.u32(body, 4)?;
        let low = self.order.u32(body, 8)?;
        let captured = self.order.length(body, 12)?;
        let original = self.order.length(body, 16)?;
        let octets = body.get(20..)?.get(..captured)?;
        let Some(interface) = self.interface(interface?) else {
            return Some(Taken::Skipped(Reason::NoInterface));
        };
        if captured > original {
            return Some(Taken::Skipped(Reason::MoreThanSent));
        }
        Some(Taken::Packet(Packet {
            time: Some(interface.nanoseconds(u64::from(high) << 32 | u64::from(low))),
            link: interface.link,
            original,
            octets,
        }))
    }

    /// The packet of a simple packet block: of interface 0, without a time, and
    /// with a captured length that follows from the others.
    fn simple_packet<'a>(&self, body: &'a [u8]) -> Option<Taken<'a>> {
        let original = self.order.length(body, 0)?;
        let room = body.get(4..)?;
        let Some(interface) = self.interface(0) else {
            return Some(Taken::Skipped(Reason::NoInterface));
        };
        let snap = match interface.snap {
            0 => usize::MAX,
            snap => snap,
        };
        let octets = room.get(..original.min(snap).min(room.len()))?;
        Some(Taken::Packet(Packet {
            time: None,
            link: interface.link,
            original,
            octets,
        }))
    }
}

impl Interface {
    /// A time of this interface in nanoseconds. A unit that does not fit the
    /// number is so small that all its times are within the first nanosecond.
    fn nanoseconds(&self, time: u64) -> u128 {
        let time = u128::from(time) * 1_000_000_000;
        let second = self.base.checked_pow(self.exponent);
        second.map_or(0, |second| time / second)
    }
}

/// The value of the time resolution option, if it is among the options.
fn time_resolution(order: Order, mut options: &[u8]) -> Option<u8> {
    loop {
        let code = order.u16(options, 0)?;
        let length = usize::from(order.u16(options, 2)?);
        let value = options.get(4..)?.get(..length)?;
        match (code, value) {
            (0, _) => return None,
            (TIME_RESOLUTION, [resolution]) => return Some(*resolution),
            _ => options = options.get(4 + length.next_multiple_of(4)..)?,
        }
    }
}
