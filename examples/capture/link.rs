//! The link layer: where the IP packet is in a captured packet.

use crate::counts::Reason;
use crate::octets::u16_at;
use crate::packet::Packet;

/// The version of an IP packet, where the link layer says it.
#[derive(Clone, Copy, Debug, PartialEq, Eq)]
pub enum Version {
    V4,
    V6,
    /// The first octet of the packet says it.
    Inside,
}

/// The IP packet in a captured packet, with what is behind it.
pub fn ip<'a>(packet: &Packet<'a>) -> Result<(Version, &'a [u8]), Reason> {
    // Where the type of the payload is: it is the end of the link header.
    let place = match packet.link {
        1 => 12,
        113 => 14,
        276 => return cooked_v2(packet),
        12 | 14 | 101 => return Ok((Version::Inside, packet.octets)),
        // The loopback of BSD, macOS and Windows: four octets for the family,
        // whose numbers differ from system to system.
        0 | 108 => {
            let octets = packet.octets.get(4..).ok_or(packet.missing())?;
            return Ok((Version::Inside, octets));
        }
        228 => return Ok((Version::V4, packet.octets)),
        229 => return Ok((Version::V6, packet.octets)),
        other => return Err(Reason::Link(other)),
    };
    let missing = packet.missing();
    let kind = u16_at(packet.octets, place).ok_or(missing)?;
    payload(
        kind,
        packet.octets.get(place + 2..).ok_or(missing)?,
        missing,
    )
}

/// The IP packet in a Linux cooked packet of version 2, which begins with the
/// type of the payload.
fn cooked_v2<'a>(packet: &Packet<'a>) -> Result<(Version, &'a [u8]), Reason> {
    let missing = packet.missing();
    let kind = u16_at(packet.octets, 0).ok_or(missing)?;
    payload(kind, packet.octets.get(20..).ok_or(missing)?, missing)
}

/// The IP packet behind a type, through VLAN tags: each is two octets of its
/// own and the type of what is behind it.
fn payload(mut kind: u16, mut octets: &[u8], missing: Reason) -> Result<(Version, &[u8]), Reason> {
    loop {
        match kind {
            0x0800 => return Ok((Version::V4, octets)),
            0x86DD => return Ok((Version::V6, octets)),
            0x8100 | 0x88A8 | 0x9100 => {
                kind = u16_at(octets, 2).ok_or(missing)?;
                octets = octets.get(4..).ok_or(missing)?;
            }
            _ => return Err(Reason::NotIp),
        }
    }
}
