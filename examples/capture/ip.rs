//! IPv4 and IPv6: the UDP datagram of a packet, or the fragment of one.

use std::net::{IpAddr, Ipv4Addr, Ipv6Addr};

use crate::checksum::UDP;
use crate::counts::Reason;
use crate::link::Version;

/// The most octets of a datagram in fragments.
const MOST: usize = 65_535;

/// The extension headers of IPv6 that can stand before UDP.
const HOP_BY_HOP: u8 = 0;
const ROUTING: u8 = 43;
const FRAGMENT: u8 = 44;
const AUTHENTICATION: u8 = 51;
const DESTINATION: u8 = 60;

/// What an IP packet carries, and between whom.
#[derive(Debug)]
pub struct Ip<'a> {
    pub from: IpAddr,
    pub to: IpAddr,
    pub payload: Payload<'a>,
}

/// What an IP packet carries.
#[derive(Debug)]
pub enum Payload<'a> {
    Udp(&'a [u8]),
    Fragment(Fragment<'a>),
}

/// A part of what another packet would carry whole.
#[derive(Debug)]
pub struct Fragment<'a> {
    pub protocol: u8,
    pub identification: u32,
    pub start: usize,
    pub last: bool,
    pub octets: &'a [u8],
}

/// The IP packet at the start of the octets. Too few octets are skipped with
/// the reason given, as the packet may be cut.
pub fn read(version: Version, octets: &[u8], missing: Reason) -> Result<Ip<'_>, Reason> {
    let number = octets.first().ok_or(missing)? >> 4;
    match (version, number) {
        (Version::V4 | Version::Inside, 4) => v4(octets, missing),
        (Version::V6 | Version::Inside, 6) => v6(octets, missing),
        _ => Err(Reason::Damaged),
    }
}

/// The header checksum is not looked at: network cards that compute it leave
/// it wrong in captures made at the sender.
fn v4(octets: &[u8], missing: Reason) -> Result<Ip<'_>, Reason> {
    // The places in an array of a known length are checked by the compiler.
    let header: [u8; 20] = *octets.first_chunk().ok_or(missing)?;
    let start = usize::from(header[0] & 0x0F) * 4;
    let total = usize::from(u16::from_be_bytes([header[2], header[3]]));
    if start < header.len() || total < start {
        return Err(Reason::Damaged);
    }
    let body = octets.get(start..total).ok_or(missing)?;
    if header[9] != UDP {
        return Err(Reason::NotUdp);
    }
    let place = u16::from_be_bytes([header[6], header[7]]);
    let fragment = Fragment {
        protocol: UDP,
        identification: u32::from(u16::from_be_bytes([header[4], header[5]])),
        start: usize::from(place & 0x1FFF) * 8,
        last: place & 0x2000 == 0,
        octets: body,
    };
    let payload = match fragment {
        Fragment {
            start: 0,
            last: true,
            ..
        } => Payload::Udp(body),
        fragment => Payload::Fragment(fragment.check()?),
    };
    let [.., f0, f1, f2, f3, t0, t1, t2, t3] = header;
    Ok(Ip {
        from: Ipv4Addr::new(f0, f1, f2, f3).into(),
        to: Ipv4Addr::new(t0, t1, t2, t3).into(),
        payload,
    })
}

fn v6(octets: &[u8], missing: Reason) -> Result<Ip<'_>, Reason> {
    let (header, rest) = octets.split_first_chunk::<8>().ok_or(missing)?;
    let (from, rest) = rest.split_first_chunk::<16>().ok_or(missing)?;
    let (to, rest) = rest.split_first_chunk::<16>().ok_or(missing)?;
    let [_, _, _, _, high, low, next, _] = *header;
    let length = usize::from(u16::from_be_bytes([high, low]));
    let body = rest.get(..length).ok_or(missing)?;
    Ok(Ip {
        from: Ipv6Addr::from(*from).into(),
        to: Ipv6Addr::from(*to).into(),
        payload: payload(next, body)?,
    })
}

/// What is behind the extension headers. Each turn takes octets away, so the
/// loop ends.
pub fn payload(mut protocol: u8, mut octets: &[u8]) -> Result<Payload<'_>, Reason> {
    loop {
        let length = match protocol {
            UDP => return Ok(Payload::Udp(octets)),
            HOP_BY_HOP | ROUTING | DESTINATION => second(octets)? * 8 + 8,
            AUTHENTICATION => second(octets)? * 4 + 8,
            FRAGMENT => match fragment(octets)? {
                // The only fragment is the whole (RFC 6946).
                Fragment {
                    start: 0,
                    last: true,
                    ..
                } => 8,
                fragment => return Ok(Payload::Fragment(fragment.check()?)),
            },
            _ => return Err(Reason::NotUdp),
        };
        protocol = *octets.first().ok_or(Reason::Damaged)?;
        octets = octets.get(length..).ok_or(Reason::Damaged)?;
    }
}

/// The second octet of an extension header: its length in a unit of its own.
fn second(octets: &[u8]) -> Result<usize, Reason> {
    octets
        .get(1)
        .copied()
        .map(usize::from)
        .ok_or(Reason::Damaged)
}

/// The fragment behind a fragment header of IPv6.
fn fragment(octets: &[u8]) -> Result<Fragment<'_>, Reason> {
    let (header, octets) = octets.split_first_chunk::<8>().ok_or(Reason::Damaged)?;
    let [protocol, _, high, low, identification @ ..] = *header;
    let place = u16::from_be_bytes([high, low]);
    Ok(Fragment {
        protocol,
        identification: u32::from_be_bytes(identification),
        start: usize::from(place & 0xFFF8),
        last: place & 1 == 0,
        octets,
    })
}

impl<'a> Fragment<'a> {
    /// This fragment, if it can be one of a UDP datagram.
    fn check(self) -> Result<Fragment<'a>, Reason> {
        let length = self.octets.len();
        if length == 0 || !self.last && length % 8 != 0 || self.start + length > MOST {
            return Err(Reason::Damaged);
        }
        match self.protocol {
            UDP | HOP_BY_HOP | ROUTING | DESTINATION | AUTHENTICATION | FRAGMENT => Ok(self),
            _ => Err(Reason::NotUdp),
        }
    }
}
