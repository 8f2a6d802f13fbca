//! UDP datagrams.

use std::net::{IpAddr, SocketAddr};

use crate::checksum;
use crate::octets::u16_at;

/// A UDP datagram without its header.
#[derive(Debug)]
pub struct Datagram<'a> {
    pub from: SocketAddr,
    pub to: SocketAddr,
    /// Whether the checksum is right. One of 0 says that there is none.
    pub right: bool,
    pub octets: &'a [u8],
}

/// The datagram at the start of what an IP packet carries. What is behind its
/// length is no part of it.
pub fn read(from: IpAddr, to: IpAddr, octets: &[u8]) -> Option<Datagram<'_>> {
    let length = usize::from(u16_at(octets, 4)?);
    let datagram = octets.get(..length)?;
    let checksum = u16_at(datagram, 6)?;
    Some(Datagram {
        from: SocketAddr::new(from, u16_at(datagram, 0)?),
        to: SocketAddr::new(to, u16_at(datagram, 2)?),
        right: checksum == 0 || checksum::udp(from, to, datagram) == 0,
        octets: datagram.get(8..)?,
    })
}
