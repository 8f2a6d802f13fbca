//! The checksum of IPv4 headers and UDP datagrams (RFC 1071).

use std::net::IpAddr;

/// The protocol number of UDP.
pub const UDP: u8 = 17;

/// The sum of 16 bit numbers, an odd octet at the end counted as a high one.
fn add(sum: u64, octets: &[u8]) -> u64 {
    octets.chunks(2).fold(sum, |sum, pair| match *pair {
        [high, low] => sum + u64::from(u16::from_be_bytes([high, low])),
        [high] => sum + (u64::from(high) << 8),
        _ => sum,
    })
}

/// The ones' complement of a sum with its carries added in.
fn finish(mut sum: u64) -> u16 {
    while let carry @ 1.. = sum >> 16 {
        sum = (sum & 0xFFFF) + carry;
    }
    !(sum as u16)
}

/// The checksum of an IPv4 header whose checksum field is 0.
pub fn header(octets: &[u8]) -> u16 {
    finish(add(0, octets))
}

/// The checksum of a UDP datagram with its pseudo header. It is 0 where the
/// checksum field of the datagram is right, and what the field must be where
/// the field is 0.
pub fn udp(from: IpAddr, to: IpAddr, datagram: &[u8]) -> u16 {
    let addresses = address(from) + address(to);
    let rest = u64::from(UDP) + datagram.len() as u64;
    finish(add(addresses + rest, datagram))
}

/// The sum of an address.
fn address(address: IpAddr) -> u64 {
    match address {
        IpAddr::V4(address) => add(0, &address.octets()),
        IpAddr::V6(address) => add(0, &address.octets()),
    }
}

#[cfg(test)]
mod tests {
    use super::*;

    #[test]
    fn header_of_rfc_1071() {
        let octets = [0x00, 0x01, 0xf2, 0x03, 0xf4, 0xf5, 0xf6, 0xf7];
        assert_eq!(header(&octets), !0xddf2);
    }
}
