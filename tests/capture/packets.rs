//! Messages and Internet packets of the test: UDP in IPv4 and IPv6, whole and in
//! fragments, and the link headers before them. Checksums are worked out here.

use std::net::{IpAddr, SocketAddr};

/// Who sends a datagram and to whom.
#[derive(Clone, Copy, PartialEq)]
pub struct Ends {
    pub from: SocketAddr,
    pub to: SocketAddr,
}

pub fn ends(from: &str, to: &str) -> Ends {
    Ends {
        from: from.parse().unwrap(),
        to: to.parse().unwrap(),
    }
}

/// The ends that most captures use, of either version.
pub fn usual(version: u8) -> Ends {
    match version {
        4 => ends("192.0.2.1:51234", "192.0.2.7:7255"),
        _ => ends("[2001:db8::1]:51234", "[2001:db8::2]:7255"),
    }
}

/// Octets that differ with the seed; the same seed gives the same octets.
pub fn noise(length: usize, seed: u64) -> Vec<u8> {
    let mut state = (seed + 1).wrapping_mul(0x9E37_79B9_7F4A_7C15) | 1;
    let mut next = || {
        state ^= state << 13;
        state ^= state >> 7;
        state ^= state << 17;
        (state >> 32) as u8
    };
    (0..length).map(|_| next()).collect()
}

/// A message of this length: its Total Size, and then noise.
pub fn message(length: usize, seed: u64) -> Vec<u8> {
    let mut octets = noise(length, seed);
    octets[..2].copy_from_slice(&(length as u16).to_be_bytes());
    octets
}

/// The four octets of IDN-Hello and what follows them.
pub fn hello(command: u8, sequence: u16, rest: &[u8]) -> Vec<u8> {
    let [high, low] = sequence.to_be_bytes();
    [&[command, 0, high, low], rest].concat()
}

/// The Internet checksum: 0 over octets that hold their right checksum.
pub fn checksum(octets: &[u8]) -> u16 {
    let mut sum = 0u32;
    for pair in octets.chunks(2) {
        sum += u32::from(u16::from_be_bytes([pair[0], *pair.get(1).unwrap_or(&0)]));
    }
    while sum > 0xFFFF {
        sum = (sum & 0xFFFF) + (sum >> 16);
    }
    !(sum as u16)
}

fn address(ip: IpAddr) -> Vec<u8> {
    match ip {
        IpAddr::V4(ip) => ip.octets().to_vec(),
        IpAddr::V6(ip) => ip.octets().to_vec(),
    }
}

/// What the checksum of UDP covers before the UDP header.
pub fn pseudo(ends: Ends, length: usize) -> Vec<u8> {
    let mut octets = address(ends.from.ip());
    octets.extend(address(ends.to.ip()));
    octets.extend((length as u32).to_be_bytes());
    octets.extend([0, 0, 0, 17]);
    octets
}

pub fn udp(ends: Ends, data: &[u8]) -> Vec<u8> {
    let mut octets = ends.from.port().to_be_bytes().to_vec();
    octets.extend(ends.to.port().to_be_bytes());
    octets.extend(((8 + data.len()) as u16).to_be_bytes());
    octets.extend([0, 0]);
    octets.extend(data);
    let sum = checksum(&[pseudo(ends, octets.len()), octets.clone()].concat());
    let sum = if sum == 0 { 0xFFFF } else { sum };
    octets[6..8].copy_from_slice(&sum.to_be_bytes());
    octets
}

/// An IPv4 packet; `place` is the field of flags and offset.
pub fn ipv4(ends: Ends, protocol: u8, id: u16, place: u16, options: &[u8], body: &[u8]) -> Vec<u8> {
    let header = 20 + options.len();
    let mut octets = vec![0x40 | (header / 4) as u8, 0];
    octets.extend(((header + body.len()) as u16).to_be_bytes());
    octets.extend(id.to_be_bytes());
    octets.extend(place.to_be_bytes());
    octets.extend([64, protocol, 0, 0]);
    octets.extend(address(ends.from.ip()));
    octets.extend(address(ends.to.ip()));
    octets.extend(options);
    let sum = checksum(&octets);
    octets[10..12].copy_from_slice(&sum.to_be_bytes());
    octets.extend(body);
    octets
}

/// An IPv6 packet; each extension header is its number and its octets, whose
/// first is put in here.
pub fn ipv6(ends: Ends, protocol: u8, extensions: &[(u8, Vec<u8>)], body: &[u8]) -> Vec<u8> {
    let mut chain = Vec::new();
    for (at, (_, octets)) in extensions.iter().enumerate() {
        let next = extensions.get(at + 1).map_or(protocol, |e| e.0);
        chain.push(next);
        chain.extend(&octets[1..]);
    }
    let mut octets = vec![0x60, 0, 0, 0];
    octets.extend(((chain.len() + body.len()) as u16).to_be_bytes());
    octets.push(extensions.first().map_or(protocol, |e| e.0));
    octets.push(64);
    octets.extend(address(ends.from.ip()));
    octets.extend(address(ends.to.ip()));
    octets.extend(chain);
    octets.extend(body);
    octets
}

/// A packet that is no fragment.
pub fn whole(ends: Ends, protocol: u8, body: &[u8]) -> Vec<u8> {
    if ends.from.is_ipv4() {
        ipv4(ends, protocol, 0x0101, 0x4000, &[], body)
    } else {
        ipv6(ends, protocol, &[], body)
    }
}

/// One fragment of a UDP datagram.
pub fn piece(ends: Ends, id: u32, offset: usize, more: bool, body: &[u8]) -> Vec<u8> {
    let place = offset as u16;
    if ends.from.is_ipv4() {
        let place = place / 8 | if more { 0x2000 } else { 0 };
        return ipv4(ends, 17, id as u16, place, &[], body);
    }
    let mut header = vec![0, 0];
    header.extend((place | u16::from(more)).to_be_bytes());
    header.extend(id.to_be_bytes());
    ipv6(ends, 17, &[(44, header)], body)
}

/// All fragments of a UDP datagram, `size` octets in each but the last.
pub fn pieces(ends: Ends, id: u32, datagram: &[u8], size: usize) -> Vec<Vec<u8>> {
    let count = datagram.len().div_ceil(size);
    let cut = datagram.chunks(size).enumerate();
    cut.map(|(at, body)| piece(ends, id, at * size, at + 1 < count, body))
        .collect()
}

/// A message in one packet.
pub fn sent(ends: Ends, message: &[u8]) -> Vec<u8> {
    whole(ends, 17, &udp(ends, &hello(0x40, 0, message)))
}

/// A packet behind the header of a link, with VLAN tags of these types.
pub fn linked(link: u32, tags: &[u16], packet: &[u8]) -> Vec<u8> {
    let kind = if packet[0] >> 4 == 4 { 0x0800 } else { 0x86DD };
    typed(link, tags, kind, packet)
}

/// The same for any type of packet.
pub fn typed(link: u32, tags: &[u16], kind: u16, packet: &[u8]) -> Vec<u8> {
    let mut types: Vec<u16> = tags.to_vec();
    types.push(kind);
    let first = types[0].to_be_bytes();
    let mut octets = match link {
        1 => [&[2, 0, 0, 0, 0, 2, 2, 0, 0, 0, 0, 1], &first[..]].concat(),
        113 => [&[0, 4, 0, 1, 0, 6, 2, 0, 0, 0, 0, 1, 0, 0], &first[..]].concat(),
        276 => [
            &first[..],
            &[0, 0, 0, 0, 0, 3, 0, 1, 4, 6, 2, 0, 0, 0, 0, 1, 0, 0],
        ]
        .concat(),
        // The family: 2 for IPv4 everywhere, for IPv6 one of several numbers.
        0 => vec![if kind == 0x0800 { 2 } else { 30 }, 0, 0, 0],
        108 => vec![0, 0, 0, if kind == 0x0800 { 2 } else { 24 }],
        _ => Vec::new(),
    };
    for kind in &types[1..] {
        octets.extend([0x60, 0x05]);
        octets.extend(kind.to_be_bytes());
    }
    octets.extend(packet);
    octets
}
