//! Captures written: channel messages in UDP datagrams over IPv4 and Ethernet.

use std::net::Ipv4Addr;

use crate::checksum::{self, UDP};
use crate::hello::{CHANNEL_MESSAGE, PORT};

/// Addresses for documentation (RFC 5737): no host has them.
const CLIENT: Ipv4Addr = Ipv4Addr::new(192, 0, 2, 1);
const CARD: Ipv4Addr = Ipv4Addr::new(192, 0, 2, 2);
/// The port of the client, from the range of those that are not assigned.
const CLIENT_PORT: u16 = 51_000;
/// The Ethernet header: locally administered addresses, and the type of IPv4.
const ETHERNET: [u8; 14] = [2, 0, 0, 0, 0, 2, 2, 0, 0, 0, 0, 1, 0x08, 0x00];
/// The least octets of an Ethernet frame without its check sequence.
const LEAST_FRAME: usize = 60;
/// The octets of the headers of IPv4 and UDP.
const IP_HEADER: usize = 20;
const UDP_HEADER: usize = 8;
/// The time of the first packet: 2026-01-01, in microseconds.
const START: u64 = 1_767_225_600_000_000;

/// The least MTU that can be asked for: each link of IPv4 has it.
pub const LEAST_MTU: u16 = 68;

/// What one message leaves for the next one.
pub struct Writer {
    mtu: u16,
    /// The number of messages, which gives sequence and identification.
    messages: u64,
    /// The time in microseconds, and the timestamp of the message before.
    time: u64,
    timestamp: Option<u32>,
}

/// The header of the file.
pub fn file_header() -> Vec<u8> {
    let mut octets = Vec::new();
    octets.extend_from_slice(&0xA1B2_C3D4_u32.to_le_bytes());
    octets.extend_from_slice(&2_u16.to_le_bytes());
    octets.extend_from_slice(&4_u16.to_le_bytes());
    // The time zone and the accuracy, which nobody uses.
    octets.extend_from_slice(&[0; 8]);
    octets.extend_from_slice(&262_144_u32.to_le_bytes());
    // The link type of Ethernet.
    octets.extend_from_slice(&1_u32.to_le_bytes());
    octets
}

impl Writer {
    /// A writer of packets of at most so many octets of IP.
    pub fn new(mtu: u16) -> Writer {
        Writer {
            mtu: mtu.max(LEAST_MTU),
            messages: 0,
            time: START,
            timestamp: None,
        }
    }

    /// The records of a message, several if it is longer than the MTU allows.
    /// Nothing if it does not fit an IPv4 datagram.
    pub fn records(&mut self, message: &[u8]) -> Option<Vec<u8>> {
        // Both numbers count modulo 65536.
        let number = self.messages as u16;
        let datagram = datagram(number, message)?;
        self.messages += 1;
        self.advance(message);
        let room = usize::from(self.mtu) - IP_HEADER;
        // Offsets count in units of 8 octets, so all but the last end on one.
        let size = if datagram.len() <= room {
            room
        } else {
            room / 8 * 8
        };
        let pieces = datagram.len().div_ceil(size);
        let mut records = Vec::new();
        for (index, piece) in datagram.chunks(size).enumerate() {
            let header = ip_header(number, index * size, index + 1 == pieces, piece.len());
            self.record(&header, piece, &mut records);
        }
        Some(records)
    }

    /// Moves the time on to a message. Timestamps count modulo 2^32, so a
    /// difference of half of that or more is one that goes back.
    fn advance(&mut self, message: &[u8]) {
        let timestamp = message.get(4..).and_then(|rest| rest.first_chunk());
        let timestamp = timestamp.map(|octets| u32::from_be_bytes(*octets));
        if let (Some(before), Some(now)) = (self.timestamp, timestamp) {
            let difference = now.wrapping_sub(before);
            if difference < 1 << 31 {
                self.time += u64::from(difference);
            }
        }
        self.timestamp = timestamp.or(self.timestamp);
    }

    /// Adds the record of an IPv4 packet in an Ethernet frame.
    fn record(&self, header: &[u8], body: &[u8], records: &mut Vec<u8>) {
        let mut frame = [&ETHERNET, header, body].concat();
        frame.resize(frame.len().max(LEAST_FRAME), 0);
        // The seconds of the format end in 2106 and begin again.
        let seconds = (self.time / 1_000_000) as u32;
        let microseconds = (self.time % 1_000_000) as u32;
        let length = frame.len() as u32;
        for number in [seconds, microseconds, length, length] {
            records.extend_from_slice(&number.to_le_bytes());
        }
        records.extend_from_slice(&frame);
    }
}

/// The UDP datagram of a message, if it fits an IPv4 datagram.
fn datagram(sequence: u16, message: &[u8]) -> Option<Vec<u8>> {
    let length = u16::try_from(IP_HEADER + UDP_HEADER + 4 + message.len()).ok()?;
    let length = length - IP_HEADER as u16;
    let mut datagram = Vec::with_capacity(usize::from(length));
    for number in [CLIENT_PORT, PORT, length, 0] {
        datagram.extend_from_slice(&number.to_be_bytes());
    }
    datagram.extend_from_slice(&[CHANNEL_MESSAGE, 0]);
    datagram.extend_from_slice(&sequence.to_be_bytes());
    datagram.extend_from_slice(message);
    // A checksum of 0 would say that there is none.
    let checksum = match checksum::udp(CLIENT.into(), CARD.into(), &datagram) {
        0 => 0xFFFF,
        checksum => checksum,
    };
    for (octet, value) in datagram.iter_mut().skip(6).zip(checksum.to_be_bytes()) {
        *octet = value;
    }
    Some(datagram)
}

/// The IPv4 header of a packet with a part of a datagram.
fn ip_header(identification: u16, start: usize, last: bool, length: usize) -> [u8; IP_HEADER] {
    let more = if last { 0 } else { 0x2000 };
    let [length_high, length_low] = ((IP_HEADER + length) as u16).to_be_bytes();
    let [id_high, id_low] = identification.to_be_bytes();
    let [place_high, place_low] = ((start / 8) as u16 | more).to_be_bytes();
    let [c0, c1, c2, c3] = CLIENT.octets();
    let [d0, d1, d2, d3] = CARD.octets();
    // Version and header length, service, length, identification, place, time
    // to live, protocol, checksum, addresses.
    let mut header = [
        0x45,
        0,
        length_high,
        length_low,
        id_high,
        id_low,
        place_high,
        place_low,
        64,
        UDP,
        0,
        0,
        c0,
        c1,
        c2,
        c3,
        d0,
        d1,
        d2,
        d3,
    ];
    [header[10], header[11]] = checksum::header(&header).to_be_bytes();
    header
}
