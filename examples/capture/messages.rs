//! From the packets of a capture to channel messages.

use std::borrow::Cow;
use std::net::{IpAddr, SocketAddr};

use crate::counts::{Counts, Reason};
use crate::fragments::{Gathering, Key, Whole};
use crate::ip::{self, Payload};
use crate::packet::{self, Packet};
use crate::udp::{self, Datagram};
use crate::{hello, link};

pub use crate::hello::PORT;

/// A channel message of a capture.
#[derive(Clone, Debug)]
pub struct Message<'a> {
    pub client: SocketAddr,
    pub to: IpAddr,
    /// How many packets of the file it took.
    pub packets: usize,
    /// Whether the UDP checksum is right.
    pub right: bool,
    /// The sequence number of its datagram.
    pub sequence: u16,
    pub octets: Cow<'a, [u8]>,
}

/// What a capture gave.
#[derive(Debug)]
pub struct Reading<'a> {
    /// The packets that the file has: those in messages and those counted.
    pub packets: usize,
    /// In the order of the packets that made them whole.
    pub messages: Vec<Message<'a>>,
    pub counts: Counts,
}

/// The channel messages to a port in a capture file, or nothing if the file is
/// no capture.
pub fn read(file: &[u8], port: u16) -> Option<Reading<'_>> {
    let mut counts = Counts::default();
    let packets = packet::read(file, &mut counts)?;
    let count = packets.len() + counts.skipped_packets();
    let mut reader = Reader {
        port,
        gathering: Gathering::default(),
        messages: Vec::new(),
        counts,
    };
    for packet in &packets {
        reader.packet(packet);
    }
    reader.gathering.finish(&mut reader.counts);
    Some(Reading {
        packets: count,
        messages: reader.messages,
        counts: reader.counts,
    })
}

/// A reading under way.
struct Reader<'a> {
    port: u16,
    gathering: Gathering<'a>,
    messages: Vec<Message<'a>>,
    counts: Counts,
}

impl<'a> Reader<'a> {
    /// Takes a packet in: it becomes a message, is kept as a fragment, or is
    /// counted.
    fn packet(&mut self, packet: &Packet<'a>) {
        self.gathering.advance(packet.time, &mut self.counts);
        let missing = packet.missing();
        let ip = link::ip(packet).and_then(|(version, octets)| ip::read(version, octets, missing));
        let ip = match ip {
            Ok(ip) => ip,
            Err(reason) => return self.counts.packet(reason),
        };
        match ip.payload {
            Payload::Udp(octets) => match whole(ip.from, ip.to, octets, self.port) {
                Ok(message) => self.messages.push(message),
                Err(reason) => self.counts.packet(reason),
            },
            Payload::Fragment(fragment) => {
                let key = Key {
                    from: ip.from,
                    to: ip.to,
                    protocol: fragment.protocol,
                    identification: fragment.identification,
                };
                let whole = self.gathering.add(key, &fragment, &mut self.counts);
                if let Some(whole) = whole {
                    self.gathered(key, &whole);
                }
            }
        }
    }

    /// Takes in what fragments gave.
    fn gathered(&mut self, key: Key, whole: &Whole) {
        match gathered(key, whole, self.port) {
            Ok(message) => self.messages.push(message),
            Err(reason) => self.counts.datagram(reason, whole.packets),
        }
    }
}

/// The message of a UDP datagram in one packet. A wrong checksum does not
/// matter: network cards that compute it leave it wrong in captures made at the
/// sender.
fn whole(from: IpAddr, to: IpAddr, octets: &[u8], port: u16) -> Result<Message<'_>, Reason> {
    let datagram = udp::read(from, to, octets).ok_or(Reason::Damaged)?;
    message(&datagram, port)
}

/// The message of what fragments gave. Here the checksum must be right: two
/// datagrams can have the same identification and fragments that fit. What is
/// put together and then again a fragment is damage.
fn gathered<'a>(key: Key, whole: &Whole, port: u16) -> Result<Message<'a>, Reason> {
    let Payload::Udp(octets) = ip::payload(key.protocol, &whole.octets)? else {
        return Err(Reason::Damaged);
    };
    let datagram = udp::read(key.from, key.to, octets).ok_or(Reason::Damaged)?;
    if !datagram.right {
        return Err(Reason::WrongGathered);
    }
    let message = message(&datagram, port)?;
    Ok(Message {
        client: message.client,
        to: message.to,
        packets: whole.packets,
        right: message.right,
        sequence: message.sequence,
        octets: Cow::Owned(message.octets.into_owned()),
    })
}

/// The message of a UDP datagram.
fn message<'a>(datagram: &Datagram<'a>, port: u16) -> Result<Message<'a>, Reason> {
    if datagram.to.port() != port {
        return Err(Reason::OtherPort);
    }
    let (sequence, octets) = hello::message(datagram.octets)?;
    Ok(Message {
        client: datagram.from,
        to: datagram.to.ip(),
        packets: 1,
        right: datagram.right,
        sequence,
        octets: Cow::Borrowed(octets),
    })
}
