//! What is not passed on: other traffic, short and cut packets, and messages
//! whose size is wrong. All other messages are, and each thing is counted.

use crate::bench::Bench;
use crate::files::{file, packets, Block, Form, Packet, Writer, NG, PCAP};
use crate::packets::{ends, hello, ipv4, linked, message, noise, sent, typed, udp, usual, whole};

/// A datagram of the usual ends with these octets.
fn datagram(version: u8, data: &[u8]) -> Vec<u8> {
    let ends = usual(version);
    linked(1, &[], &whole(ends, 17, &udp(ends, data)))
}

/// Packets that carry no message, each with its name.
fn without_message() -> Vec<(String, Vec<u8>)> {
    let mut all = vec![
        ("ARP".into(), typed(1, &[], 0x0806, &noise(28, 1))),
        ("LLDP".into(), typed(1, &[], 0x88CC, &noise(40, 2))),
        ("tagged".into(), typed(1, &[0x8100], 0x0806, &noise(28, 3))),
        ("a length".into(), typed(1, &[], 40, &noise(40, 4))),
    ];
    for version in [4, 6] {
        let ends = usual(version);
        let body = udp(ends, &hello(0x40, 0, &message(20, 77)));
        for protocol in [6, 1, 58, 2, 132, 59] {
            let packet = linked(1, &[], &whole(ends, protocol, &body));
            all.push((format!("protocol {protocol} of IPv{version}"), packet));
        }
        for (name, octets) in no_messages() {
            let packet = datagram(version, &octets);
            all.push((format!("{name}, IPv{version}"), packet));
        }
    }
    all.extend(other_ports(&message(20, 77)));
    all.extend(short_packets());
    all
}

/// Octets of datagrams that hold no message.
fn no_messages() -> Vec<(String, Vec<u8>)> {
    let mut all = Vec::new();
    for command in [0, 8, 0x10, 0x11, 0x12, 0x41, 0x42, 0x44, 0x3F, 0xC0, 0xFF] {
        let octets = hello(command, 0, &message(20, 77));
        all.push((format!("command {command:02X}"), octets));
    }
    for length in 0..=4 {
        let octets = [0x40, 0, 0, 1][..length].to_vec();
        all.push((format!("{length} octets of hello"), octets));
    }
    for length in 1..8 {
        // Total Size is what the datagram has, but that is below 8.
        let short = [&[0, length as u8], &noise(6, 8)[..]].concat();
        let octets = hello(0x40, 0, &short[..length]);
        all.push((format!("a message of {length} octets"), octets));
    }
    for size in [0u16, 7, 8, 59, 61, 5000, 65535] {
        let mut octets = message(60, 4);
        octets[..2].copy_from_slice(&size.to_be_bytes());
        let name = format!("60 octets with a Total Size of {size}");
        all.push((name, hello(0x40, 0, &octets)));
    }
    all
}

fn other_ports(inside: &[u8]) -> Vec<(String, Vec<u8>)> {
    let port = |from: u16, to: u16| {
        let ends = ends(&format!("192.0.2.1:{from}"), &format!("192.0.2.7:{to}"));
        let packet = linked(1, &[], &sent(ends, inside));
        (format!("from port {from} to {to}"), packet)
    };
    let mut all = vec![
        port(51234, 7254),
        port(51234, 53),
        port(53, 51234),
        port(7255, 51234),
    ];
    let dns = ends("192.0.2.1:40000", "192.0.2.53:53");
    let query = b"\x12\x34\x01\0\0\x01\0\0\0\0\0\0\x03www\x07example\0\0\x01\0\x01";
    let packet = whole(dns, 17, &udp(dns, query));
    all.push(("a query of names".into(), linked(1, &[], &packet)));
    all
}

/// Packets that are shorter than their headers say, though captured whole.
fn short_packets() -> Vec<(String, Vec<u8>)> {
    let mut all = Vec::new();
    for version in [4, 6] {
        let frame = linked(1, &[], &sent(usual(version), &message(12, 3)));
        for length in 0..frame.len() {
            all.push((
                format!("{length} octets of IPv{version}"),
                frame[..length].to_vec(),
            ));
        }
    }
    let inside = udp(usual(4), &hello(0x40, 0, &message(20, 7)));
    for (name, at, value) in [
        ("IPv4 header of 16 octets", 14, 0x44),
        ("version 5", 14, 0x55),
        ("IPv4 length below the header", 17, 19),
        ("UDP length below 8", 39, 7),
        ("UDP length beyond the packet", 39, 41),
        ("UDP length 0", 39, 0),
    ] {
        let mut frame = linked(1, &[], &ipv4(usual(4), 17, 1, 0, &[], &inside));
        frame[at] = value;
        all.push((name.into(), frame));
    }
    all
}

/// Each of them alone between two messages, and all of them together.
fn each(bench: &mut Bench) {
    let (before, after) = (message(50, 1), message(70, 2));
    let first = linked(1, &[], &sent(usual(4), &before));
    let last = linked(1, &[], &sent(usual(4), &after));
    let expected = [before, after];
    let other = without_message();
    for (name, frame) in &other {
        let list = [first.clone(), frame.clone(), last.clone()];
        let capture = file(PCAP, 1, &packets(&list));
        bench.skips(name, &capture.octets, &expected, 1);
    }
    let mut list = vec![first];
    list.extend(other.iter().map(|o| o.1.clone()));
    list.push(last);
    for form in [
        PCAP,
        NG,
        Form::Pcap {
            big: true,
            nano: true,
        },
    ] {
        let capture = file(form, 1, &packets(&list));
        bench.skips("all of them", &capture.octets, &expected, other.len());
    }
}

/// A packet cut by a snap length at every captured length.
fn cut(bench: &mut Bench) {
    let (before, after) = (message(50, 1), message(70, 2));
    for (version, tags) in [(4, &[][..]), (6, &[0x8100][..])] {
        let frame = |m: &[u8]| linked(1, tags, &sent(usual(version), m));
        let list = packets(&[frame(&before), frame(&message(24, 3)), frame(&after)]);
        for length in 0..list[1].data.len() {
            let mut list = list.clone();
            list[1].data.truncate(length);
            for form in [PCAP, NG] {
                let capture = file(form, 1, &list);
                let name = format!("{length} octets captured, {form:?}, IPv{version}");
                let expected = [before.clone(), after.clone()];
                bench.skips(&name, &capture.octets, &expected, 1);
            }
        }
    }
}

/// Cuts that leave the IP packet whole, and Simple Packets, whose captured
/// length is the snap length of the first interface.
fn cut_elsewhere(bench: &mut Bench) {
    let wanted = message(10, 1);
    let mut frame = linked(1, &[], &sent(usual(4), &wanted));
    let length = frame.len();
    frame.resize(length + 6, 0);
    for captured in length..length + 6 {
        let data = frame[..captured].to_vec();
        let packet = Packet {
            data,
            original: length + 6,
            time: 0,
        };
        let capture = file(PCAP, 1, &[packet]);
        let name = format!("padding cut to {} octets", captured - length);
        bench.gives(&name, &[], &capture.octets, &[wanted.clone()]);
    }
    for snap in [1, 20, length - 1, length, length + 1] {
        let mut writer = Writer::new(false);
        writer.section();
        writer.interface(1, snap, None);
        let data = frame[..snap.min(length)].to_vec();
        let packet = Packet {
            data,
            original: length,
            time: 0,
        };
        writer.packet(Block::Simple, 0, 0, &packet);
        let expected = if snap < length {
            vec![]
        } else {
            vec![wanted.clone()]
        };
        let count = usize::from(snap < length);
        let name = format!("Simple Packet with a snap length of {snap}");
        bench.skips(&name, &writer.octets, &expected, count);
    }
}

/// A record with more octets captured than sent costs its own packet alone.
fn more_than_sent(bench: &mut Bench) {
    let all = [message(50, 1), message(60, 2), message(70, 3)];
    let frames = all.each_ref().map(|m| linked(1, &[], &sent(usual(4), m)));
    for form in [PCAP, NG] {
        for (place, less) in [(0, 1), (1, 4), (2, 60)] {
            let mut list = packets(&frames);
            list[place].original -= less;
            let mut expected = all.to_vec();
            expected.remove(place);
            let capture = file(form, 1, &list);
            let name = format!("{less} octets more than sent, {form:?}");
            bench.skips(&name, &capture.octets, &expected, 1);
        }
    }
}

pub fn run(bench: &mut Bench) {
    each(bench);
    more_than_sent(bench);
    cut(bench);
    cut_elsewhere(bench);
}
