//! Every form of file with every link type, VLAN tags, either version of IP,
//! whole and in fragments; and files of several sections and interfaces.

use crate::bench::Bench;
use crate::files::{file, forms, packets, Block, Form, Packet, Writer, NG, PCAP};
use crate::packets::{hello, ipv4, ipv6, linked, message, noise, pieces, sent, typed, udp, usual};

/// Each message in one packet, or in fragments of 16 octets.
fn carried(version: u8, fragmented: bool, all: &[Vec<u8>]) -> Vec<Vec<u8>> {
    let ends = usual(version);
    let packet = |(at, message): (usize, &Vec<u8>)| {
        if fragmented {
            let datagram = udp(ends, &hello(0x40, at as u16, message));
            pieces(ends, 700 + at as u32, &datagram, 16)
        } else {
            vec![sent(ends, message)]
        }
    };
    all.iter().enumerate().flat_map(packet).collect()
}

/// Link types with the versions of IP that they carry and whether VLAN tags can
/// stand in their headers.
const LINKS: [(u32, &[u8], bool); 10] = [
    (1, &[4, 6], true),
    (113, &[4, 6], true),
    (276, &[4, 6], true),
    (101, &[4, 6], false),
    (12, &[4, 6], false),
    (14, &[4, 6], false),
    (228, &[4], false),
    (229, &[6], false),
    (0, &[4, 6], false),
    (108, &[4, 6], false),
];

fn every_kind(bench: &mut Bench, form: Form) {
    let all = [message(8, 1), message(100, 2), message(41, 3)];
    let tags: [&[u16]; 5] = [
        &[],
        &[0x8100],
        &[0x88A8, 0x8100],
        &[0x9100],
        &[0x9100, 0x8100, 0x88A8, 0x8100],
    ];
    for (link, versions, tagged) in LINKS {
        for tags in &tags[..if tagged { 5 } else { 1 }] {
            for (version, fragmented) in versions.iter().flat_map(|v| [(*v, false), (*v, true)]) {
                let carried = carried(version, fragmented, &all);
                let list: Vec<Vec<u8>> = carried.iter().map(|p| linked(link, tags, p)).collect();
                let capture = file(form, link, &packets(&list));
                let way = if fragmented { "fragments" } else { "whole" };
                let name = format!("{form:?}, link {link}, tags {tags:X?}, IPv{version}, {way}");
                bench.gives(&name, &[], &capture.octets, &all);
            }
        }
    }
}

/// IPv4 with options and IPv6 with extension headers.
fn longer_headers(bench: &mut Bench) {
    let wanted = [message(60, 9)];
    let datagram = |version| udp(usual(version), &hello(0x40, 0, &wanted[0]));
    for words in 1..=10 {
        let packet = ipv4(usual(4), 17, 5, 0, &vec![1; 4 * words], &datagram(4));
        let capture = file(PCAP, 1, &packets(&[linked(1, &[], &packet)]));
        let name = format!("IPv4 with {words} words of options");
        bench.gives(&name, &[], &capture.octets, &wanted);
    }
    // Options of 8 and of 24 octets, and a routing header with no segments left.
    let short = vec![0, 0, 1, 4, 0, 0, 0, 0];
    let long = [&[0, 2, 1, 20], &[0; 20][..]].concat();
    let routing = [&[0, 2, 4, 0], &[7; 20][..]].concat();
    let atomic = vec![0, 0, 0, 0, 0, 0, 0, 9];
    let chains = [
        vec![(0, short.clone())],
        vec![(60, long.clone())],
        vec![(43, routing.clone())],
        vec![(44, atomic.clone())],
        vec![
            (0, long),
            (60, short.clone()),
            (43, routing),
            (44, atomic),
            (60, short),
        ],
    ];
    for chain in chains {
        let packet = ipv6(usual(6), 17, &chain, &datagram(6));
        let capture = file(NG, 1, &packets(&[linked(1, &[], &packet)]));
        let numbers: Vec<u8> = chain.iter().map(|header| header.0).collect();
        let name = format!("IPv6 with extension headers {numbers:?}");
        bench.gives(&name, &[], &capture.octets, &wanted);
    }
}

/// Octets behind the packet, and what the field of the link type has besides:
/// the length of the FCS, with or without the bit that says it is there.
fn trailers(bench: &mut Bench) {
    let wanted = [message(60, 9)];
    let frame = linked(1, &[], &sent(usual(4), &wanted[0]));
    for (name, link, more) in [
        ("padding", 1, 40),
        ("an FCS", 0x2400_0001, 4),
        ("an FCS without its bit", 0x4000_0001, 4),
        ("all bits of an FCS", 0xF000_0001, 0),
    ] {
        let longer = [frame.clone(), noise(more, 4)].concat();
        let capture = file(PCAP, link, &packets(&[longer]));
        bench.gives(name, &[], &capture.octets, &wanted);
    }
}

/// Several sections, of both byte orders, each with interfaces of several link
/// types, and blocks that hold no packet.
fn sections(bench: &mut Bench) {
    let mut octets = Vec::new();
    let mut expected = Vec::new();
    for (round, big) in [false, true, false].into_iter().enumerate() {
        let mut writer = Writer::new(big);
        writer.section();
        let links = [113, 1, 101, 276];
        // The second section has its interfaces in another order.
        let links: Vec<u32> = (0..4).map(|at| links[(at + round) % 4]).collect();
        for link in &links {
            writer.interface(*link, 0, Some(9));
        }
        writer.block(4, &[0; 4]);
        for at in 0..8 {
            let wanted = message(30 + at, (10 * round + at) as u64);
            let data = linked(links[at % 4], &[], &sent(usual(4), &wanted));
            let original = data.len();
            let packet = Packet {
                data,
                original,
                time: 0,
            };
            let block = [Block::Enhanced, Block::Old][at / 4];
            writer.packet(block, at % 4, at as u64, &packet);
            writer.block(0x0BAD, &noise(at, 1));
            writer.block(5, &[0; 12]);
            expected.push(wanted);
        }
        octets.extend(writer.octets);
    }
    bench.gives("sections and interfaces", &[], &octets, &expected);
}

/// Link types that are not read, and an interface that is not described.
fn unknown_links(bench: &mut Bench) {
    let wanted = message(30, 1);
    let frame = linked(1, &[], &sent(usual(4), &wanted));
    for link in [0, 105, 127, 147, 220, 65535] {
        let capture = file(PCAP, link, &packets(&[frame.clone(), frame.clone()]));
        bench.skips(&format!("link type {link}"), &capture.octets, &[], 2);
    }
    let mut writer = Writer::new(true);
    writer.section();
    writer.interface(147, 0, None);
    writer.interface(1, 0, None);
    for interface in [0, 1, 2, 1, 0xFFFF_FFFF] {
        let packet = &packets(&[frame.clone()])[0];
        writer.packet(Block::Enhanced, interface, 0, packet);
    }
    let twice = [wanted.clone(), wanted.clone()];
    bench.skips("interfaces not described", &writer.octets, &twice, 3);
    let mut writer = Writer::new(false);
    writer.section();
    for block in [Block::Simple, Block::Old] {
        writer.packet(block, 0, 0, &packets(&[frame.clone()])[0]);
    }
    bench.skips("no interface at all", &writer.octets, &[], 2);
    let arp = typed(1, &[], 0x0806, &noise(28, 5));
    let capture = file(PCAP, 1, &packets(&[arp, frame]));
    bench.gives("a packet before", &[], &capture.octets, &[wanted]);
}

pub fn run(bench: &mut Bench) {
    for form in forms() {
        every_kind(bench, form);
    }
    longer_headers(bench);
    trailers(bench);
    sections(bench);
    unknown_links(bench);
}
