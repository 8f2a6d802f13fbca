//! Datagrams in fragments: any order, again, missing, mixed, counted.

use crate::bench::{differs, Bench};
use crate::files::{file, packets, Packet, PCAP};
use crate::packets::{ends, hello, ipv4, ipv6, linked, message, pieces, sent, udp, usual, Ends};

/// A message and the fragments of its datagram, 24 octets in each.
pub fn in_pieces(ends: Ends, id: u32, length: usize, seed: u64) -> (Vec<u8>, Vec<Vec<u8>>) {
    let message = message(length, seed);
    let datagram = udp(ends, &hello(0x40, 0, &message));
    (message, pieces(ends, id, &datagram, 24))
}

/// Packets between two messages that are passed on in any case.
fn between(version: u8, all: &[&Vec<u8>]) -> Vec<Packet> {
    let mut list = vec![sent(usual(version), &message(33, 900))];
    list.extend(all.iter().map(|p| (*p).clone()));
    list.push(sent(usual(version), &message(34, 901)));
    let frames: Vec<Vec<u8>> = list.iter().map(|p| linked(1, &[], p)).collect();
    packets(&frames)
}

fn expected(inside: &[&Vec<u8>]) -> Vec<Vec<u8>> {
    let mut all = vec![message(33, 900)];
    all.extend(inside.iter().map(|m| (*m).clone()));
    all.push(message(34, 901));
    all
}

pub fn gives(bench: &mut Bench, name: &str, version: u8, all: &[&Vec<u8>], inside: &[&Vec<u8>]) {
    let capture = file(PCAP, 1, &between(version, all)).octets;
    let name = format!("{name}, IPv{version}");
    bench.gives(&name, &[], &capture, &expected(inside));
}

/// The same where the message may come out or not, but nothing else may.
pub fn at_most(bench: &mut Bench, name: &str, version: u8, all: &[&Vec<u8>], inside: &Vec<u8>) {
    let capture = file(PCAP, 1, &between(version, all)).octets;
    let answer = bench.read(&[], &capture);
    let without = differs(&answer, &capture, &expected(&[]));
    let fault = without.and_then(|_| differs(&answer, &capture, &expected(&[inside])));
    bench.check(&format!("{name}, IPv{version}"), fault);
}

fn orders(bench: &mut Bench, version: u8) {
    let (wanted, p) = in_pieces(usual(version), 40, 50, 1);
    assert!(p.len() == 3);
    let orders = [
        [0, 1, 2],
        [0, 2, 1],
        [1, 0, 2],
        [1, 2, 0],
        [2, 0, 1],
        [2, 1, 0],
    ];
    for order in orders {
        let all = order.map(|at| &p[at]);
        let name = format!("order {order:?}");
        gives(bench, &name, version, &all, &[&wanted]);
        // Each of them again, before the last one makes the datagram whole.
        for again in 0..2 {
            let parts = [all[0], all[1], all[again], all[2]];
            let name = format!("{name} with {again} again");
            gives(bench, &name, version, &parts, &[&wanted]);
        }
        for missing in 0..3 {
            let mut parts = all.to_vec();
            parts.remove(missing);
            let name = format!("{name} without {missing}");
            gives(bench, &name, version, &parts, &[]);
            parts.insert(1, parts[0]);
            let name = format!("{name}, one again");
            gives(bench, &name, version, &parts, &[]);
        }
    }
}

/// Where messages come: each where the packet is that makes it whole.
fn places(bench: &mut Bench, version: u8) {
    let (wanted, p) = in_pieces(usual(version), 40, 50, 1);
    let late = [&p[0], &p[1], &p[2], &p[1]];
    gives(bench, "one after the whole", version, &late, &[&wanted]);
    let twice = [&p[0], &p[1], &p[2], &p[2], &p[1], &p[0]];
    let both = [&wanted, &wanted];
    gives(bench, "a datagram sent twice", version, &twice, &both);
    let single = message(22, 5);
    let packet = sent(usual(version), &single);
    let parts = [&p[0], &packet, &p[2], &p[1]];
    gives(bench, "one between", version, &parts, &[&single, &wanted]);
}

/// Fragments with options, and with extension headers before the fragment header
/// and behind it, where they are part of what is cut.
fn longer_headers(bench: &mut Bench) {
    let wanted = message(50, 1);
    let options = [17, 0, 1, 4, 0, 0, 0, 0];
    let datagram = |version| udp(usual(version), &hello(0x40, 0, &wanted));
    let mut list = Vec::new();
    for (at, body) in datagram(4).chunks(24).enumerate() {
        let place = 3 * at as u16 | if at < 2 { 0x2000 } else { 0 };
        // Only the first fragment has all options.
        let options = vec![1; if at == 0 { 12 } else { 4 }];
        list.push(ipv4(usual(4), 17, 40, place, &options, body));
    }
    let all: Vec<&Vec<u8>> = list.iter().collect();
    gives(bench, "fragments with options", 4, &all, &[&wanted]);
    for before in [false, true] {
        let body = match before {
            true => datagram(6),
            false => [&options, &datagram(6)[..]].concat(),
        };
        let mut list = Vec::new();
        for (at, part) in body.chunks(24).enumerate() {
            let more = u8::from(24 * at + part.len() < body.len());
            let header = (44, vec![0, 0, 0, 24 * at as u8 | more, 0, 0, 0, 40]);
            list.push(match before {
                true => ipv6(usual(6), 17, &[(0, options.to_vec()), header], part),
                false => ipv6(usual(6), 60, &[header], part),
            });
        }
        let all: Vec<&Vec<u8>> = list.iter().collect();
        let name = format!("fragments with an extension header, before {before}");
        gives(bench, &name, 6, &all, &[&wanted]);
    }
}

/// The longest messages: IPv6 does not count its header in the length.
fn longest(bench: &mut Bench) {
    for (version, length) in [(4, 65_503), (6, 65_503), (6, 65_504), (6, 65_523)] {
        let (wanted, p) = in_pieces(usual(version), 40, length, 1);
        let all: Vec<&Vec<u8>> = p.iter().collect();
        let name = format!("{length} octets in fragments");
        gives(bench, &name, version, &all, &[&wanted]);
    }
}

/// Datagrams at the same time: of other ends, or of another identification.
fn mixed(bench: &mut Bench, version: u8) {
    let mine = usual(version);
    let (source, destination) = match version {
        4 => ("192.0.2.9:51234", "192.0.2.8:7255"),
        _ => ("[2001:db8::9]:51234", "[2001:db8::8]:7255"),
    };
    let (from, to) = (mine.from.to_string(), mine.to.to_string());
    for (name, other, id) in [
        ("of another source", ends(source, &to), 40),
        ("to another destination", ends(&from, destination), 40),
        ("of another identification", mine, 41),
    ] {
        let (first, p) = in_pieces(mine, 40, 50, 1);
        let (second, q) = in_pieces(other, id, 50, 2);
        for turn in [[0, 1, 2], [2, 1, 0], [1, 2, 0]] {
            let mut list = Vec::new();
            for at in turn {
                list.extend([linked(1, &[], &p[at]), linked(1, &[], &q[at])]);
            }
            let capture = file(PCAP, 1, &packets(&list)).octets;
            let expected = [first.clone(), second.clone()];
            let name = format!("mixed with one {name}, {turn:?}, IPv{version}");
            bench.gives(&name, &["--all"], &capture, &expected);
        }
    }
}

/// What is skipped is counted: one fragment that stays alone is one thing. And
/// many of them are no burden.
fn counted(bench: &mut Bench, version: u8) {
    let (_, p) = in_pieces(usual(version), 40, 50, 1);
    for (at, part) in p.iter().enumerate() {
        let capture = file(PCAP, 1, &between(version, &[part])).octets;
        let name = format!("fragment {at} alone, IPv{version}");
        bench.skips(&name, &capture, &expected(&[]), 1);
    }
    let part = |id: u32| in_pieces(usual(version), id, 50, 1).1[0].clone();
    let many: Vec<Vec<u8>> = (0..20_000).map(part).collect();
    let all: Vec<&Vec<u8>> = many.iter().collect();
    let capture = file(PCAP, 1, &between(version, &all)).octets;
    let name = format!("20,000 fragments alone, IPv{version}");
    bench.skips(&name, &capture, &expected(&[]), 20_000);
}

pub fn run(bench: &mut Bench) {
    for version in [4, 6] {
        orders(bench, version);
        places(bench, version);
        mixed(bench, version);
        counted(bench, version);
    }
    longer_headers(bench);
    longest(bench);
}
