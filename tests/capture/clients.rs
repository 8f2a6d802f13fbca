//! Several clients and destinations in one capture: which messages come out.

use crate::bench::{differs, Bench};
use crate::files::{file, packets, Form, PCAP};
use crate::packets::{ends, hello, linked, message, sent, udp, usual, whole, Ends};

const A: &str = "192.0.2.1:51234";
const B: &str = "192.0.2.1:51235";
const C: &str = "[2001:db8::1]:51234";
const D: &str = "198.51.100.200:1";
const ONE: &str = "192.0.2.7:7255";
const TWO: &str = "192.0.2.8:7255";
const SIX: &str = "[2001:db8::2]:7255";

/// A capture with a message for each pair, and those messages.
struct Traffic {
    pairs: Vec<(&'static str, &'static str)>,
    messages: Vec<Vec<u8>>,
    octets: Vec<u8>,
}

fn traffic(form: Form, pairs: &[(&'static str, &'static str)]) -> Traffic {
    let messages: Vec<Vec<u8>> = (0..pairs.len())
        .map(|at| message(20 + at, at as u64))
        .collect();
    let frame = |(at, pair): (usize, &(&str, &str))| {
        linked(1, &[], &sent(ends(pair.0, pair.1), &messages[at]))
    };
    let frames: Vec<Vec<u8>> = pairs.iter().enumerate().map(frame).collect();
    Traffic {
        pairs: pairs.to_vec(),
        octets: file(form, 1, &packets(&frames)).octets,
        messages,
    }
}

impl Traffic {
    /// A line for each pair: the most messages first, then the first seen.
    fn lines(&self) -> String {
        let mut counts: Vec<(usize, Ends)> = Vec::new();
        for (client, destination) in &self.pairs {
            let pair = ends(client, destination);
            match counts.iter_mut().find(|(_, known)| *known == pair) {
                Some((count, _)) => *count += 1,
                None => counts.push((1, pair)),
            }
        }
        counts.sort_by_key(|(count, _)| std::cmp::Reverse(*count));
        let line = |(count, e): &(usize, Ends)| format!("{count} {} {}\n", e.from, e.to.ip());
        counts.iter().map(line).collect()
    }

    /// The messages of the pairs that are wanted, in order.
    fn of(&self, wanted: impl Fn(&str, &str) -> bool) -> Vec<Vec<u8>> {
        let both = self.pairs.iter().zip(&self.messages);
        both.filter(|(pair, _)| wanted(pair.0, pair.1))
            .map(|(_, message)| message.clone())
            .collect()
    }
}

fn lists(bench: &mut Bench, name: &str, traffic: &Traffic) {
    let answer = bench.read(&["--clients"], &traffic.octets);
    let expected = traffic.lines();
    let printed = String::from_utf8_lossy(&answer.out).into_owned();
    let right = answer.status == Some(0) && printed == expected;
    let fault = || {
        format!(
            "status {:?}, expected {expected}, got {printed}",
            answer.status
        )
    };
    bench.check(name, (!right).then(fault));
}

/// A has 5 messages (3 to TWO, 2 to ONE), B has 4, C has 3, D has 1.
const SEVERAL: [(&str, &str); 13] = [
    (D, ONE),
    (C, SIX),
    (A, ONE),
    (A, TWO),
    (B, ONE),
    (B, TWO),
    (C, SIX),
    (A, ONE),
    (A, TWO),
    (B, ONE),
    (C, SIX),
    (A, TWO),
    (B, ONE),
];

fn several(bench: &mut Bench) {
    let t = traffic(PCAP, &SEVERAL);
    let most = t.of(|c, d| c == A && d == TWO);
    bench.gives("default client", &[], &t.octets, &most);
    bench.gives("--all", &["--all"], &t.octets, &t.messages);
    for (client, most) in [(A, TWO), (B, ONE), (C, SIX), (D, ONE)] {
        let expected = t.of(|c, d| c == client && d == most);
        let options = ["--client", client];
        bench.gives(&options.join(" "), &options, &t.octets, &expected);
    }
    let nobody = ["--client", "192.0.2.99:1"];
    bench.gives("a client that is not there", &nobody, &t.octets, &[]);
    lists(bench, "--clients", &t);
}

fn destinations(bench: &mut Bench) {
    let t = traffic(PCAP, &SEVERAL);
    let addresses = [("192.0.2.7", ONE), ("192.0.2.8", TWO), ("2001:db8::2", SIX)];
    for (address, to) in addresses {
        let options = ["--all", "--to", address];
        let expected = t.of(|_, d| d == to);
        bench.gives(&options.join(" "), &options, &t.octets, &expected);
    }
    for (client, address, to) in [
        (A, "192.0.2.7", ONE),
        (B, "192.0.2.8", TWO),
        (C, "2001:0db8:0::2", SIX),
    ] {
        let options = ["--to", address, "--client", client];
        let expected = t.of(|c, d| c == client && d == to);
        bench.gives(&options.join(" "), &options, &t.octets, &expected);
    }
    let nowhere = ["--all", "--to", "192.0.2.99"];
    bench.gives("a destination that is not there", &nowhere, &t.octets, &[]);
    let t = traffic(PCAP, &[(A, TWO), (A, ONE), (A, TWO)]);
    let expected = t.of(|_, d| d == ONE);
    bench.gives("--to alone", &["--to", "192.0.2.7"], &t.octets, &expected);
}

fn ties(bench: &mut Bench) {
    let pairs = [(B, ONE), (A, ONE), (A, ONE), (B, ONE), (C, SIX), (C, SIX)];
    let t = traffic(PCAP, &pairs);
    bench.gives("clients that tie", &[], &t.octets, &t.of(|c, _| c == B));
    lists(bench, "--clients that tie", &t);
    let t = traffic(PCAP, &[(A, TWO), (A, ONE), (A, ONE), (A, TWO)]);
    let expected = t.of(|_, d| d == TWO);
    bench.gives("destinations that tie", &[], &t.octets, &expected);
    // A has the most messages, though B has the most to one destination.
    let a = [(A, ONE), (A, TWO), (A, ONE), (A, TWO)];
    let t = traffic(PCAP, &[&a[..2], &[(B, ONE); 3], &a[2..]].concat());
    let expected = t.of(|c, d| c == A && d == ONE);
    bench.gives("the most over all destinations", &[], &t.octets, &expected);
    let t = traffic(PCAP, &[]);
    bench.gives("no packets", &[], &t.octets, &[]);
    bench.gives("no packets, --all", &["--all"], &t.octets, &[]);
    lists(bench, "no packets, --clients", &t);
}

fn ports(bench: &mut Bench) {
    let t = traffic(
        PCAP,
        &[
            (A, ONE),
            (A, "192.0.2.7:7256"),
            (A, ONE),
            (A, "192.0.2.7:65535"),
        ],
    );
    for port in ["7255", "7256", "65535"] {
        let expected = t.of(|_, d| d.ends_with(port));
        bench.gives(
            &format!("--port {port}"),
            &["--port", port],
            &t.octets,
            &expected,
        );
    }
    bench.gives("--port of nobody", &["--port", "1"], &t.octets, &[]);
}

/// The same datagram again, as a mirror port captures it: used, and noted. One
/// with another sequence number or other octets is not the same, nor is one long
/// after.
fn repeated(bench: &mut Bench) {
    let packet = |sequence: u16, message: &[u8]| {
        let ends = usual(4);
        let datagram = udp(ends, &hello(0x40, sequence, message));
        linked(1, &[], &whole(ends, 17, &datagram))
    };
    let (one, other) = (message(30, 1), message(30, 2));
    let many = |count: u16| (0..count).map(|n| (n + 1, message(40, 100 + u64::from(n))));
    let apart = |count: u16| {
        let first = std::iter::once((0, one.clone()));
        let again = std::iter::once((0, one.clone()));
        first.chain(many(count)).chain(again).collect::<Vec<_>>()
    };
    for (name, sent, noted) in [
        ("twice", vec![(7, one.clone()), (7, one.clone())], 1),
        ("three times", vec![(7, one.clone()); 3], 2),
        (
            "another number",
            vec![(7, one.clone()), (8, one.clone())],
            0,
        ),
        ("other octets", vec![(7, one.clone()), (7, other)], 0),
        ("after 15 others", apart(15), 1),
        ("after 16 others", apart(16), 0),
    ] {
        let list: Vec<Vec<u8>> = sent.iter().map(|(n, m)| packet(*n, m)).collect();
        let expected: Vec<Vec<u8>> = sent.into_iter().map(|(_, m)| m).collect();
        let capture = file(PCAP, 1, &packets(&list)).octets;
        let answer = bench.read(&[], &capture);
        let mut fault = differs(&answer, &capture, &expected);
        if fault.is_none() && (answer.noted(), answer.skipped()) != (noted, 0) {
            fault = Some(format!("expected {noted} noted: {}", answer.err));
        }
        bench.check(&format!("repeated, {name}"), fault);
    }
}

pub fn run(bench: &mut Bench) {
    repeated(bench);
    several(bench);
    destinations(bench);
    ties(bench);
    ports(bench);
}
