//! Fragments that do not belong together: the same identification again,
//! overlaps, and offsets beyond the end.

use crate::bench::Bench;
use crate::fragments::{at_most, gives, in_pieces};
use crate::packets::{hello, message, piece, udp, usual};

/// A datagram that lost a fragment, then another with the same identification:
/// parts of both are never made one message.
fn reused(bench: &mut Bench, version: u8) {
    let (first, p) = in_pieces(usual(version), 40, 50, 1);
    let (second, q) = in_pieces(usual(version), 40, 50, 2);
    for (name, parts) in [
        ("the last", [&p[0], &p[1], &q[2]]),
        ("the first", [&q[0], &p[1], &p[2]]),
        ("the middle", [&p[0], &q[1], &p[2]]),
        ("backwards", [&p[2], &q[1], &p[0]]),
    ] {
        let name = format!("parts of two, {name}");
        gives(bench, &name, version, &parts, &[]);
    }
    for (name, parts) in [
        ("the last", [&p[0], &p[1], &q[0], &q[1], &q[2]]),
        ("the first", [&p[1], &p[2], &q[0], &q[1], &q[2]]),
        ("the middle", [&p[0], &p[2], &q[2], &q[1], &q[0]]),
    ] {
        let name = format!("reused after {name} was lost");
        at_most(bench, &name, version, &parts, &second);
    }
    let all = [&p[0], &p[1], &p[2], &q[0], &q[1], &q[2]];
    let both = [&first, &second];
    gives(bench, "reused after the whole", version, &all, &both);
}

/// The fragment of a datagram of the usual ends that has these octets of it.
fn part(version: u8, datagram: &[u8], from: usize, to: usize) -> Vec<u8> {
    let more = to < datagram.len();
    piece(usual(version), 40, from, more, &datagram[from..to])
}

fn overlaps(bench: &mut Bench, version: u8) {
    let wanted = message(50, 1);
    let datagram = udp(usual(version), &hello(0x40, 0, &wanted));
    let other = udp(usual(version), &hello(0x40, 0, &message(50, 2)));
    let first = part(version, &datagram, 0, 24);
    let last = part(version, &datagram, 24, 62);
    let wrong = part(version, &other, 16, 40);
    let end = part(version, &datagram, 40, 62);
    let differs = [&first, &wrong, &end];
    gives(bench, "an overlap that differs", version, &differs, &[]);
    let early_end = piece(usual(version), 40, 16, false, &datagram[16..40]);
    let behind = piece(usual(version), 40, 64, true, &datagram[..16]);
    let agrees = part(version, &datagram, 16, 40);
    // Whether these give the message is left open; they give no other.
    for (name, parts) in [
        ("an overlap that agrees", [&first, &agrees, &last]),
        ("an overlap that differs, first", [&wrong, &first, &last]),
        ("two ends", [&first, &early_end, &last]),
        ("octets behind the end", [&last, &behind, &first]),
    ] {
        at_most(bench, name, version, &parts, &wanted);
    }
}

/// Fragments that are no multiple of eight octets, or reach beyond what a packet
/// can hold.
fn odd(bench: &mut Bench, version: u8) {
    let ends = usual(version);
    let wanted = message(50, 1);
    let datagram = udp(ends, &hello(0x40, 0, &wanted));
    let first = part(version, &datagram, 0, 24);
    let last = part(version, &datagram, 24, 62);
    for length in [0, 1, 7, 21] {
        let uneven = piece(ends, 41, 0, true, &datagram[..length]);
        let name = format!("{length} octets and more to come");
        gives(bench, &name, version, &[&uneven, &first, &last], &[&wanted]);
    }
    for (offset, length) in [(65528, 8), (65528, 50), (65512, 50), (65520, 16)] {
        for more in [false, true] {
            let name = format!("{length} octets at {offset}, more {more}");
            let octets = vec![7; length];
            let long = piece(ends, 43, offset, more, &octets);
            gives(bench, &name, version, &[&long, &first, &last], &[&wanted]);
            let same = piece(ends, 40, offset, more, &octets);
            let name = format!("{name}, of the same identification");
            at_most(bench, &name, version, &[&first, &same, &last], &wanted);
        }
    }
}

pub fn run(bench: &mut Bench) {
    for version in [4, 6] {
        reused(bench, version);
        overlaps(bench, version);
        odd(bench, version);
    }
}
