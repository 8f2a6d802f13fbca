//! Lengths and checksums of UDP, in one packet and in fragments, and what is
//! told of them.

use crate::bench::{differs, Bench};
use crate::files::{file, packets, NG, PCAP};
use crate::packets::{checksum, hello, linked, message, noise, pieces, pseudo, udp, usual, whole};

/// A datagram in one packet and in fragments: whether its message is passed on,
/// and what is told: things skipped and things noted.
fn told(
    bench: &mut Bench,
    name: &str,
    version: u8,
    datagram: &[u8],
    ways: [(bool, usize, usize); 2],
) {
    let ends = usual(version);
    let carried = [
        vec![whole(ends, 17, datagram)],
        pieces(ends, 9, datagram, 32),
    ];
    for ((parts, (passed, skipped, notes)), way) in
        carried.iter().zip(ways).zip(["whole", "fragments"])
    {
        let before = whole(ends, 17, &udp(ends, &hello(0x40, 0, &message(30, 8))));
        let mut list = vec![linked(1, &[], &before)];
        list.extend(parts.iter().map(|p| linked(1, &[], p)));
        let mut expected = vec![message(30, 8)];
        if passed {
            expected.push(message(60, 9));
        }
        for form in [PCAP, NG] {
            let capture = file(form, 1, &packets(&list)).octets;
            let answer = bench.read(&[], &capture);
            let mut fault = differs(&answer, &capture, &expected);
            // A datagram in fragments may be counted as one or by its packets.
            let counts = [skipped, skipped * parts.len()];
            if fault.is_none() && (!counts.contains(&answer.skipped()) || answer.noted() != notes) {
                fault = Some(format!(
                    "expected {skipped} skipped and {notes} noted: {}",
                    answer.err
                ));
            }
            bench.check(&format!("{name}, {way}, IPv{version}"), fault);
        }
    }
}

/// A datagram whose right checksum is written as FFFF, because it is 0.
fn of_no_sum(version: u8, wanted: &[u8]) -> Vec<u8> {
    let ends = usual(version);
    for sequence in 0..=0xFFFF {
        let datagram = udp(ends, &hello(0x40, sequence, wanted));
        if datagram[6..8] == [0xFF, 0xFF] {
            return datagram;
        }
    }
    panic!("no sequence number makes the checksum 0");
}

pub fn run(bench: &mut Bench) {
    let wanted = message(60, 9);
    for version in [4, 6] {
        let right = udp(usual(version), &hello(0x40, 0, &wanted));
        assert!(checksum(&[pseudo(usual(version), right.len()), right.clone()].concat()) == 0);
        let as_it_is = [(true, 0, 0), (true, 0, 0)];
        told(bench, "a right checksum", version, &right, as_it_is);
        let no_sum = of_no_sum(version, &wanted);
        told(bench, "a checksum of FFFF", version, &no_sum, as_it_is);
        let mut none = right.clone();
        none[6..8].fill(0);
        if version == 4 {
            told(bench, "no checksum", version, &none, as_it_is);
        }
        let mut wrong = right.clone();
        wrong[7] ^= 1;
        let way = [(true, 0, 1), (false, 1, 0)];
        told(bench, "a wrong checksum", version, &wrong, way);
        // The length of UDP decides where it is below that of the packet.
        let longer = [right.clone(), noise(20, 6)].concat();
        told(
            bench,
            "octets behind the length",
            version,
            &longer,
            as_it_is,
        );
        let mut beyond = right.clone();
        beyond[5] += 1;
        let way = [(false, 1, 0), (false, 1, 0)];
        told(bench, "a length beyond the end", version, &beyond, way);
        let mut below = right;
        below[4..6].copy_from_slice(&[0, 7]);
        told(bench, "a length below 8", version, &below, way);
    }
}
