//! Times between fragments: what is gathered for more than 30 seconds of capture
//! time is dropped, in each form and in units of several lengths.

use crate::bench::Bench;
use crate::files::{file, forms, packets, Block, Form, Packet, Writer, PCAP};
use crate::fragments::in_pieces;
use crate::packets::{linked, usual};

/// A message and the packets of its fragments, with these times between the first
/// and each of the others, in microseconds.
fn apart(times: &[i64]) -> (Vec<u8>, Vec<Packet>) {
    let (wanted, parts) = in_pieces(usual(4), 40, 24 * times.len(), 1);
    assert!(parts.len() == times.len() + 1);
    let frames: Vec<Vec<u8>> = parts.iter().map(|p| linked(1, &[], p)).collect();
    let mut list = packets(&frames);
    let start = list[0].time;
    for (packet, time) in list[1..].iter_mut().zip(times) {
        packet.time = start.wrapping_add_signed(*time);
    }
    (wanted, list)
}

fn in_each_form(bench: &mut Bench) {
    for (time, whole) in [
        (29_000_000, true),
        (30_000_000, true),
        (30_000_001, false),
        (31_000_000, false),
        (3_000_000_000, false),
    ] {
        let (wanted, list) = apart(&[time]);
        for form in forms() {
            // A Simple Packet has no time, so nothing in it gets old.
            let block = Block::Simple;
            let timeless = matches!(form, Form::Ng { block: b, .. } if b == block);
            let expected = [wanted.clone()];
            let count = usize::from(whole || timeless);
            let capture = file(form, 1, &list).octets;
            let name = format!("{time} microseconds between fragments, {form:?}");
            bench.gives(&name, &[], &capture, &expected[..count]);
        }
    }
}

/// The resolution of an interface; the top bit makes it a power of two.
fn in_units(bench: &mut Bench) {
    let (wanted, list) = apart(&[0]);
    for (units, each) in [
        (0, 1),
        (3, 1000),
        (9, 1_000_000_000),
        (0x8A, 1024),
        (0x80, 1),
    ] {
        for (seconds, count) in [(30, 1), (31, 0)] {
            let mut writer = Writer::new(true);
            writer.section();
            writer.interface(1, 0, Some(units));
            for (packet, at) in list.iter().zip([0, seconds]) {
                let time = (1_600_000_000 + at) * each;
                writer.packet(Block::Enhanced, 0, time, packet);
            }
            let name = format!("{seconds} seconds in units of {units:02X}");
            let expected = [wanted.clone()];
            bench.gives(&name, &[], &writer.octets, &expected[..count]);
        }
    }
}

/// Times that are not what a clock gives: the program ends in order.
fn odd(bench: &mut Bench) {
    let (_, list) = apart(&[0]);
    for units in [19, 20, 63, 64, 127, 0xBF, 0xC0, 0xFF] {
        for times in [[0, u64::MAX], [u64::MAX, 0], [u64::MAX, u64::MAX]] {
            let mut writer = Writer::new(true);
            writer.section();
            writer.interface(1, 0, Some(units));
            for (packet, time) in list.iter().zip(times) {
                writer.packet(Block::Enhanced, 0, time, packet);
            }
            let fault = bench.read(&[], &writer.octets).broken();
            bench.check(&format!("times {times:?} in units of {units:02X}"), fault);
        }
    }
    for time in [-1, -40_000_000, -1_700_000_000_000_000] {
        let capture = file(PCAP, 1, &apart(&[time]).1).octets;
        let fault = bench.read(&[], &capture).broken();
        bench.check(&format!("{time} microseconds between fragments"), fault);
    }
}

pub fn run(bench: &mut Bench) {
    in_each_form(bench);
    in_units(bench);
    odd(bench);
    // The age is that of the first fragment.
    for (times, count) in [([20_000_000, 30_000_000], 1), ([20_000_000, 40_000_000], 0)] {
        let (wanted, list) = apart(&times);
        let capture = file(PCAP, 1, &list).octets;
        let expected = [wanted];
        bench.gives(
            &format!("fragments after {times:?}"),
            &[],
            &capture,
            &expected[..count],
        );
    }
}
