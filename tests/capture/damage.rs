//! Captures that are cut short, damaged, or random: the programs always end in
//! order, with whole messages, and damage in one packet leaves the others.

use crate::bench::{hex, split, Answer, Bench};
use crate::files::{file, packets, Block, Form, Writer, NG, PCAP};
use crate::packets::{hello, linked, message, noise, pieces, sent, udp, usual};

/// With options of the interface and of packets.
const NG_BIG: Form = Form::Ng {
    big: true,
    block: Block::Enhanced,
};

/// The small capture: for each packet the message that it completes, if any, and
/// the message that it has a part in.
struct Small {
    frames: Vec<Vec<u8>>,
    completes: Vec<Option<usize>>,
    part_of: Vec<usize>,
    messages: Vec<Vec<u8>>,
}

fn small() -> Small {
    let messages = vec![
        message(9, 1),
        message(12, 2),
        message(20, 3),
        message(8, 4),
        message(11, 5),
    ];
    let four = usual(4);
    let datagram = udp(four, &hello(0x40, 2, &messages[2]));
    let parts = pieces(four, 0x5A5A, &datagram, 16);
    assert!(parts.len() == 2);
    let frames = vec![
        linked(1, &[], &sent(four, &messages[0])),
        linked(1, &[0x8100], &sent(four, &messages[1])),
        linked(1, &[], &parts[0]),
        linked(1, &[], &parts[1]),
        linked(1, &[], &sent(usual(6), &messages[3])),
        linked(1, &[], &sent(four, &messages[4])),
    ];
    Small {
        frames,
        completes: vec![Some(0), Some(1), None, Some(2), Some(3), Some(4)],
        part_of: vec![0, 1, 2, 2, 3, 4],
        messages,
    }
}

impl Small {
    fn file(&self, form: Form) -> Writer {
        file(form, 1, &packets(&self.frames))
    }

    /// The messages of the first packets.
    fn first(&self, count: usize) -> Vec<u8> {
        let all = self.completes[..count].iter().flatten();
        all.flat_map(|at| self.messages[*at].clone()).collect()
    }
}

/// Why this is not the answer to the first octets of the small capture.
fn wrong_end(small: &Small, capture: &Writer, length: usize, answer: &Answer) -> Option<String> {
    let broken = answer.broken();
    if broken.is_some() {
        return broken;
    }
    let whole = capture.ends.iter().filter(|end| **end <= length).count();
    // All octets of the packet may be there where its block is not whole.
    let nearly = capture.data.iter().filter(|d| d.end <= length).count();
    let right = [small.first(whole), small.first(nearly)].contains(&answer.out);
    // The magic of pcapng is in two parts; the second says the byte order.
    let magic = if capture.octets[0] == 0x0A { 12 } else { 4 };
    let statuses = [length >= 4, length < magic];
    let status = answer.status.is_some_and(|s| statuses[s as usize]);
    let boundary = capture.ends.contains(&length) || length <= capture.data[0].start;
    if right && status && (boundary || answer.skipped() > 0) {
        return None;
    }
    Some(format!(
        "status {:?}, got {}, told {}, capture {}",
        answer.status,
        hex(&answer.out),
        answer.err,
        hex(&capture.octets[..length])
    ))
}

/// A file that ends at any octet gives the messages of the packets in it.
fn truncated(bench: &mut Bench, form: Form) {
    let small = small();
    let capture = small.file(form);
    for length in 0..capture.octets.len() {
        let octets = &capture.octets[..length];
        // Odd lengths come by standard input.
        let answer = if length % 2 == 0 {
            bench.read(&["--all"], octets)
        } else {
            bench.run(&bench.from, &["--all", "-"], octets)
        };
        let fault = wrong_end(&small, &capture, length, &answer);
        bench.check(&format!("{form:?} cut at {length}"), fault);
    }
}

/// Whether the output is the messages but for one, or with another in its place.
fn all_but(answer: &Answer, messages: &[Vec<u8>], but: usize) -> bool {
    let Some(mut out) = split(&answer.out) else {
        return false;
    };
    let mut others = messages.to_vec();
    others.remove(but);
    if out.len() == messages.len() {
        out.remove(but);
    }
    answer.status == Some(0) && out == others
}

/// Each octet replaced by 00 and FF, and with one bit of it changed.
fn damaged(bench: &mut Bench, form: Form) {
    let small = small();
    let capture = small.file(form);
    for at in 0..capture.octets.len() {
        let old = capture.octets[at];
        for new in [0x00, 0xFF, old ^ 1 << (at % 8)] {
            let mut octets = capture.octets.clone();
            octets[at] = new;
            let answer = bench.read(&["--all"], &octets);
            let mut fault = answer.broken();
            let inside = capture.data.iter().position(|data| data.contains(&at));
            if let Some(packet) = inside {
                if fault.is_none() && !all_but(&answer, &small.messages, small.part_of[packet]) {
                    fault = Some(format!(
                        "other messages: got {}, told {}, capture {}",
                        hex(&answer.out),
                        answer.err,
                        hex(&octets)
                    ));
                }
            }
            bench.check(&format!("{form:?} with {new:02X} at {at}"), fault);
        }
    }
}

/// Random octets behind the start of a capture.
fn random(bench: &mut Bench) {
    let mut starts = Vec::new();
    for form in crate::files::forms() {
        let capture = file(form, 1, &packets(&[vec![0; 60]]));
        starts.push(capture.octets[..4].to_vec());
        starts.push(capture.octets[..12].to_vec());
        starts.push(capture.octets[..capture.data[0].start].to_vec());
    }
    for (at, start) in starts.iter().enumerate() {
        for seed in 0..16 {
            let length = [3, 60, 700, 5000][seed as usize % 4];
            let mut octets = start.clone();
            octets.extend(noise(length, 1000 * at as u64 + seed));
            let answer = bench.read(&["--all"], &octets);
            let fault = answer.broken().map(|f| format!("{f}: {}", hex(&octets)));
            bench.check(&format!("random octets {seed} behind start {at}"), fault);
        }
    }
}

/// Records of random octets, each whole: the packets between them come out.
fn random_packets(bench: &mut Bench) {
    let wanted = message(40, 1);
    let frame = linked(1, &[], &sent(usual(4), &wanted));
    for form in [PCAP, NG] {
        for seed in 0..40 {
            let mut list = Vec::new();
            for at in 0..30 {
                // Half of them have right headers as far as they go.
                let mut octets = noise(at * 3, 100 * seed + at as u64);
                if at % 2 == 0 {
                    let kept = (at + seed as usize) % 40;
                    octets.splice(..kept.min(octets.len()), frame[..kept].iter().copied());
                }
                list.push(octets);
                list.push(frame.clone());
            }
            let capture = file(form, 1, &packets(&list));
            let answer = bench.read(&["--client", "192.0.2.1:51234"], &capture.octets);
            let mut fault = answer.broken();
            let found = split(&answer.out).unwrap_or_default();
            if fault.is_none() && found.iter().filter(|m| **m == wanted).count() != 30 {
                fault = Some(format!(
                    "got {}, capture {}",
                    hex(&answer.out),
                    hex(&capture.octets)
                ));
            }
            bench.check(&format!("random packets {seed}, {form:?}"), fault);
        }
    }
}

pub fn run(bench: &mut Bench) {
    for form in [PCAP, NG_BIG] {
        truncated(bench, form);
        damaged(bench, form);
    }
    random(bench);
    random_packets(bench);
}
