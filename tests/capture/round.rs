//! to_capture: its packets by the reader of this test, and the way back through
//! from_capture, octet for octet.

use crate::bench::{hex, split, Bench};
use crate::packets::{checksum, ends, message, pseudo, Ends};

struct Frame<'a> {
    time: u64,
    octets: &'a [u8],
}

/// The records of a classic pcap file of Ethernet frames.
fn frames(octets: &[u8]) -> Result<Vec<Frame<'_>>, String> {
    let header = octets.get(..24).ok_or("no file header")?;
    let big = header[0] == 0xA1;
    let four = |at: usize| -> Result<usize, String> {
        let bytes: [u8; 4] = octets
            .get(at..at + 4)
            .ok_or("the file ends")?
            .try_into()
            .unwrap();
        let value = if big {
            u32::from_be_bytes(bytes)
        } else {
            u32::from_le_bytes(bytes)
        };
        Ok(value as usize)
    };
    let nano = four(0)? == 0xA1B2_3C4D;
    let version = if big { [0, 2, 0, 4] } else { [2, 0, 4, 0] };
    if !nano && four(0)? != 0xA1B2_C3D4 || header[4..8] != version || four(20)? != 1 {
        return Err(format!("file header {}", hex(header)));
    }
    let (second, snap) = (if nano { 1_000_000_000 } else { 1_000_000 }, four(16)?);
    let (mut all, mut at) = (Vec::new(), 24);
    while at < octets.len() {
        let (length, rest) = (four(at + 8)?, four(at + 4)?);
        if length != four(at + 12)? || length > snap || rest >= second {
            return Err(format!("record header {}", hex(&octets[at..at + 16])));
        }
        let data = octets
            .get(at + 16..at + 16 + length)
            .ok_or("the file ends")?;
        all.push(Frame {
            time: (four(at)? * second + rest) as u64,
            octets: data,
        });
        at += 16 + length;
    }
    Ok(all)
}

/// One IPv4 packet of to_capture: its identification, its offset, whether more
/// follow, and its body.
fn packet(octets: &[u8], mtu: usize) -> Result<(u16, usize, bool, &[u8]), String> {
    let fault = |what: &str| Err(format!("{what}: {}", hex(octets)));
    let ip = octets.get(14..).unwrap_or_default();
    if ip.len() < 28 || octets[12..14] != [8, 0] || ip[0] != 0x45 || ip[9] != 17 {
        return fault("headers");
    }
    let length = usize::from(u16::from_be_bytes([ip[2], ip[3]]));
    // A short frame may be padded to the 60 octets of Ethernet.
    if length > ip.len() || length < ip.len() && octets.len() > 60 || length > mtu {
        return fault("length");
    }
    if checksum(&ip[..20]) != 0 || ip[12..20] != [192, 0, 2, 1, 192, 0, 2, 2] || ip[8] == 0 {
        return fault("IPv4 header");
    }
    let place = u16::from_be_bytes([ip[6], ip[7]]);
    let more = place & 0x2000 != 0;
    let offset = usize::from(place & 0x1FFF) * 8;
    if place & 0x8000 != 0
        || more && (length - 20) % 8 != 0
        || place & 0x4000 != 0 && place & 0x3FFF != 0
    {
        return fault("flags");
    }
    Ok((
        u16::from_be_bytes([ip[4], ip[5]]),
        offset,
        more,
        &ip[20..length],
    ))
}

/// The message of a datagram that to_capture wrote in this place.
fn opened(datagram: &[u8], at: usize, ends: Ends) -> Result<&[u8], String> {
    let sequence = (at as u16).to_be_bytes();
    let right = datagram.len() >= 12
        && datagram[..2] == ends.from.port().to_be_bytes()
        && datagram[2..4] == ends.to.port().to_be_bytes()
        && datagram[4..6] == (datagram.len() as u16).to_be_bytes()
        && datagram[6..8] != [0, 0]
        && checksum(&[&pseudo(ends, datagram.len()), datagram].concat()) == 0
        && datagram[8..12] == [0x40, 0, sequence[0], sequence[1]];
    if right {
        Ok(&datagram[12..])
    } else {
        Err(format!("datagram {at}: {}", hex(datagram)))
    }
}

/// The messages in a capture that to_capture wrote.
fn read(capture: &[u8], mtu: usize) -> Result<Vec<Vec<u8>>, String> {
    let ends = ends("192.0.2.1:51000", "192.0.2.2:7255");
    let (mut all, mut body, mut last) = (Vec::new(), Vec::new(), (0, None));
    for frame in frames(capture)? {
        let (id, offset, more, octets) = packet(frame.octets, mtu)?;
        if frame.time < last.0 {
            return Err("a time goes back".into());
        }
        if offset != body.len() || offset > 0 && last.1 != Some(id) {
            return Err(format!("offset {offset} after {} octets", body.len()));
        }
        // Only a fragment that is as full as it can be is followed by another.
        if more && octets.len() != (mtu - 20) / 8 * 8 {
            return Err(format!("a fragment of {} octets", octets.len()));
        }
        if more && offset == 0 && last.1 == Some(id) {
            return Err("the same identification twice in a row".into());
        }
        body.extend_from_slice(octets);
        last = (frame.time, Some(id));
        if !more {
            all.push(opened(&body, all.len(), ends)?.to_vec());
            body.clear();
        }
    }
    if body.is_empty() {
        Ok(all)
    } else {
        Err("the last datagram is not whole".into())
    }
}

/// A stream to a capture, read here, and back by from_capture.
fn there_and_back(
    bench: &mut Bench,
    name: &str,
    stream: &[u8],
    kept: &[Vec<u8>],
    told: Option<usize>,
) {
    for mtu in [1500, 576, 68, 65535, 69, 75, 76] {
        let text = mtu.to_string();
        let options = ["--mtu", &text];
        // 1500 is also the default.
        let given = if mtu == 1500 { &[][..] } else { &options[..] };
        let answer = bench.run(&bench.to, given, stream);
        let mut fault = match read(&answer.out, mtu) {
            Ok(all) if all == kept => None,
            Ok(all) => Some(format!("{} messages of {}", all.len(), kept.len())),
            Err(fault) => Some(fault),
        };
        // What was left out is told with its number, and nothing else is.
        let number = answer.err.split_whitespace().find_map(|w| w.parse().ok());
        if answer.status != Some(0) || number != told || told.is_none() && !answer.err.is_empty() {
            fault = Some(format!("status {:?}: {}", answer.status, answer.err));
        }
        bench.check(&format!("{name} to a capture, MTU {mtu}"), fault);
        let back = format!("{name} and back, MTU {mtu}");
        let returned = bench.read(&[], &answer.out);
        let right =
            returned.status == Some(0) && returned.out == kept.concat() && returned.skipped() == 0;
        let fault = (!right).then(|| {
            format!(
                "status {:?}, {}: {}",
                returned.status,
                hex(&returned.out),
                returned.err
            )
        });
        bench.check(&back, fault);
    }
}

/// What is no message, or none that IPv4 can carry, between or behind others.
fn left_out(bench: &mut Bench) {
    let kept = [message(8, 0), message(9, 1)];
    for length in [65504, 65505, 65535] {
        let long = message(length, 5);
        let stream = [&kept[0][..], &long, &kept[1]].concat();
        let name = format!("a message of {length}");
        there_and_back(bench, &name, &stream, &kept, Some(1));
    }
    let ends: [&[u8]; 6] = [
        &[0],
        &[0, 8],
        &[0, 8, 1, 2, 3, 4, 5],
        &[0, 7, 1, 2, 3, 4, 5],
        &[0, 0, 0, 0],
        &[255, 255, 0],
    ];
    for end in ends {
        let stream = [&kept.concat(), end].concat();
        there_and_back(
            bench,
            &format!("the end {end:?}"),
            &stream,
            &kept,
            Some(end.len()),
        );
    }
    there_and_back(bench, "no message", &[], &[], None);
}

pub fn run(bench: &mut Bench, streams: &[String]) {
    for path in streams {
        let stream = std::fs::read(path).expect("a stream that can be read");
        let all = split(&stream).expect("a stream of whole messages");
        there_and_back(bench, path, &stream, &all, None);
    }
    let lengths = [
        8, 9, 10, 47, 48, 49, 1467, 1468, 1469, 1470, 1471, 1472, 1473, 8, 65280, 65502, 65503, 9,
    ];
    let make = |(at, length): (usize, &usize)| message(*length, at as u64);
    let all: Vec<Vec<u8>> = lengths.iter().enumerate().map(make).collect();
    there_and_back(bench, "awkward lengths", &all.concat(), &all, None);
    left_out(bench);
    // More messages than there are sequence numbers and identifications.
    let many: Vec<Vec<u8>> = (0..65_600)
        .map(|at| message(8 + at % 5, at as u64))
        .collect();
    there_and_back(bench, "65,600 messages", &many.concat(), &many, None);
}
