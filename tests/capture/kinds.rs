//! Compares what a dissector shows of a stream with what the listing says of it.
//!
//! usage: kinds STREAM LISTING FIELDS
//!
//! FIELDS has a line for each message: channel|type|a value for each point. Only
//! messages that the listing accepts are compared. A number of points may differ
//! where the dissector is known not to do what IDN-Stream says; these are counted
//! by kind. Any other difference is printed, and the status is 1.

mod channel;

#[path = "../../examples/messages.rs"]
mod messages;

use channel::Channel;
use std::collections::BTreeMap;
use std::process::exit;

const REFUSED: &str = "refused by the listing, not compared: the dissector refuses nothing";
const LEVELS: &str = "dimmer levels: they are no points, so channel and type alone are compared";
const LONG: &str = "longer than a datagram, not sent";
const SAME: &str = "the same";
const CLOSED: &str =
    "Routing with Close: refused after it, and the dissector goes on showing samples (2.2)";

/// The longest message that a datagram of IPv4 holds.
const LONGEST: usize = 65_503;

/// Channel, type and points of a line of the dissector.
fn shown(line: &str) -> Option<(usize, usize, usize)> {
    let mut parts = line.split('|');
    let channel = parts.next()?.parse().ok()?;
    let kind = usize::from_str_radix(parts.next()?.trim_start_matches("0x"), 16).ok()?;
    let points = parts.next()?;
    let count = if points.is_empty() {
        0
    } else {
        points.split(',').count()
    };
    Some((channel, kind, count))
}

fn lines(path: &str) -> Vec<String> {
    let text = std::fs::read_to_string(path).expect("a file of lines");
    text.lines().map(str::to_string).collect()
}

/// The kind of one message, or what is printed of it.
fn compare(
    channel: &Channel,
    message: &[u8],
    said: &[usize],
    shown: (usize, usize, usize),
) -> Result<&'static str, String> {
    if said[2] != 0 {
        let goes_on = channel.routed_and_closed && said[2] == 16 && shown.2 > 0;
        return Ok(if goes_on { CLOSED } else { REFUSED });
    }
    let same = (said[0], said[1]) == (shown.0, shown.1);
    if same && message[3] == 0x18 {
        return Ok(LEVELS);
    }
    if same && said[3] == shown.2 {
        return Ok(SAME);
    }
    let fault = format!(
        "listing: channel {} type {} points {}; dissector: {shown:?}",
        said[0], said[1], said[3]
    );
    match channel.kind(message, said[3], shown.2) {
        Some(kind) if same => Ok(kind),
        _ => Err(fault),
    }
}

/// The kind of each message, counted, and how many differ otherwise.
fn count(
    messages: &[&[u8]],
    listing: &[String],
    fields: &[String],
) -> (BTreeMap<&'static str, usize>, usize) {
    let mut channels = vec![Channel::default(); 64];
    let (mut counts, mut faults) = (BTreeMap::new(), 0);
    let mut fields = fields.iter();
    for (at, message) in messages.iter().enumerate() {
        if message.len() > LONGEST {
            *counts.entry(LONG).or_default() += 1;
            continue;
        }
        let words = listing[at].split(' ');
        let said: Vec<usize> = words.filter_map(|n| n.parse().ok()).collect();
        let channel = &mut channels[usize::from(message[2] & 63)];
        *channel = channel.after(message, said[2] == 0);
        let shown = fields.next().and_then(|line| shown(line));
        let compared = match shown {
            Some(shown) => compare(channel, message, &said, shown),
            None => Err("the dissector shows no message".into()),
        };
        match compared {
            Ok(kind) => *counts.entry(kind).or_default() += 1,
            Err(fault) => {
                println!("message {}: {fault}", at + 1);
                faults += 1;
            }
        }
    }
    (counts, faults)
}

fn main() {
    let paths: Vec<String> = std::env::args().skip(1).collect();
    if paths.len() != 3 {
        eprintln!("usage: kinds STREAM LISTING FIELDS");
        exit(2);
    }
    let stream = std::fs::read(&paths[0]).expect("a stream");
    let (messages, _) = messages::split(&stream);
    let (listing, fields) = (lines(&paths[1]), lines(&paths[2]));
    let sent = messages.iter().filter(|m| m.len() <= LONGEST).count();
    if listing.len() <= messages.len() || fields.len() != sent {
        println!(
            "{} messages, {sent} of them sent; {} lines of the listing, {} of the dissector",
            messages.len(),
            listing.len(),
            fields.len()
        );
        exit(1);
    }
    let (counts, faults) = count(&messages, &listing, &fields);
    for (kind, count) in counts {
        println!("{count:7} {kind}");
    }
    println!(
        "{faults:7} other differences; messages in all: {}",
        messages.len()
    );
    exit(i32::from(faults != 0));
}
