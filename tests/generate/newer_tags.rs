//! What unknown tags decide in generated streams: request C-16, "an unknown tag
//! of a defined group is passed over". What is asked of the words of a routing is
//! in newer_words.rs.

use crate::newer_words::routed;
use crate::steps::{self, Step};
use crate::stream::Stream;
use crate::unknown::Unknown;
use crate::walked::{Dictionary, Tag};
use decoder::message::{Message, FRAME, SEQUEL, WAVE};
use decoder::route::Tags;

/// The situations that must occur: in how many messages of the streams of
/// coverage.rs, and in how many histories of histories.rs. Each number is at
/// most half of the least that 24 seeds gave, or 1.
#[rustfmt::skip]
pub const SITUATIONS: [(&str, u64, usize); 70] = [
    // "As 003, 3.4 allows, an unknown tag of a defined group is passed over."
    ("routed, with an unknown tag", 929, 179),
    ("routed, group 0.0", 375, 113),
    ("routed, group 1.0", 152, 61),
    ("routed, group 4.0", 277, 90),
    ("routed, group 4.1", 165, 62),
    ("routed, group 4.2", 284, 88),
    ("routed, group 5.12", 241, 79),
    ("routed, an unknown tag first", 167, 60),
    ("routed, an unknown tag last", 240, 85),
    ("routed, two unknown tags in a row", 174, 71),
    ("routed, the same unknown tag again", 70, 30),
    ("routed, before a prefix", 104, 41),
    ("routed, directly behind a signal", 444, 122),
    ("routed, directly behind a signal, with precision", 155, 55),
    ("8, behind an unknown tag", 68, 26),
    ("9, behind an unknown tag", 32, 12),
    ("12, with an unknown tag", 131, 49),
    // "X, Y and Z with parameters beyond those of 01 are unknown too."
    ("routed, X with another parameter", 74, 31),
    ("routed, Y with another parameter", 80, 30),
    ("routed, Z with another parameter", 40, 16),
    ("routed, NOP or precision with a parameter", 123, 48),
    ("routed, prefix, intensity or brush with a parameter", 121, 43),
    ("12, X with another parameter", 30, 11),
    ("12, Y with another parameter", 28, 12),
    // "In group 0.0 its parameter gives the words to skip. In 1.0 nothing more happens.
    // In categories 4 and 5 its octet is ignored, as is that of one precision tag
    // directly behind it."
    ("wave, drawn, an unknown tag that skips words", 57, 18),
    ("wave, drawn, an unknown tag of 0.0 that skips none", 11, 3),
    ("wave, drawn, an unknown tag of 1.0", 15, 3),
    ("wave, drawn, an octet of category 4 ignored", 91, 28),
    ("wave, drawn, an octet of category 5 ignored", 35, 11),
    ("wave, drawn, a precision ignored", 54, 16),
    ("frame, drawn, an unknown tag that skips words", 178, 46),
    ("frame, drawn, an unknown tag of 0.0 that skips none", 47, 14),
    ("frame, drawn, an unknown tag of 1.0", 78, 21),
    ("frame, drawn, an octet of category 4 ignored", 302, 71),
    ("frame, drawn, an octet of category 5 ignored", 122, 35),
    ("frame, drawn, a precision ignored", 166, 47),
    ("split frame, drawn, an unknown tag that skips words", 23, 9),
    ("split frame, drawn, an unknown tag of 0.0 that skips none", 3, 1),
    ("split frame, drawn, an unknown tag of 1.0", 11, 4),
    ("split frame, drawn, an octet of category 4 ignored", 37, 14),
    ("split frame, drawn, an octet of category 5 ignored", 13, 5),
    ("split frame, drawn, a precision ignored", 20, 8),
    ("10, a second precision", 87, 32),
    ("10, precision behind 0.0", 17, 8),
    ("10, precision behind 1.0", 19, 7),
    ("10, precision behind NOP", 59, 25),
    ("10, an unknown tag behind a prefix", 49, 22),
    ("10, an unknown tag behind a prefix with precision", 43, 17),
    // "Break, hint formats beyond 1, hint 1 in mode 2 and reserved space values still
    // give 9."
    ("9, Break", 41, 15),
    ("9, Break with a parameter", 37, 17),
    ("9, a hint format beyond 1", 53, 22),
    ("9, hint 1 in mode 2", 12, 6),
    ("9, a reserved space value", 74, 30),
    ("9, behind a prefix", 22, 8),
    // "Skips past the end give 10."
    ("10, an unknown tag that skips past the end", 46, 21),
    ("routed, a skip to the end", 68, 27),
    // "The width, and with it each caller's sample count, includes ignored octets."
    ("routed, 32 octets, some ignored", 27, 11),
    ("11, an ignored octet is the 33rd", 12, 4),
    ("11, an ignored precision is the 33rd octet", 10, 4),
    ("wave, drawn, not whole without the ignored octets", 75, 26),
    ("wave, 20, points enough without the ignored octets", 9, 3),
    ("wave, 20, an octet short with the ignored ones", 8, 3),
    ("frame, drawn, not whole without the ignored octets", 303, 75),
    ("frame, 20, points enough without the ignored octets", 28, 13),
    ("frame, 20, an octet short with the ignored ones", 23, 8),
    ("split frame, drawn, not whole without the ignored octets", 38, 15),
    ("split frame, 20, points enough without the ignored octets", 3, 1),
    ("split frame, 20, an octet short with the ignored ones", 1, 1),
    ("drawn after a new routing, octets now ignored", 52, 22),
    ("drawn after a new routing, octets no longer ignored", 60, 24),
];

/// The dictionary that a channel was routed by.
struct Own {
    dictionary: Dictionary,
    /// Whether octets were ignored by the one before it on the open channel,
    /// until something is drawn.
    was: Option<bool>,
}

/// Hands on the situations of each message of a stream.
pub fn follow(stream: &Stream, mut note: impl FnMut(String)) {
    let mut channels: Vec<Option<Own>> = (0..64).map(|_| None).collect();
    steps::follow(stream, |step| {
        if let Some(message) = &step.message {
            let own = &mut channels[usize::from(message.channel.0)];
            let situations = of_message(step, message, own);
            situations.into_iter().for_each(&mut note);
        }
    });
}

/// The situations of a message that can be read; `own` is what its channel was
/// routed by before it and is after it.
fn of_message(step: &Step, message: &Message, own: &mut Option<Own>) -> Vec<String> {
    let number = step.reply.number;
    let mut list = Vec::new();
    if let Some(routing) = &message.routing {
        let new = Dictionary::of(routing);
        list.extend(new.iter().flat_map(|new| routed(new, number)));
        if number != 0 {
            let refused = new.iter().flat_map(|new| samples(step, message, new));
            return list.into_iter().chain(refused).collect();
        }
        let was = own.take().filter(|_| matches!(step.open, Some(1 | 2)));
        *own = new.map(|dictionary| Own {
            dictionary,
            was: was.map(|own| !own.dictionary.ignored().is_empty()),
        });
    }
    if let Some(own) = own.as_mut().filter(|_| graphic(step)) {
        list.extend(samples(step, message, &own.dictionary));
        if step.reply.points > 0 {
            let now = !own.dictionary.ignored().is_empty();
            list.extend(routed_again(own.was.take(), now));
        }
    }
    list
}

/// Whether the message is governed by tags of mode 1 or 2.
fn graphic(step: &Step) -> bool {
    matches!(step.mode(), Some(1 | 2))
}

fn routed_again(was: Option<bool>, now: bool) -> Option<String> {
    match (was?, now) {
        (false, true) => Some("drawn after a new routing, octets now ignored".into()),
        (true, false) => Some("drawn after a new routing, octets no longer ignored".into()),
        _ => None,
    }
}

/// The situations of samples by a dictionary with unknown tags: drawn, or
/// refused by 20. "The width, and with it each caller's sample count, includes
/// ignored octets."
fn samples(step: &Step, message: &Message, own: &Dictionary) -> Vec<String> {
    let name = match message.kind {
        WAVE => "wave",
        FRAME => "frame",
        SEQUEL => "split frame",
        _ => return Vec::new(),
    };
    let Some(Tags::Graphic(layout)) = step.governing.as_ref().map(|own| &own.tags) else {
        return Vec::new();
    };
    let (width, ignored) = (own.octets().len(), own.ignored().len());
    assert_eq!(width, layout.width());
    let octets = step.so_far().saturating_sub(4);
    let fewer = octets / (width - ignored);
    let whole = octets == fewer * (width - ignored);
    let enough = whole && fewer >= if message.kind == WAVE { 20 } else { 2 };
    let mut list = match step.reply.number {
        0 if step.reply.points > 0 => passed_over(own),
        _ => Vec::new(),
    };
    let width_decides = match step.reply.number {
        _ if ignored == 0 => None,
        0 if step.reply.points > 0 && !whole => Some("drawn, not whole without the ignored octets"),
        20 if enough => Some("20, points enough without the ignored octets"),
        20 if (octets + 1) % width == 0 => Some("20, an octet short with the ignored ones"),
        _ => None,
    };
    list.extend(width_decides);
    list.into_iter()
        .map(|what| format!("{name}, {what}"))
        .collect()
}

/// What is passed over in samples that are drawn.
fn passed_over(own: &Dictionary) -> Vec<&'static str> {
    let of = |tag: &Tag| match (tag.unknown?, tag.word >> 12) {
        (Unknown::Octet, 4) => Some("drawn, an octet of category 4 ignored"),
        (Unknown::Octet, _) => Some("drawn, an octet of category 5 ignored"),
        (Unknown::Nothing, _) => Some("drawn, an unknown tag of 1.0"),
        (Unknown::Skips(0), _) => Some("drawn, an unknown tag of 0.0 that skips none"),
        (Unknown::Skips(_), _) => Some("drawn, an unknown tag that skips words"),
    };
    let mut list: Vec<&str> = own.tags.iter().filter_map(of).collect();
    if (0..own.tags.len()).any(|at| own.ignored_precision(at)) {
        list.push("drawn, a precision ignored");
    }
    list.sort();
    list.dedup();
    list
}
