//! The situations of a routing's words with unknown tags: request C-16.

use crate::unknown::Unknown;
use crate::walked::{Dictionary, Tag};
use decoder::dictionary::MOST_OCTETS;

const OTHER_X: &str = "X with another parameter";
const OTHER_Y: &str = "Y with another parameter";

/// The situations of a routing's words, by the number of the reply.
pub fn routed(new: &Dictionary, number: u32) -> Vec<String> {
    let list = match number {
        0 => in_accepted(new),
        8 => behind_unknown(new, |tag| !defined(tag.word))
            .into_iter()
            .collect(),
        9 => still_refused(new),
        10 => misplaced(new).map(String::from).into_iter().collect(),
        11 => too_wide(new).map(String::from).into_iter().collect(),
        12 => incomplete(new),
        _ => Vec::new(),
    };
    list.into_iter()
        .map(|what| format!("{}, {what}", outcome(number)))
        .collect()
}

fn outcome(number: u32) -> String {
    match number {
        0 => "routed".into(),
        _ => number.to_string(),
    }
}

/// Document 01, "Groups defined".
fn defined(word: u16) -> bool {
    matches!(
        word >> 8,
        0x00 | 0x10 | 0x11 | 0x40..=0x42 | 0x50..=0x53 | 0x5C
    )
}

/// What unknown tags an accepted dictionary has, and where.
fn in_accepted(new: &Dictionary) -> Vec<String> {
    let mut list: Vec<String> = Vec::new();
    for at in (0..new.tags.len()).filter(|at| new.tags[*at].unknown.is_some()) {
        let tag = &new.tags[at];
        let group = [tag.word >> 12, tag.word >> 8 & 0xF];
        list.push(format!("group {}.{}", group[0], group[1]));
        list.extend(parameter(tag).map(String::from));
        list.extend(places(new, at).into_iter().map(String::from));
    }
    if !list.is_empty() {
        list.push("with an unknown tag".into());
    }
    if !new.ignored().is_empty() && new.octets().len() == MOST_OCTETS {
        list.push("32 octets, some ignored".into());
    }
    list.sort();
    list.dedup();
    list
}

/// Where the unknown tag at `at` stands.
fn places(new: &Dictionary, at: usize) -> Vec<&'static str> {
    let tag = &new.tags[at];
    let before = new.before(at);
    let precise = new.ignored_precision(at + 1);
    let next = new.tags.get(at + 1 + usize::from(precise));
    let signal = before.is_some_and(|tag| may_have_precision(tag.word));
    let in_a_row = before.is_some_and(|tag| tag.unknown.is_some());
    let prefix = next.is_some_and(|tag| tag.word == 0x5C00);
    let again = new.tags[..at].iter().any(|other| other.word == tag.word);
    let all = [
        (at == 0, "an unknown tag first"),
        (next.is_none(), "an unknown tag last"),
        (in_a_row, "two unknown tags in a row"),
        (again, "the same unknown tag again"),
        (prefix, "before a prefix"),
        (signal && !precise, "directly behind a signal"),
        (
            signal && precise,
            "directly behind a signal, with precision",
        ),
        (tag.skips > 0 && next.is_none(), "a skip to the end"),
    ];
    let those = all.into_iter().filter(|(holds, _)| *holds);
    those.map(|(_, what)| what).collect()
}

/// An unknown tag that is known but for its parameter.
fn parameter(tag: &Tag) -> Option<&'static str> {
    tag.unknown?;
    match tag.word {
        0x4001..=0x401F => Some("NOP or precision with a parameter"),
        0x4202..=0x420F => Some(OTHER_X),
        0x4212..=0x421F => Some(OTHER_Y),
        0x4221..=0x422F => Some("Z with another parameter"),
        0x5C01..=0x5C2F => Some("prefix, intensity or brush with a parameter"),
        _ => None,
    }
}

/// The known tags that precision may stand directly behind, but for a prefix.
fn may_have_precision(word: u16) -> bool {
    matches!(
        word,
        0x4200 | 0x4201 | 0x4210 | 0x4211 | 0x4220 | 0x5000..=0x53FF | 0x5C10 | 0x5C20
    )
}

/// Whether an unknown tag was passed over before the first tag that is refused.
fn behind_unknown(new: &Dictionary, refused: impl Fn(&Tag) -> bool) -> Option<String> {
    let at = new.first(refused).expect("a tag that is refused");
    let passed = new.tags[..at].iter().any(|tag| tag.unknown.is_some());
    passed.then(|| "behind an unknown tag".into())
}

/// Request C-16: "Break, hint formats beyond 1, hint 1 in mode 2 and reserved
/// space values still give 9."
fn still_refused(new: &Dictionary) -> Vec<String> {
    let reason = |tag: &Tag| match tag.word {
        0x1000 => Some("Break"),
        0x1001..=0x100F => Some("Break with a parameter"),
        0x4101 if new.mode == 2 => Some("hint 1 in mode 2"),
        0x4102..=0x410F => Some("a hint format beyond 1"),
        0x1100..=0x11FF if [6, 2, 0].iter().any(|shift| tag.word >> shift & 3 == 2) => {
            Some("a reserved space value")
        }
        _ => None,
    };
    let refused = |tag: &Tag| reason(tag).is_some();
    let at = new.first(refused).expect("a tag that is refused");
    let prefix = new.prefix(at).map(|_| "behind a prefix");
    let list = reason(&new.tags[at]).into_iter().chain(prefix);
    let behind = behind_unknown(new, refused);
    list.map(String::from).chain(behind).collect()
}

/// The misplaced tag, if it or what it stands behind is unknown or a NOP.
fn misplaced(new: &Dictionary) -> Option<&'static str> {
    let reason = |at: usize| {
        let tag = &new.tags[at];
        let before = new.before(at).and_then(|tag| tag.unknown);
        match (tag.unknown, new.prefix(at)) {
            (Some(_), Some(prefix)) if prefix + 1 == at => Some("an unknown tag behind a prefix"),
            (Some(_), Some(_)) => Some("an unknown tag behind a prefix with precision"),
            (Some(_), None) if new.past_end(at) => Some("an unknown tag that skips past the end"),
            (None, _) if tag.word == 0x4010 => match before {
                Some(Unknown::Skips(_)) => Some("precision behind 0.0"),
                Some(Unknown::Nothing) => Some("precision behind 1.0"),
                None if at > 0 && new.ignored_precision(at - 1) => Some("a second precision"),
                None if at > 0 && new.tags[at - 1].word == 0x4000 => Some("precision behind NOP"),
                _ => None,
            },
            _ => None,
        }
    };
    let at = (0..new.tags.len()).find(|at| reason(*at).is_some())?;
    let front = new.prefix(at).unwrap_or(at);
    reason(at).filter(|_| new.reached(front))
}

/// The 33rd octet, if it is ignored.
fn too_wide(new: &Dictionary) -> Option<&'static str> {
    let at = *new.octets().get(MOST_OCTETS)?;
    let ignored = new.ignored().contains(&at) && new.reached(at);
    ignored.then(|| match new.ignored_precision(at) {
        true => "an ignored precision is the 33rd octet",
        false => "an ignored octet is the 33rd",
    })
}

/// A mandatory tag is missing where there are unknown tags.
fn incomplete(new: &Dictionary) -> Vec<String> {
    let has = |word: u16| new.first(|tag| tag.word == word).is_some();
    let missing = |tag: &Tag| match parameter(tag)? {
        OTHER_X if !has(0x4200) => Some(OTHER_X.to_string()),
        OTHER_Y if !has(0x4210) => Some(OTHER_Y.to_string()),
        _ => None,
    };
    let mut list: Vec<String> = new.tags.iter().filter_map(missing).collect();
    if new.first(|tag| tag.unknown.is_some()).is_some() {
        list.push("with an unknown tag".into());
    }
    list.dedup();
    list
}
