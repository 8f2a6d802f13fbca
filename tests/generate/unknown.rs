//! Unknown tags of defined groups in random dictionaries: request C-16, "an
//! unknown tag of a defined group is passed over".

use crate::random::Random;

const PRECISION: u16 = 0x4010;
const PREFIX: u16 = 0x5C00;

/// What an unknown tag brings with it.
#[derive(Clone, Copy, Debug, PartialEq, Eq)]
pub enum Unknown {
    /// Group 0.0: "its parameter gives the words to skip".
    Skips(usize),
    /// Group 1.0: "nothing more happens".
    Nothing,
    /// Categories 4 and 5: "its octet is ignored".
    Octet,
}

/// None for a known tag, for what still gives 9, and for a group that is not
/// defined. 5.0 to 5.3 have no unknown tags, nor has 1.1.
pub fn unknown(word: u16) -> Option<Unknown> {
    match word {
        0x0010..=0x00FF => Some(Unknown::Skips(usize::from(word & 0xF))),
        0x1010..=0x10FF => Some(Unknown::Nothing),
        0x4000 | PRECISION | 0x4200 | 0x4201 | 0x4210 | 0x4211 | 0x4220 => None,
        PREFIX | 0x5C10 | 0x5C20 => None,
        0x4000..=0x40FF | 0x4110..=0x41FF | 0x4200..=0x42FF | 0x5C00..=0x5CFF => {
            Some(Unknown::Octet)
        }
        _ => None,
    }
}

/// Unknown tags with an octet that are next to known tags or to those that
/// still give 9, or last of their group.
const NEAR: [u16; 20] = [
    0x4001, 0x400F, 0x4011, 0x4020, 0x40F0, 0x40FF, 0x4110, 0x41FF, 0x4202, 0x420F, 0x4212, 0x421F,
    0x4221, 0x4230, 0x42FF, 0x5C01, 0x5C11, 0x5C21, 0x5C30, 0x5CFF,
];

/// Words that would matter if they were not skipped.
const SKIPPED: [u16; 8] = [
    0x000F, 0x1000, 0x3000, 0x4010, 0x4200, 0x4230, 0x527E, 0x5C00,
];

/// An unknown tag with an octet.
fn with_octet(random: &mut Random) -> u16 {
    let any = random.pick(&[0x4000, 0x4100, 0x4200, 0x5C00]) | u16::from(random.octet());
    match unknown(any) {
        Some(Unknown::Octet) if random.chance(40) => any,
        _ => random.pick(&NEAR),
    }
}

/// An unknown tag of group 1.0.
fn without_octet(random: &mut Random) -> u16 {
    0x1000 | identifier(random) | random.below(16) as u16
}

/// An identifier that neither 0.0 nor 1.0 has a known tag with.
fn identifier(random: &mut Random) -> u16 {
    random.pick(&[0x10, 0x10, 0x20, 0x30, 0x80, 0xF0])
}

/// An unknown tag of group 0.0 and the words that it skips, or the first of
/// them.
pub fn skipping(random: &mut Random, skipped: usize, there: usize) -> Vec<u16> {
    let mut group = vec![identifier(random) | skipped as u16];
    group.extend((0..there).map(|_| match random.chance(50) {
        true => random.pick(&SKIPPED),
        false => random.next() as u16,
    }));
    group
}

/// An unknown tag with what belongs to it: its precision or the words that it
/// skips.
pub fn group(random: &mut Random) -> Vec<u16> {
    match random.below(8) {
        0 | 1 => {
            let skipped = random.pick(&[0, 1, 1, 2, 3, 15]);
            skipping(random, skipped, skipped)
        }
        2 => vec![without_octet(random)],
        3..=5 => vec![with_octet(random)],
        _ => vec![with_octet(random), PRECISION],
    }
}

/// What check 10 refuses: a second precision, precision where there is no octet,
/// or an unknown tag between a prefix and its colour.
pub fn misplaced(random: &mut Random) -> Vec<u16> {
    match random.below(5) {
        0 | 1 => vec![with_octet(random), PRECISION, PRECISION],
        2 => {
            let skipped = random.below(3);
            let skips = skipping(random, skipped, skipped);
            let nothing = vec![without_octet(random)];
            let group = if random.chance(50) { skips } else { nothing };
            [group, vec![PRECISION]].concat()
        }
        choice => {
            let tags = [group(random), vec![0x5000]].concat();
            let precision = vec![PRECISION; choice - 3];
            [vec![PREFIX], precision, tags].concat()
        }
    }
}

/// Adds unknown tags until a sample has so many octets.
pub fn fill(random: &mut Random, groups: &mut Vec<Vec<u16>>, most: usize) {
    let octets = |group: &Vec<u16>| if group[0] < 0x4000 { 0 } else { group.len() };
    let mut count: usize = groups.iter().map(octets).sum();
    while count < most {
        let mut group = vec![with_octet(random)];
        if count + 2 <= most && random.chance(50) {
            group.push(PRECISION);
        }
        count += group.len();
        groups.push(group);
    }
}
