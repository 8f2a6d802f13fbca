//! The cases of the dictionary check, a mode and the octets of the tags each.
//! tests/before gives them to two archives.

use generate::dictionaries::{self, octets, SOURCE};
use generate::random::Random;
use generate::random_dictionary::NOTABLE;
use std::fmt::Write;

/// The most equal words in a row that are printed one by one.
const ONE_BY_ONE: usize = 16;

/// Calls `each` with every case, or with a fixed part of them: the same ones in
/// the same order each time.
pub fn all(whole: bool, each: &mut impl FnMut(u32, &[u8])) {
    replace_words(whole, each);
    strings(whole, each);
    modes(each);
    lengths(each);
    random_dictionaries(if whole { 20_000_000 } else { 1_500_000 }, each);
    random_words(if whole { 5_000_000 } else { 300_000 }, each);
}

/// A case as it is printed, its tags in hexadecimal. Many equal words in a row
/// are printed as one with their number, or a line would be too long to read.
pub fn shown(mode: u32, tags: &[u8]) -> String {
    let mut text = format!("mode {mode} tags");
    let words: Vec<&[u8]> = tags.chunks(2).collect();
    for equal in words.chunk_by(|word, next| word == next) {
        let digits = equal[0].iter().map(|octet| format!("{octet:02X}"));
        let word = digits.collect::<String>();
        if equal.len() > ONE_BY_ONE {
            let _ = write!(text, " {word}*{}", equal.len());
        } else {
            text += &format!(" {word}").repeat(equal.len());
        }
    }
    text
}

/// One dictionary in both graphic modes.
fn both_modes(tags: &[u8], each: &mut impl FnMut(u32, &[u8])) {
    each(1, tags);
    each(2, tags);
}

/// Replaces every word of every dictionary by each value, in both modes. The
/// part takes each value only for the dictionaries of the source document.
fn replace_words(whole: bool, each: &mut impl FnMut(u32, &[u8])) {
    for (number, mut tags) in dictionaries::all().into_iter().enumerate() {
        both_modes(&tags, each);
        for place in (0..tags.len()).step_by(2) {
            let kept = [tags[place], tags[place + 1]];
            for value in 0..=u16::MAX {
                if whole || number < SOURCE.len() || in_part(value, number + place) {
                    tags[place..place + 2].copy_from_slice(&value.to_be_bytes());
                    both_modes(&tags, each);
                }
            }
            tags[place..place + 2].copy_from_slice(&kept);
        }
    }
}

/// The values of the part: the defined groups other than the colours, and
/// every 32nd value from a start that differs from word to word.
fn in_part(value: u16, start: usize) -> bool {
    matches!(value >> 8, 0x00 | 0x10 | 0x11 | 0x40 | 0x41 | 0x42 | 0x5C)
        || value == 0x5000
        || usize::from(value % 32) == start % 32
}

/// Puts strings of notable words before, into and after a short dictionary:
/// strings of up to two words, or of three for the whole.
fn strings(whole: bool, each: &mut impl FnMut(u32, &[u8])) {
    let short = octets("4200 4210 527E");
    let longest = if whole { 3 } else { 2 };
    let mut level: Vec<Vec<u8>> = vec![Vec::new()];
    for _ in 0..longest {
        level = level
            .iter()
            .flat_map(|string| NOTABLE.map(|word| [&string[..], &word.to_be_bytes()].concat()))
            .collect();
        for string in &level {
            both_modes(string, each);
            for place in (0..=short.len()).step_by(2) {
                let (front, back) = short.split_at(place);
                both_modes(&[front, string, back].concat(), each);
            }
        }
    }
}

/// Modes 0 to 300 and some large ones, with even, odd and long dictionaries.
fn modes(each: &mut impl FnMut(u32, &[u8])) {
    let large = [
        0x0000_FFFF,
        0x0001_0000,
        0x0001_0001,
        0x0001_0002,
        0x0100_0001,
        0x0200_0000,
        0x7FFF_FFFF,
        0x8000_0000,
        0x8000_0001,
        0x8000_0002,
        0xFFFF_FFFE,
        0xFFFF_FFFF,
    ];
    let good = octets("4200 4210 527E 4100");
    let long = [good.as_slice(), &[0; 2000]].concat();
    for mode in (0..=300).chain(large) {
        for length in [0, 1, 2, 6, 7, 8, 1019, 1020, 1021, 1022, 2008] {
            each(mode, &long[..length]);
        }
        each(mode, &octets("4101 4200 4210 527E"));
        each(mode, &octets("3000"));
    }
}

/// Every length from 0 to 1,100 of some patterns, in modes 0 to 3.
fn lengths(each: &mut impl FnMut(u32, &[u8])) {
    let repeated = [
        "0000",
        "FFFF",
        "4000",
        "000F",
        "0001",
        "0010",
        "00F3",
        "0100",
        "1010",
        "4230",
        "40FF 4010",
        "5C00",
        "527E",
        "4200 4210",
    ];
    let fronts = ["", "4200 4210 527E", "4200 4210 5C00 5000 4010 4100 1155"];
    for words in repeated {
        for front in fronts {
            let pattern = octets(words).into_iter().cycle();
            let all: Vec<u8> = octets(front)
                .into_iter()
                .chain(pattern)
                .take(1100)
                .collect();
            for length in 0..=1100 {
                for mode in 0..=3 {
                    each(mode, &all[..length]);
                }
            }
        }
    }
}

/// Dictionaries that mostly keep the rules, in both modes.
fn random_dictionaries(count: usize, each: &mut impl FnMut(u32, &[u8])) {
    let mut random = Random::new(0x9E37_79B9_7F4A_7C15);
    for _ in 0..count {
        let words = random.dictionary();
        let mut tags: Vec<u8> = words.into_iter().flat_map(u16::to_be_bytes).collect();
        if random.below(200) == 0 {
            tags.pop();
        }
        both_modes(&tags, each);
    }
}

/// Short strings of notable words and of any words, in both modes.
fn random_words(count: usize, each: &mut impl FnMut(u32, &[u8])) {
    let mut random = Random::new(0xD1B5_4A32_D192_ED03);
    for _ in 0..count {
        let length = random.below(24);
        let any = random.below(8) == 0;
        let tags: Vec<u8> = (0..length)
            .map(|_| match any {
                true => random.next() as u16,
                false => NOTABLE[random.below(NOTABLE.len())],
            })
            .flat_map(u16::to_be_bytes)
            .collect();
        both_modes(&tags, each);
    }
}
