//! Document 02, C-16, "Newer producers", and document 01, "Tag dictionary":
//! all 65,536 words. Their answers are written here group by group from the
//! papers.

use crate::dictionary::answer;
use crate::table::octets;

/// The answers to dictionaries with a word: the word alone, behind X, Y and a
/// colour, before them, and behind them with a precision directly behind it.
type Answers = [u32; 4];

fn given(mode: u32, word: u16) -> Answers {
    [
        format!("{word:04X}"),
        format!("4200 4210 527E {word:04X}"),
        format!("{word:04X} 4200 4210 527E"),
        format!("4200 4210 527E {word:04X} 4010"),
    ]
    .map(|text| answer(mode, &octets(&text)))
}

/// Of an undefined group.
const UNDEFINED: Answers = [108; 4];

/// Those that "still give 9".
const REFUSED: Answers = [109; 4];

/// No octet, and no precision behind it.
const NO_OCTET: Answers = [112, 3, 3, 110];

/// An octet, but no precision behind it: NOP and hints.
const OCTET: Answers = [112, 4, 4, 110];

/// An octet, and one of precision behind it: signals but X and Y.
const SIGNAL: Answers = [112, 4, 4, 5];

/// X or Y, which is there already.
const REPEATED: Answers = [112, 111, 111, 111];

/// Behind the colour it is in its place; behind itself it is not.
const PRECISION: Answers = [110, 4, 110, 110];

/// 5000 without a prefix, and a prefix without 5000.
const MISPLACED: Answers = [110; 4];

/// "In categories 4 and 5 its octet is ignored, as is that of one precision
/// tag directly behind it."
const UNKNOWN: Answers = [112, 4, 4, 5];

/// The first word and the last one of each run, but for 0.0, 1.1 and 4101.
const RUNS: [(u16, u16, Answers); 33] = [
    (0x0100, 0x0FFF, UNDEFINED),
    // Break, then the unknown ones: "In 1.0 nothing more happens."
    (0x1000, 0x100F, REFUSED),
    (0x1010, 0x10FF, NO_OCTET),
    (0x1200, 0x3FFF, UNDEFINED),
    // NOP and precision have the parameter 0 only.
    (0x4000, 0x4000, OCTET),
    (0x4001, 0x400F, UNKNOWN),
    (0x4010, 0x4010, PRECISION),
    (0x4011, 0x401F, UNKNOWN),
    (0x4020, 0x40FF, UNKNOWN),
    // Hints have the identifier 0.
    (0x4100, 0x4100, OCTET),
    (0x4102, 0x410F, REFUSED),
    (0x4110, 0x41FF, UNKNOWN),
    // "X, Y and Z with parameters beyond those of 01 are unknown too."
    (0x4200, 0x4200, REPEATED),
    (0x4201, 0x4201, SIGNAL),
    (0x4202, 0x420F, UNKNOWN),
    (0x4210, 0x4210, REPEATED),
    (0x4211, 0x4211, SIGNAL),
    (0x4212, 0x421F, UNKNOWN),
    (0x4220, 0x4220, SIGNAL),
    (0x4221, 0x422F, UNKNOWN),
    (0x4230, 0x42FF, UNKNOWN),
    (0x4300, 0x4FFF, UNDEFINED),
    // Colours of 1 to 3FF nm.
    (0x5000, 0x5000, MISPLACED),
    (0x5001, 0x53FF, SIGNAL),
    (0x5400, 0x5BFF, UNDEFINED),
    // Prefix, intensity and brush have the parameter 0 only.
    (0x5C00, 0x5C00, MISPLACED),
    (0x5C01, 0x5C0F, UNKNOWN),
    (0x5C10, 0x5C10, SIGNAL),
    (0x5C11, 0x5C1F, UNKNOWN),
    (0x5C20, 0x5C20, SIGNAL),
    (0x5C21, 0x5C2F, UNKNOWN),
    (0x5C30, 0x5CFF, UNKNOWN),
    (0x5D00, 0xFFFF, UNDEFINED),
];

/// Group 0.0, by the parameter: it "gives the words to skip", whatever the
/// identifier. "Skips past the end give 10." A skip of 1 before X, Y and a
/// colour leaves no X, one of 3 nothing; behind them it skips the precision.
fn skips(word: u16) -> Answers {
    match word & 0xF {
        0 => NO_OCTET,
        1 => [110, 110, 112, 3],
        2 | 3 => [110, 110, 112, 110],
        _ => [110; 4],
    }
}

/// Group 1.1: binary 10 in GLIN makes the third nibble 8 to B; in CBAL it
/// makes the fourth 8 to B; in CTIM it makes it 2, 6, A or E.
fn space(word: u16) -> Answers {
    let glin = (0x8..=0xB).contains(&(word >> 4 & 0xF));
    let others = [0x2, 0x6, 0x8, 0x9, 0xA, 0xB, 0xE].contains(&(word & 0xF));
    if glin || others {
        REFUSED
    } else {
        NO_OCTET
    }
}

/// Every word with its answers, in ascending order.
fn words(mode: u32) -> Vec<(u16, Answers)> {
    let runs = RUNS
        .iter()
        .flat_map(|&(first, last, answers)| (first..=last).map(move |word| (word, answers)));
    let hint_1 = if mode == 1 { OCTET } else { REFUSED };
    let mut words: Vec<(u16, Answers)> = runs.collect();
    words.extend((0x0000..=0x00FF).map(|word| (word, skips(word))));
    words.extend((0x1100..=0x11FF).map(|word| (word, space(word))));
    words.push((0x4101, hint_1));
    words.sort_by_key(|(word, _)| *word);
    words
}

#[test]
fn every_word() {
    for mode in [1, 2] {
        let words = words(mode);
        assert_eq!(words.len(), 65_536);
        for (place, (word, answers)) in words.into_iter().enumerate() {
            assert_eq!(usize::from(word), place);
            assert_eq!(given(mode, word), answers, "mode {mode}, {word:04X}");
        }
    }
}
