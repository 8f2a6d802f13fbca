//! Document 02, C-16, "Newer producers": what unknown tags do in a dictionary,
//! clause by clause, worked out by hand. All words one by one are in
//! newer_words.rs, samples with ignored octets in newer_samples.rs.

use crate::dictionary::{answer, check, Layout, Part, Wavelength};
use crate::table::octets;

/// The answer, which does not depend on the mode.
fn given(text: &str) -> u32 {
    let answers = [1, 2].map(|mode| answer(mode, &octets(text)));
    assert_eq!(answers[0], answers[1], "{text}");
    answers[0]
}

/// The layout, which does not depend on the mode.
fn layout(text: &str) -> Layout {
    let layouts = [1, 2].map(|mode| check(mode, &octets(text)).unwrap());
    assert_eq!(layouts[0], layouts[1], "{text}");
    layouts[0].clone()
}

/// Unknown tags of categories 4 and 5, of each of their groups: the known
/// identifiers with other parameters, and unknown identifiers.
pub const WITH_OCTET: [&str; 24] = [
    "4001", "400F", "4011", "401F", "4020", "40FF", "4110", "4111", "41FF", "4202", "420F", "4212",
    "421F", "4221", "422F", "4230", "42FF", "5C01", "5C0F", "5C11", "5C21", "5C2F", "5C30", "5CFF",
];

/// Unknown tags of group 1.0.
const WITHOUT: [&str; 5] = ["1010", "101F", "1020", "10F0", "10FF"];

/// X, Y and a colour of 638 nm, with what stands for the octets between.
fn around(between: &[Part]) -> Layout {
    let ends = [[Part::First(0)].as_slice(), between, &[Part::First(1)]].concat();
    Layout {
        parts: [ends, vec![Part::First(8)]].concat(),
        wavelengths: vec![Wavelength::Fixed(638)],
        space: 0,
    }
}

/// "In 1.0 nothing more happens": no octet, no words skipped whatever the
/// parameter, and it is neither Break nor a space modifier.
#[test]
fn group_1_0() {
    for tag in WITHOUT {
        assert_eq!(layout(&format!("4200 {tag} 4210 527E")), around(&[]));
        assert_eq!(given(&format!("{tag} 4200 {tag} 4210 527E {tag}")), 3);
        assert_eq!(given(&format!("1155 {tag} 4200 4210 527E")), 3);
        assert_eq!(given(&format!("4200 4210 {tag}")), 112);
        assert_eq!(given(&format!("{tag} 3000")), 108);
        assert_eq!(given(tag), 112);
    }
}

/// "In categories 4 and 5 its octet is ignored, as is that of one precision
/// tag directly behind it": neither belongs to the signal before.
#[test]
fn categories_4_and_5() {
    let ignored = Part::Ignored;
    for tag in WITH_OCTET {
        let one = layout(&format!("4200 {tag} 4210 527E"));
        assert_eq!(one, around(&[ignored]), "{tag}");
        let two = layout(&format!("4200 {tag} 4010 4210 527E"));
        assert_eq!(two, around(&[ignored; 2]), "{tag}");
        let precise = layout(&format!("4200 4010 {tag} 4010 4210 527E"));
        let parts = [Part::Precision(0), ignored, ignored];
        assert_eq!(precise, around(&parts), "{tag}");
        // They stand for no mandatory tag.
        assert_eq!(given(tag), 112);
        assert_eq!(given(&format!("{tag} 4010")), 112);
        for rest in ["4210 527E", "4200 527E", "4200 4210"] {
            assert_eq!(given(&format!("{rest} {tag}")), 112, "{tag}");
        }
    }
}

/// "one precision tag": a second is misplaced, and each unknown tag may have
/// its own.
#[test]
fn one_precision() {
    for tag in WITH_OCTET {
        assert_eq!(given(&format!("4200 4210 527E {tag} 4010 4010")), 110);
        assert_eq!(given(&format!("{tag} 4010 4010 4200 4210 527E")), 110);
        assert_eq!(given(&format!("4200 4210 527E {tag} 4010 {tag} 4010")), 7);
        assert_eq!(given(&format!("4200 4210 527E {tag} {tag} 4010")), 6);
        // 4011 is not the precision: it is unknown itself and may have one.
        assert_eq!(given(&format!("4200 4210 527E {tag} 4011 4010")), 6);
        assert_eq!(given(&format!("4200 4210 527E {tag} 4010 4011 4010")), 7);
    }
}

/// "directly behind it": behind a tag without an octet, known or unknown,
/// there is nothing that a precision could belong to.
#[test]
fn precision_elsewhere() {
    for between in ["0000", "0010", "00F0", "0011 4200", "1010", "10FF", "1100"] {
        // Behind a signal and behind an unknown tag.
        assert_eq!(given(&format!("4200 {between} 4010 4210 527E")), 110);
        assert_eq!(given(&format!("4230 {between} 4010 4200 4210 527E")), 110);
        assert_eq!(given(&format!("{between} 4010 4200 4210 527E")), 110);
    }
    // NOP and hint are known, and 01 has no precision behind them.
    assert_eq!(given("4200 4210 527E 4000 4010"), 110);
    assert_eq!(given("4200 4210 527E 4100 4010"), 110);
    assert_eq!(given("4200 4210 527E 4230 4000 4010"), 110);
    // Behind skipped words it is read, among them it is not.
    assert_eq!(given("4200 4210 527E 4230 0011 4000 4010"), 110);
    assert_eq!(given("4200 4210 527E 4230 0011 4010"), 4);
}

/// "In group 0.0 its parameter gives the words to skip": not its identifier.
#[test]
fn group_0_0() {
    let rest = "4200 4210 527E";
    for identifier in 1..16 {
        let tag = |parameter: usize| format!("00{identifier:X}{parameter:X}");
        assert_eq!(layout(&format!("4200 {} 4210 527E", tag(0))), around(&[]));
        for skipped in 0..16 {
            // Words that would be refused, if they were read, by 8, 9 and 10.
            for word in ["FFFF ", "1000 ", "4010 "] {
                let words = word.repeat(skipped);
                let text = format!("{} {words} {rest}", tag(skipped));
                assert_eq!(given(&text), 3, "{text}");
                // Exactly to the end, and one past it.
                assert_eq!(given(&format!("{rest} {} {words}", tag(skipped))), 3);
                if skipped < 15 {
                    let past = format!("{rest} {} {words}", tag(skipped + 1));
                    assert_eq!(given(&past), 110, "{past}");
                }
            }
            // One more than is skipped is read.
            let more = "FFFF ".repeat(skipped + 1);
            assert_eq!(given(&format!("{rest} {} {more}", tag(skipped))), 108);
        }
    }
    assert_eq!(given("0021 FFFF 4200 4210 527E"), 3);
    assert_eq!(given("0012 FFFF FFFF 4200 4210 527E"), 3);
    assert_eq!(given("4200 4210 527E 0021"), 110);
    assert_eq!(given("4200 4210 527E 0010"), 3);
    assert_eq!(given("00FF"), 110);
}

/// Skips among skipped words do nothing, and what stands behind is read.
#[test]
fn skips_in_skips() {
    assert_eq!(given("0011 001F 4200 4210 527E"), 3);
    assert_eq!(given("0012 0001 0001 4200 4210 527E"), 3);
    assert_eq!(given("0001 0011 4200 4210 527E"), 3);
    assert_eq!(given("0011 5C00 4200 4210 527E"), 3);
    assert_eq!(given("4200 4210 0011 527E"), 112);
    assert_eq!(given("4200 4210 527E 0011 4200 4200"), 111);
}

/// Document 01: "A prefix with its precision, if any, is followed directly by
/// 5000, and 5000 stands nowhere else." An unknown tag passes 9 and is 10 there.
#[test]
fn prefix() {
    let others = ["0010", "00F0", "0011 5000", "001F", "1010", "10FF"];
    for tag in WITH_OCTET.into_iter().chain(others) {
        for prefix in ["5C00", "5C00 4010"] {
            assert_eq!(given(&format!("4200 4210 527E {prefix} {tag}")), 110);
            assert_eq!(given(&format!("4200 4210 {prefix} {tag} 5000")), 110);
            assert_eq!(given(&format!("4200 4210 {prefix} {tag} 4010 5000")), 110);
        }
        assert_eq!(given(&format!("4200 4210 527E {tag} 5000")), 110);
    }
    // 5C01 is no prefix, and 5000 behind a tag that is unknown has none.
    assert_eq!(given("4200 4210 5C01 5000"), 110);
    assert_eq!(given("4200 4210 5C01 4010 5000"), 110);
    assert_eq!(given("4200 4210 5C30 5C00 5000 4230"), 6);
    // 8 and 9 stand before 10 there.
    for (tag, refusal) in [("3000", 108), ("1000", 109), ("4102", 109), ("1102", 109)] {
        assert_eq!(given(&format!("4200 4210 5C00 {tag}")), refusal);
    }
}

/// "The width [...] includes ignored octets", and check 11 has the 33rd.
#[test]
fn widths() {
    for tag in WITH_OCTET {
        let tags = |count: usize| format!("4200 4210 527E {}", format!("{tag} ").repeat(count));
        assert_eq!(given(&tags(28)), 31);
        assert_eq!(given(&tags(29)), 32);
        assert_eq!(given(&tags(30)), 111);
        assert_eq!(given(&format!("{} 4010", tags(28))), 32);
        assert_eq!(given(&format!("{} 4010", tags(29))), 111);
        // At the 33rd octet 10 stands before 11, 8 and 9 before both.
        assert_eq!(given(&format!("{} 4010 4010", tags(28))), 110);
        assert_eq!(given(&format!("{} 3000", tags(29))), 108);
        assert_eq!(given(&format!("{} 1000", tags(29))), 109);
        // What has no octet may follow.
        assert_eq!(given(&format!("{} 1010 0011 FFFF 1155", tags(29))), 32);
        // The first octets are counted like the last, and 11 before 12.
        assert_eq!(
            given(&format!("{} 4200", format!("{tag} ").repeat(32))),
            111
        );
        assert_eq!(given(&format!("{tag} ").repeat(32)), 112);
        assert_eq!(given(&format!("{tag} ").repeat(33)), 111);
    }
}

/// Check 11 counts signals, hints, space modifiers and colours; unknown tags
/// are none of them, so that they may repeat and take no colour's place.
#[test]
fn repeats() {
    let colours = "527E ".repeat(8);
    for tag in WITH_OCTET {
        assert_eq!(given(&format!("{tag} 4200 {tag} 4210 {tag} 527E {tag}")), 7);
        assert_eq!(given(&format!("4200 4210 {colours} {tag} {tag}")), 12);
        assert_eq!(given(&format!("4200 4210 {colours} {tag} 527E")), 111);
        assert_eq!(given(&format!("4200 4210 {tag} 4200 527E")), 111);
        assert_eq!(given(&format!("4100 {tag} 4100 4200 4210 527E")), 111);
    }
    assert_eq!(given("0010 0010 1010 1010 4200 4210 527E"), 3);
    assert_eq!(given("1155 1010 1155 4200 4210 527E"), 111);
    // An unknown X beside the two that are known.
    assert_eq!(given("4202 4201 4200 4202 4212 4210 4211 4221 527E"), 9);
}

/// "Break, hint formats beyond 1, hint 1 in mode 2 and reserved space values
/// still give 9": in front, and before 10 and 11.
#[test]
fn still_9() {
    let breaks = (0x1000..=0x100F).chain(0x4102..=0x410F);
    for tag in breaks.chain([0x1180, 0x11BF, 0x1108, 0x1102, 0x11AA]) {
        assert_eq!(given(&format!("{tag:04X} 4200 4210 527E")), 109);
        assert_eq!(given(&format!("4200 4210 527E {tag:04X}")), 109);
        assert_eq!(given(&format!("1155 4100 5C00 {tag:04X}")), 109);
    }
    for (text, mode_1) in [
        ("4101 4200 4210 527E", 4),
        ("4200 4210 527E 4230 4101", 5),
        ("4200 4210 527E 5C00 4101", 110),
        ("4100 4200 4210 527E 4101", 111),
        ("4101", 112),
    ] {
        assert_eq!(answer(1, &octets(text)), mode_1, "{text}");
        assert_eq!(answer(2, &octets(text)), 109, "{text}");
    }
    // Tags of the same groups that are passed over.
    assert_eq!(given("1010 4200 4210 527E"), 3);
    assert_eq!(given("4110 4200 4210 527E 4112"), 5);
}

/// "They SHALL abort though in case of tags of an unspecified combination of
/// category and subcategory" (003, 3.4): at the first of them that is read.
#[test]
fn undefined_groups() {
    for word in [
        "0100", "1200", "4300", "4F30", "5400", "5B00", "5D00", "C010",
    ] {
        assert_eq!(given(&format!("4200 4210 527E {word}")), 108);
        assert_eq!(given(&format!("4230 {word} 4200 4210 527E")), 108);
        assert_eq!(given(&format!("0021 {word} 4200 4210 527E")), 3);
        assert_eq!(given(&format!("4010 {word}")), 110);
        assert_eq!(given(&format!("1000 {word}")), 109);
    }
}
