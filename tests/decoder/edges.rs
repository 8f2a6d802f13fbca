//! Further cases, worked out by hand from the sections of document 01 that
//! the tests name.

use crate::dictionary::{answer, check, Part, Wavelength};
use crate::dimmer::{self, Map, Subset, PLACES};
use crate::rows::{lit, row};
use crate::table::octets;

fn given(mode: u32, text: &str) -> u32 {
    answer(mode, &octets(text))
}

/// "Calls and layers": 6 before 5, 5 before 8 to 12.
#[test]
fn answers_before_the_tags() {
    assert_eq!(given(0, "42"), 106);
    assert_eq!(given(257, "4200 4210 527E"), 106);
    assert_eq!(given(1, "42"), 105);
    assert_eq!(answer(2, &[0; 1021]), 105);
    assert_eq!(answer(2, &[0; 1022]), 105);
    assert_eq!(answer(2, &[0; 1020]), 112);
    assert_eq!(given(1, ""), 112);
}

/// "Tag dictionary": which tag may stand where.
#[test]
fn places_of_tags() {
    assert_eq!(given(1, "4200 4210 5C00 4010 5000 4010"), 6);
    assert_eq!(given(1, "4200 4010 4010 4210 527E"), 110);
    assert_eq!(given(1, "4200 0000 4010 4210 527E"), 110);
    assert_eq!(given(1, "4200 4210 5C00 0000 5000"), 110);
    assert_eq!(given(1, "4200 4210 5C00 527E"), 110);
    assert_eq!(given(1, "4200 4210 5C00 1000"), 109);
    assert_eq!(given(1, "4200 4210 5C00 4230"), 110);
    assert_eq!(given(1, "4200 4210 5C00 3000"), 108);
    assert_eq!(given(1, "4200 4210 527E 5C00"), 110);
    assert_eq!(given(1, "5C00"), 110);
    assert_eq!(given(1, "4200 4210 5000"), 110);
    assert_eq!(given(1, "4200 4210 527E 0001 FFFF"), 3);
    assert_eq!(given(1, "4200 4210 527E 0002 FFFF"), 110);
}

/// "Tag dictionary": 1180 has GLIN 10, 1108 has CBAL 10, 1102 has CTIM 10.
/// Document 02, C-16, has the tags that still give 9.
#[test]
fn known_tags() {
    for word in ["1180", "1108", "1102", "1000", "4102"] {
        assert_eq!(given(1, &format!("{word} 4200 4210 527E")), 109);
    }
    assert_eq!(given(1, "1120 4200 4210 527E"), 3);
    assert_eq!(given(1, "4101 4200 4210 527E"), 4);
    assert_eq!(given(2, "4101 4200 4210 527E"), 109);
    assert_eq!(given(1, "5400 4200 4210 527E"), 108);
}

/// Check 11 and its limits of 8 colours and 32 octets.
#[test]
fn limits() {
    let colours = |count: usize| format!("4200 4210 {}", "527E ".repeat(count));
    assert_eq!(given(1, &colours(8)), 10);
    assert_eq!(given(1, &colours(9)), 111);
    assert_eq!(given(1, &format!("{} 5C00", colours(8))), 110);
    assert_eq!(given(1, &format!("{} 5C00 5000", colours(8))), 111);
    let nops = |count: usize| format!("4200 4210 527E {}", "4000 ".repeat(count));
    assert_eq!(given(1, &nops(29)), 32);
    assert_eq!(given(1, &nops(30)), 111);
    assert_eq!(given(1, &format!("{} 5C00", nops(29))), 111);
    assert_eq!(given(1, "4200 4210 527E 4100 4101"), 111);
    assert_eq!(given(1, "1100 4200 4210 527E 1100"), 111);
}

/// A dictionary with every kind of octet.
const EVERY_KIND: &str = "1155 5C10 4101 4200 4010 4000 5C00 4010 5000 4210 5C20 523F 4010";

/// "Tag dictionary" and "One row": what each octet of a sample is.
#[test]
fn layout_of_every_kind() {
    let layout = check(1, &octets(EVERY_KIND)).unwrap();
    let parts = [
        Part::First(6),
        Part::Hint(1),
        Part::First(0),
        Part::Precision(0),
        Part::Ignored,
        Part::First(16),
        Part::Precision(16),
        Part::First(8),
        Part::First(1),
        Part::First(7),
        Part::First(9),
        Part::Precision(9),
    ];
    assert_eq!(layout.parts, parts);
    let wavelengths = [Wavelength::Prefixed, Wavelength::Fixed(0x23F)];
    assert_eq!(layout.wavelengths, wavelengths);
    assert_eq!(layout.space, 0x1155);
}

/// "One row": the hint 60 has c = 1, i = 2 and a closed shutter.
#[test]
fn row_of_every_kind() {
    let layout = check(1, &octets(EVERY_KIND)).unwrap();
    let row = row(&layout, &octets("FF 60 80 01 AA FF FE 02 7F 81 01 FF"));
    let mut expected = [0; 24];
    (expected[0], expected[1]) = (-32767, 32512);
    (expected[6], expected[7]) = (65280 / 16, 33024);
    (expected[8], expected[9]) = (512 / 4, 511 / 4);
    (expected[16], expected[17]) = (65534, 575 * 64);
    assert_eq!(row, expected);
    assert!(lit(&row));
}

/// "Dimmer tags": check 13.
#[test]
fn dimmer_tags_out_of_range() {
    for text in [
        "44",
        "10",
        "01",
        "42",
        "42 00",
        "42 00 00",
        "42 02 01",
        "43 00 01",
        "43 00 01 00",
        "43 02 00 02",
        "43 FF FF 00",
        "43 FF FE 01",
        "42 00 01 42 00 00",
    ] {
        assert_eq!(dimmer::check(&octets(text)), Err(13), "{text}");
    }
    assert_eq!(dimmer::check(&octets("")), Ok(Map::Whole(1)));
    assert_eq!(
        dimmer::check(&octets("03 42 00 09 42 02 00")),
        Ok(Map::Whole(512))
    );
    let last = vec![Subset {
        base: 512,
        count: 1,
    }];
    assert_eq!(
        dimmer::check(&octets("43 02 00 01")),
        Ok(Map::Subsets(last))
    );
}

/// "Dimmer tags": check 14.
#[test]
fn dimmer_tags_that_clash() {
    for text in [
        "42 00 01 42 00 01",
        "42 00 01 43 00 01 01",
        "43 00 01 01 42 FF FF",
    ] {
        assert_eq!(dimmer::check(&octets(text)), Err(14), "{text}");
    }
    assert!(dimmer::check(&octets("43 FF FF 09 43 FF FF 09 43 00 01 09")).is_ok());
    let dropped = "43 FF FF 01 ";
    assert!(dimmer::check(&octets(&dropped.repeat(32))).is_ok());
    assert_eq!(dimmer::check(&octets(&dropped.repeat(33))), Err(14));
}

/// "Dimmer tags": places of mode 6, dropped levels and check 21.
#[test]
fn dimmer_places() {
    let map = dimmer::check(&octets("43 02 00 01 43 FF FF 02 43 00 01 02")).unwrap();
    let mut places = [0; PLACES];
    assert_eq!(dimmer::place(&map, 6, &[1, 2, 3, 4], &mut places), Err(21));
    assert_eq!(dimmer::place(&map, 6, &[1, 2, 3, 4, 5], &mut places), Ok(3));
    let mut expected = [0; PLACES];
    (expected[1023], expected[512], expected[513]) = (1, 4, 5);
    assert_eq!(places, expected);
    let drop = dimmer::check(&octets("42 FF FF")).unwrap();
    assert_eq!(dimmer::place(&drop, 4, &[9; 700], &mut places), Ok(0));
    assert_eq!(places, expected);
    let plain = dimmer::check(&[]).unwrap();
    assert_eq!(dimmer::place(&plain, 4, &[9; 513], &mut places), Err(21));
    assert_eq!(dimmer::place(&plain, 4, &[8; 512], &mut places), Ok(512));
    assert_eq!(dimmer::place(&plain, 4, &[], &mut places), Ok(0));
    assert_eq!(places[..512], [8; 512]);
    assert_eq!(places[512..], expected[512..]);
}
