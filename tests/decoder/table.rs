//! Document 01, "Bench table", cases a to h; document 02, C-16, changes case h.

use crate::dictionary::{check, Layout, Part, Wavelength};
use crate::dimmer::{self, PLACES};
use crate::rows::{lit, points, row, FRAME, WAVE};

/// The octets of a hexadecimal text; blanks are left out.
pub fn octets(text: &str) -> Vec<u8> {
    let digits: Vec<u32> = text.chars().filter_map(|c| c.to_digit(16)).collect();
    digits
        .chunks(2)
        .map(|pair| (pair[0] * 16 + pair[1]) as u8)
        .collect()
}

fn layout(text: &str) -> Layout {
    check(1, &octets(text)).unwrap()
}

fn numbers(dictionary: &str, sample: &str) -> [i32; 24] {
    row(&layout(dictionary), &octets(sample))
}

#[test]
fn a_frame() {
    let message = octets(
        "002EC502 00000000 04110102 42004010 42104010 527E5214 51CC0000 10000064
         80000001000000 7FFFFFFF008000",
    );
    assert_eq!(message.len(), 0x2E);
    let layout = check(2, &message[12..28]).unwrap();
    assert_eq!(layout.width(), 7);
    assert_eq!(points(FRAME, message.len() - 32, 7), Ok(2));
    let dark = row(&layout, &message[32..39]);
    let bright = row(&layout, &message[39..46]);
    let mut expected = [0; 24];
    expected[..6].copy_from_slice(&[-32768, 1, 0, 0, 0, 1]);
    expected[16..19].copy_from_slice(&[40832, 34048, 29440]);
    assert_eq!(dark, expected);
    assert!(!lit(&dark));
    expected[..2].copy_from_slice(&[32767, -1]);
    expected[9] = 32768;
    assert_eq!(bright, expected);
    assert!(lit(&bright));
}

#[test]
fn b_hint_after_the_colour() {
    assert_eq!(numbers("4200 4210 527E 4100", "00 00 FF 40")[8], 16320);
    assert_eq!(numbers("4200 4210 527E 4100", "00 00 FF C0")[8], 1020);
}

#[test]
fn c_prefixed_wavelength() {
    let row = numbers("4200 4210 5C00 5000", "00 00 85 00");
    assert_eq!(row[16], 34048);
    assert!(!lit(&row));
    let parts = [
        Part::First(0),
        Part::First(1),
        Part::First(16),
        Part::First(8),
    ];
    let layout = layout("4200 4210 5C00 5000");
    assert_eq!(layout.parts, parts);
    assert_eq!(layout.wavelengths, [Wavelength::Prefixed]);
}

#[test]
fn d_lit_after_the_division() {
    let dictionary = "4200 4210 527E 4010 4100";
    assert!(!lit(&numbers(dictionary, "00 00 00 3F C0")));
    assert!(lit(&numbers(dictionary, "00 00 00 40 C0")));
}

#[test]
fn e_levels_from_a_base() {
    let map = dimmer::check(&octets("42 01 FE 00")).unwrap();
    let mut places = [7; PLACES];
    assert_eq!(dimmer::place(&map, 4, &[1; 4], &mut places), Err(21));
    assert_eq!(places, [7; PLACES]);
    assert_eq!(dimmer::place(&map, 4, &[1, 2, 3], &mut places), Ok(3));
    let mut expected = [7; PLACES];
    expected[509..512].copy_from_slice(&[1, 2, 3]);
    assert_eq!(places, expected);
}

#[test]
fn f_subsets() {
    assert!(dimmer::check(&octets("43 00 01 02 43 00 03 01")).is_ok());
    assert_eq!(
        dimmer::check(&octets("43 00 01 02 43 00 03 01 43 00 02 01")),
        Err(14)
    );
}

#[test]
fn g_counts_of_samples() {
    assert_eq!(points(WAVE, 19 * 7, 7), Err(20));
    assert_eq!(points(WAVE, 20 * 7, 7), Ok(20));
    assert_eq!(points(WAVE, 20 * 7 + 1, 7), Err(20));
    assert_eq!(points(FRAME, 0, 7), Ok(0));
    assert_eq!(points(FRAME, 7, 7), Err(20));
    assert_eq!(points(FRAME, 14, 7), Ok(2));
}

#[test]
fn h_refused_tags() {
    assert_eq!(check(1, &octets("4010")), Err(10));
    assert_eq!(check(1, &octets("3000")), Err(8));
    // Document 02, C-16: "4230 alone now gives 12".
    assert_eq!(check(1, &octets("4230")), Err(12));
}
