//! mewkoast_layout and mewkoast_draw against the second decoder.

use crate::calls::{self, SampleLayout};
use crate::tally::{hexadecimal, refusal, Outcome, Tally};
use decoder::dictionary::{check, Layout, Part, Wavelength};
use decoder::rows::{lit, row};

/// The numbers of a row.
const ROW: usize = 24;

/// Numbers after the lent rows that must stay as they were.
const GUARD: usize = 40;

/// How the length of the lent rows differs from what the points need.
#[derive(Clone, Copy, PartialEq, Eq)]
pub enum Room {
    Exact,
    OneShort,
    Longer(usize),
}

/// A layout accepted by both sides.
pub struct Accepted {
    pub expected: Layout,
    given: SampleLayout,
}

/// The role of an octet, by the comment in include/mewkoast.h.
fn role(part: Part) -> u8 {
    match part {
        Part::Ignored => 0,
        Part::First(slot) => slot as u8 + 1,
        Part::Precision(slot) => slot as u8 + 33,
        Part::Hint(format) => 65 + format,
    }
}

/// The layout as the header describes it.
fn described(layout: &Layout) -> SampleLayout {
    let mut roles = [0; 32];
    let mut waves = [0; 8];
    for (place, part) in roles.iter_mut().zip(&layout.parts) {
        *place = role(*part);
    }
    for (place, wavelength) in waves.iter_mut().zip(&layout.wavelengths) {
        if let Wavelength::Fixed(nanometres) = wavelength {
            *place = *nanometres;
        }
    }
    SampleLayout {
        roles,
        waves,
        space: layout.space,
        width: layout.width() as u8,
        colours: layout.wavelengths.len() as u8,
    }
}

/// Offers a dictionary to both sides; gives the layout if both accept it and
/// describe it alike. Where it is refused the layout is all 0.
pub fn compare_layout(tally: &mut Tally, mode: u8, tags: &[u8]) -> Option<Accepted> {
    let given = calls::layout(u32::from(mode), tags);
    let expected = check(u32::from(mode), tags);
    let number = *expected.as_ref().err().unwrap_or(&0);
    let same = match &expected {
        Ok(layout) => given.number == 0 && given.layout == described(layout),
        Err(number) => u32::from(given.number) == *number && given.layout == SampleLayout::NONE,
    };
    tally.case(same, || {
        let (shown, layout) = (hexadecimal(tags), given.layout);
        let answer = given.number;
        format!("layout mode {mode} tags {shown}: {answer} {layout:?}, expected {number}")
    });
    match expected {
        Err(number) => {
            tally.outcome(refusal(number));
            None
        }
        Ok(expected) => {
            tally.outcome(Outcome::Layout);
            let given = given.layout;
            same.then_some(Accepted { expected, given })
        }
    }
}

/// A number that depends on its place, so that a write of anything shows.
fn pattern(place: usize) -> i32 {
    (place as u32).wrapping_mul(0x9E37_79B1) as i32 ^ 0x5A5A_5A5A
}

/// Draws the samples on both sides. `offset` shifts the rows, so that they do
/// not always start at a multiple of 16 octets.
pub fn compare_draw(
    tally: &mut Tally,
    accepted: &Accepted,
    octets: &[u8],
    room: Room,
    offset: usize,
) {
    let layout = &accepted.expected;
    let points = octets.len() / layout.width();
    let length = match room {
        Room::Exact => points * ROW,
        Room::OneShort if points == 0 => return,
        Room::OneShort => points * ROW - 1,
        Room::Longer(more) => points * ROW + more,
    };
    let mut expected: Vec<i32> = (0..offset + length + GUARD).map(pattern).collect();
    let mut given = expected.clone();
    let mut count = 0;
    if room != Room::OneShort {
        let samples = octets.chunks_exact(layout.width());
        for (place, sample) in expected[offset..].chunks_exact_mut(ROW).zip(samples) {
            let numbers = row(layout, sample);
            place.copy_from_slice(&numbers);
            count += usize::from(lit(&numbers));
        }
    }
    let returned = calls::draw(accepted.given, octets, &mut given[offset..offset + length]);
    tally.case(returned == count && given == expected, || {
        let place = (0..given.len()).find(|place| given[*place] != expected[*place]);
        let (parts, shown) = (&layout.parts, hexadecimal(octets));
        let place = place.map(|place| place as isize - offset as isize);
        format!("draw {parts:?} octets {shown} rows {length}: lit {returned}, expected {count}, first number {place:?}")
    });
    note(tally, room, points, count, octets.len() % layout.width());
}

/// Counts what a draw was.
fn note(tally: &mut Tally, room: Room, points: usize, count: usize, cut: usize) {
    if cut != 0 {
        tally.outcome(Outcome::CutSample);
    }
    match room {
        Room::Exact => tally.outcome(Outcome::Exact),
        Room::OneShort => tally.outcome(Outcome::Short),
        Room::Longer(_) => tally.outcome(Outcome::Longer),
    }
    if room == Room::OneShort {
        return;
    }
    tally.drawn(points, count);
    if points > 0 {
        tally.outcome(match count {
            0 => Outcome::Dark,
            _ if count == points => Outcome::AllLit,
            _ => Outcome::SomeLit,
        });
    }
}
