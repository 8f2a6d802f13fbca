//! The text of the show in stroke letters.

use crate::shapes::{Colour, Path, Place};

type Stroke = &'static [(u8, u8)];

/// A letter is 12 units wide and 18 high, and the next one begins 16 units
/// further; (0, 0) is at its lower left.
const WIDTH: f64 = 12.0;
const HEIGHT: f64 = 18.0;
const PITCH: f64 = 16.0;

const M: &[Stroke] = &[&[(0, 0), (0, 18), (6, 8), (12, 18), (12, 0)]];
const E: &[Stroke] = &[&[(12, 18), (0, 18), (0, 0), (12, 0)], &[(9, 9), (0, 9)]];
const W: &[Stroke] = &[&[(0, 18), (3, 0), (6, 12), (9, 0), (12, 18)]];
const K: &[Stroke] = &[&[(0, 18), (0, 0)], &[(12, 18), (0, 9), (12, 0)]];
const O: &[Stroke] = &[&[
    (4, 0),
    (0, 4),
    (0, 14),
    (4, 18),
    (8, 18),
    (12, 14),
    (12, 4),
    (8, 0),
    (4, 0),
]];
const A: &[Stroke] = &[&[(0, 0), (6, 18), (12, 0)], &[(10, 6), (2, 6)]];
const S: &[Stroke] = &[&[
    (12, 15),
    (9, 18),
    (3, 18),
    (0, 15),
    (0, 12),
    (3, 9),
    (9, 9),
    (12, 6),
    (12, 3),
    (9, 0),
    (3, 0),
    (0, 3),
]];
const T: &[Stroke] = &[&[(0, 18), (12, 18)], &[(6, 18), (6, 0)]];

const TEXT: [&[Stroke]; 8] = [M, E, W, K, O, A, S, T];

/// Writes the text about the middle, this wide and this high, its letters in
/// these colours in turn.
pub fn text(path: &mut Path, width: f64, height: f64, colours: &[Colour]) {
    let units = PITCH * (TEXT.len() as f64 - 1.0) + WIDTH;
    let place = |left: f64, corner: &(u8, u8)| -> Place {
        let x = (left + f64::from(corner.0)) / units - 0.5;
        let y = f64::from(corner.1) / HEIGHT - 0.5;
        (x * width, y * height)
    };
    let letters = TEXT.iter().zip(colours.iter().cycle());
    for (number, (letter, &colour)) in letters.enumerate() {
        let left = PITCH * number as f64;
        for stroke in *letter {
            let corners: Vec<Place> = stroke.iter().map(|corner| place(left, corner)).collect();
            path.stroke(&corners, colour, 0);
        }
    }
}
