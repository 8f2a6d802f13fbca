//! Random samples of waves and frames.

use crate::random::Random;
use decoder::dictionary::{Layout, Part, COLOURS, WAVELENGTHS};
use decoder::message::MOST;

/// Which points of a wave or frame are lit. The first one is told apart, as
/// it never counts as lit in a frame.
#[derive(Clone, Copy)]
pub struct Lit {
    pub first: bool,
    /// How many of the points after the first.
    pub others: usize,
}

/// Samples that are dark, have few octets that are not 0, are random, or are
/// lit where it is chosen. Some are not whole.
pub fn samples(random: &mut Random, layout: &Layout) -> Vec<u8> {
    let width = layout.width();
    let mut points = random.pick(&[
        0, 0, 1, 2, 2, 3, 10, 19, 20, 20, 20, 21, 22, 25, 40, 100, 500,
    ]);
    if random.chance(1) {
        points = random.pick(&[501, 1_000, (MOST - 1_100) / width]);
    }
    let mut octets = match random.below(6) {
        0 => vec![0; points * width],
        1 => few(random, points * width),
        2 => random.octets(points * width),
        3 => {
            let only_first = Lit {
                first: true,
                others: 0,
            };
            lit_samples(random, layout, points, only_first)
        }
        choice => {
            let lit = Lit {
                first: choice == 4,
                others: random.between(1, points.max(1)),
            };
            lit_samples(random, layout, points, lit)
        }
    };
    cut(random, layout, &mut octets);
    octets
}

/// Leaves most as they are. Others get an octet over or short, or are as many as
/// there would be without the octets that are ignored.
fn cut(random: &mut Random, layout: &Layout, octets: &mut Vec<u8>) {
    let used = layout.parts.iter().filter(|part| **part != Part::Ignored);
    match random.below(50) {
        0 | 1 => octets.push(random.octet()),
        2 | 3 => {
            octets.pop();
        }
        4..=8 => octets.truncate(octets.len() / layout.width() * used.count()),
        _ => {}
    }
}

/// So many octets of which few are not 0.
fn few(random: &mut Random, count: usize) -> Vec<u8> {
    let mut octets = vec![0; count];
    for _ in 0..random.pick(&[1, 2, 7]) {
        if !octets.is_empty() {
            let place = random.below(octets.len());
            octets[place] = random.pick(&[1, 0x3F, 0x40, 0xFF]);
        }
    }
    octets
}

/// So many samples of which just these are lit, the others at random places
/// after the first.
pub fn lit_samples(random: &mut Random, layout: &Layout, points: usize, lit: Lit) -> Vec<u8> {
    let mut chosen = vec![lit.first; points];
    if let Some(after) = chosen.get_mut(1..) {
        let others = lit.others.min(after.len());
        after.fill(false);
        after[..others].fill(true);
        random.shuffle(after);
    }
    chosen
        .into_iter()
        .flat_map(|lit| sample(random, layout, lit))
        .collect()
}

/// A sample with random octets but for its colours: all of them are 0, or one
/// of them at least is not 0 whatever a hint divides it by.
fn sample(random: &mut Random, layout: &Layout, lit: bool) -> Vec<u8> {
    let colours = COLOURS..WAVELENGTHS;
    let mut octets = random.octets(layout.width());
    let keep = lit && random.chance(50);
    let mut firsts = Vec::new();
    for (place, part) in layout.parts.iter().enumerate() {
        match part {
            Part::First(slot) if colours.contains(slot) => firsts.push(place),
            Part::Precision(slot) if colours.contains(slot) => {}
            _ => continue,
        }
        if !keep {
            octets[place] = 0;
        }
    }
    if lit {
        octets[random.pick(&firsts)] = random.between(1, 255) as u8;
    }
    octets
}
