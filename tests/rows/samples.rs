//! Which dictionaries and samples are drawn.

use crate::graphic::{compare_draw, compare_layout, Accepted, Room};
use crate::tally::Tally;
use decoder::dictionary::{Layout, Part};
use generate::random::Random;

/// Octets at the ends of ranges and around the divisions by 4, 16 and 64.
const EDGES: [u8; 16] = [
    0x00, 0x01, 0x02, 0x03, 0x04, 0x0F, 0x10, 0x3F, 0x40, 0x41, 0x7F, 0x80, 0x81, 0xC0, 0xFE, 0xFF,
];

/// The longest chunk of random samples.
const MOST_POINTS: usize = 320;

/// Random octets of one kind for the whole chunk.
fn octets(random: &mut Random, layout: &Layout, points: usize) -> Vec<u8> {
    let kind = random.below(5);
    let is_hint = |place: usize| matches!(layout.parts[place], Part::Hint(_));
    (0..points * layout.width())
        .map(|place| match kind {
            0 => random.next() as u8,
            1 => EDGES[random.below(EDGES.len())],
            // Mostly 0, so that points come lit and dark.
            2 => match random.below(12) {
                0 => EDGES[random.below(EDGES.len())],
                _ => 0,
            },
            // Small values under large scales: dark after the division.
            3 => match is_hint(place % layout.width()) {
                true => 0xC0 | random.next() as u8,
                false => random.below(2) as u8 * random.below(80) as u8,
            },
            // Only hints differ from 0, so that every point is dark.
            _ => match is_hint(place % layout.width()) {
                true => random.next() as u8,
                false => 0,
            },
        })
        .collect()
}

/// Draws random chunks: with rows exactly enough, longer and one short, and
/// in some cases with a sample cut at the end.
fn draw_random(tally: &mut Tally, random: &mut Random, accepted: &Accepted) {
    let most = [1, 3, 20, 40, 100, MOST_POINTS][random.below(6)];
    let points = random.below(most + 1);
    let mut octets = octets(random, &accepted.expected, points);
    if random.below(4) == 0 {
        let cut = random.below(accepted.expected.width());
        octets.extend((0..cut).map(|_| random.next() as u8));
    }
    let more = 1 + random.below(60);
    let offset = random.below(8);
    // A start within the octets puts the samples at any address.
    let start = random.below(8);
    let shifted = [&vec![0xA5; start][..], &octets].concat();
    for room in [Room::Exact, Room::Longer(more), Room::OneShort] {
        compare_draw(tally, accepted, &shifted[start..], room, offset);
    }
}

/// Every value of every octet in turn, the other octets at random.
fn draw_each_value(tally: &mut Tally, random: &mut Random, accepted: &Accepted) {
    let width = accepted.expected.width();
    for place in 0..width {
        let mut octets: Vec<u8> = (0..256 * width).map(|_| random.next() as u8).collect();
        for (value, sample) in octets.chunks_exact_mut(width).enumerate() {
            sample[place] = value as u8;
        }
        compare_draw(tally, accepted, &octets, Room::Exact, 0);
    }
}

/// Hand-made dictionaries: all of them offered in both modes, every octet
/// drawn with every value, and every number of points up to some hundred.
pub fn hand_made(tally: &mut Tally, dictionaries: &[Vec<u8>], whole: bool) {
    let mut random = Random::new(0xA076_1D64_78BD_642F);
    let most = if whole { 600 } else { 130 };
    for tags in dictionaries {
        for mode in [1, 2] {
            let Some(accepted) = compare_layout(tally, mode, tags) else {
                continue;
            };
            draw_each_value(tally, &mut random, &accepted);
            for points in 0..=most {
                let octets = octets(&mut random, &accepted.expected, points);
                for room in [Room::Exact, Room::OneShort, Room::Longer(points + 1)] {
                    compare_draw(tally, &accepted, &octets, room, points % 4);
                }
            }
        }
    }
}

/// Every hint octet with every first octet, and with every precision octet
/// after three first octets.
pub fn hints(tally: &mut Tally, dictionaries: &[Vec<u8>]) {
    for tags in dictionaries {
        let Some(accepted) = compare_layout(tally, 1, tags) else {
            panic!("a dictionary with a hint is refused");
        };
        let parts = &accepted.expected.parts;
        let hint = parts.iter().position(|part| matches!(part, Part::Hint(_)));
        let hint = hint.expect("a hint");
        for first in [None, Some(0), Some(1), Some(0xFF)] {
            let mut octets = Vec::new();
            for pair in 0..=u16::MAX {
                let [value, other] = pair.to_be_bytes();
                octets.extend(parts.iter().enumerate().map(|(place, part)| match part {
                    _ if place == hint => value,
                    Part::First(_) => first.unwrap_or(other),
                    _ => other,
                }));
            }
            compare_draw(tally, &accepted, &octets, Room::Exact, 0);
        }
    }
}

/// Random dictionaries; the accepted ones are drawn.
pub fn random_dictionaries(tally: &mut Tally, count: usize) {
    let mut random = Random::new(0xE703_7ED1_A0B4_28DB);
    for _ in 0..count {
        let words = random.dictionary();
        let tags: Vec<u8> = words.into_iter().flat_map(u16::to_be_bytes).collect();
        for mode in [1, 2] {
            if let Some(accepted) = compare_layout(tally, mode, &tags) {
                draw_random(tally, &mut random, &accepted);
            }
        }
    }
}
