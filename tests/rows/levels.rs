//! Which dimmer tags and levels are offered.

use crate::dimmer::{compare_levels, compare_mapping, Accepted};
use crate::tags::HAND_MADE;
use crate::tally::Tally;
use decoder::dimmer::Map;
use generate::random::Random;

/// The octets of a hexadecimal text.
fn octets(text: &str) -> Vec<u8> {
    text.split_whitespace()
        .map(|pair| u8::from_str_radix(pair, 16).expect("an octet in hexadecimal"))
        .collect()
}

/// Levels that fit and that do not, in both modes.
fn place_some(tally: &mut Tally, random: &mut Random, accepted: &Accepted) {
    let fits = match &accepted.expected {
        Map::Whole(0xFFFF) => 700,
        Map::Whole(base) => 513 - usize::from(*base),
        Map::Subsets(subsets) => subsets.iter().map(|one| usize::from(one.count)).sum(),
    };
    let any = random.below(fits + 60);
    let more = random.below(3) * random.below(40);
    for count in [fits, fits + 1, fits.saturating_sub(1), 0, any] {
        let start = random.below(8);
        let levels: Vec<u8> = (0..start + count).map(|_| random.next() as u8).collect();
        for mode in [4, 6] {
            compare_levels(tally, accepted, mode, &levels[start..], more);
        }
    }
}

fn offer(tally: &mut Tally, random: &mut Random, tags: &[u8]) {
    if let Some(accepted) = compare_mapping(tally, tags) {
        place_some(tally, random, &accepted);
    }
}

/// The tags by hand, each cut at every length too, and many tags.
pub fn hand_made(tally: &mut Tally) {
    let mut random = Random::new(0x8EBC_6AF0_9C88_C6E3);
    let mut all: Vec<Vec<u8>> = HAND_MADE.iter().map(|text| octets(text)).collect();
    let dropped = octets("43 FF FF 05");
    let mapped = |count: u8| (0..count).flat_map(|one| [0x43, 0, 1 + one * 2, 2]);
    for count in [31, 32, 33, 34] {
        all.push(dropped.repeat(count.into()));
        all.push(mapped(count).collect());
        all.push([vec![0; 50], mapped(count).collect(), vec![0; 300]].concat());
        // Before the 33rd, check 13 at that tag.
        all.push(mapped(count).chain([0x43, 0, 0, 1]).collect());
        all.push(mapped(count).chain([0x42, 0, 1]).collect());
        all.push(mapped(count).chain([0x43, 2, 0, 1]).collect());
    }
    all.push(vec![0; 1020]);
    all.push(
        [0x0F]
            .iter()
            .chain(&[0xFF; 15])
            .copied()
            .cycle()
            .take(1020)
            .collect(),
    );
    for tags in all {
        for length in 0..=tags.len() {
            offer(tally, &mut random, &tags[..length]);
        }
    }
}

/// Every base of 42, every base of 43 with some counts (the whole: with every
/// count), every string of two octets (the whole: of three), and every pair
/// of short ranges near both ends.
pub fn ranges(tally: &mut Tally, whole: bool) {
    let mut random = Random::new(0x5896_05F6_8F4B_10A1);
    for base in 0..=u16::MAX {
        let [high, low] = base.to_be_bytes();
        offer(tally, &mut random, &[0x42, high, low]);
        compare_mapping(tally, &[high, low]);
        for count in 0..=u8::MAX {
            if whole || [0, 1, 2, 254, 255].contains(&count) {
                compare_mapping(tally, &[0x43, high, low, count]);
                compare_mapping(tally, &[high, low, count]);
            }
        }
    }
    for base in 1..=512u16 {
        let [high, low] = base.to_be_bytes();
        for count in 1..=u8::MAX {
            if whole || usize::from(count) % 16 == usize::from(base) % 16 {
                offer(tally, &mut random, &[0x43, high, low, count]);
            }
        }
    }
    pairs(tally, &mut random);
}

fn pairs(tally: &mut Tally, random: &mut Random) {
    for start in [0x0000u16, 0x00FC, 0x01F8] {
        for number in 0..8 * 4 * 8 * 4u16 {
            let mut tags = Vec::new();
            for part in [number % 32, number / 32] {
                let base = start + 1 + part % 8;
                tags.push(0x43);
                tags.extend(base.to_be_bytes());
                tags.push(1 + (part / 8) as u8);
            }
            offer(tally, random, &tags);
        }
    }
}

/// Random tags: mostly ranges that do not overlap, in a random order, with
/// skips between them and in some cases a change.
pub fn random_tags(tally: &mut Tally, count: usize) {
    let mut random = Random::new(0x1D8E_4E27_C47D_124F);
    for _ in 0..count {
        let mut groups = match random.below(4) {
            0 => vec![base(&mut random)],
            _ => subsets(&mut random),
        };
        for _ in 0..[0, 0, 1, 3, 10][random.below(5)] {
            let skipped = random.below(16);
            let mut group = vec![skipped as u8];
            group.extend((0..skipped).map(|_| random.next() as u8));
            groups.insert(random.below(groups.len() + 1), group);
        }
        if random.below(6) == 0 {
            let extra = match random.below(2) {
                0 => base(&mut random),
                _ => subset(&mut random, 1, 512),
            };
            groups.insert(random.below(groups.len() + 1), extra);
        }
        let mut tags = groups.concat();
        if random.below(5) == 0 && !tags.is_empty() {
            let place = random.below(tags.len());
            match random.below(2) {
                0 => tags[place] = random.next() as u8,
                _ => tags.truncate(place),
            }
        }
        offer(tally, &mut random, &tags);
    }
}

fn base(random: &mut Random) -> Vec<u8> {
    let base = match random.below(8) {
        0 => 0xFFFF,
        1 => random.next() as u16,
        _ => 1 + random.below(512) as u16,
    };
    let [high, low] = base.to_be_bytes();
    vec![0x42, high, low]
}

/// One 43 within the levels `low` to `high`, or a dropped one.
fn subset(random: &mut Random, low: usize, high: usize) -> Vec<u8> {
    let start = low + random.below(high - low + 1);
    let most = (high - start + 1).min(255);
    let count = 1 + random.below(most);
    let [first, second] = match random.below(8) {
        0 => [0xFF, 0xFF],
        _ => (start as u16).to_be_bytes(),
    };
    vec![0x43, first, second, count as u8]
}

/// Up to 36 of 43: 512 levels in equal stretches, one range in each.
fn subsets(random: &mut Random) -> Vec<Vec<u8>> {
    let count = [1, 2, 3, 5, 8, 16, 30, 31, 32, 32, 33, 36][random.below(12)];
    let stretch = 512 / count;
    let mut groups: Vec<Vec<u8>> = (0..count)
        .map(|one| subset(random, one * stretch + 1, (one + 1) * stretch))
        .collect();
    for last in (1..groups.len()).rev() {
        groups.swap(last, random.below(last + 1));
    }
    groups
}
