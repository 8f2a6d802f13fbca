//! Random configuration words for a routing: dictionaries and dimmer tags,
//! most of them accepted, the others for each of the numbers 8 to 14.

use crate::random::Random;
use crate::unknown;
use decoder::dictionary;

/// The octets of configuration words for a mode; their count is a multiple
/// of 4 and at most 1,020.
pub fn words(random: &mut Random, mode: u8) -> Vec<u8> {
    match mode {
        1 | 2 => dictionary(random, mode),
        4 | 6 => dimmer(random),
        _ => {
            let count = random.pick(&[0, 0, 1, 2, 9]);
            random.octets(4 * count)
        }
    }
}

/// The same, with few dictionaries that are refused among them.
pub fn accepted_words(random: &mut Random, mode: u8) -> Vec<u8> {
    let mut choices = (0..4).map(|_| words(random, mode));
    let accepted = |words: &Vec<u8>| match mode {
        1 | 2 => dictionary::check(u32::from(mode), words).is_ok(),
        _ => true,
    };
    choices.find(accepted).unwrap_or_default()
}

/// A dictionary as a list of groups of tags that stay together.
fn dictionary(random: &mut Random, mode: u8) -> Vec<u8> {
    let mut groups = signals(random, mode);
    if random.chance(25) {
        spoil(random, &mut groups);
    }
    if random.chance(2) {
        let octets = random.pick(&[31, 32, 32, 33, 33]);
        unknown::fill(random, &mut groups, octets);
    }
    random.shuffle(&mut groups);
    if groups.concat().len() % 2 == 1 {
        let place = random.between(0, groups.len());
        groups.insert(place, vec![random.pick(&[0x0000, 0x0000, 0x0000, 0x4000])]);
    }
    if random.chance(4) {
        groups.push(last(random));
    } else if random.chance(2) {
        let identifier = random.pick(&[0x0000, 0x00F0]);
        stretch(&mut groups, 510, identifier | 0xF, identifier);
    }
    let mut tags = groups.concat();
    if random.chance(4) {
        let place = random.below(tags.len());
        tags[place] ^= 1 << random.below(16);
    }
    if tags.len() % 2 == 1 {
        tags.insert(0, 0x0000);
    }
    tags.truncate(510);
    tags.iter().flat_map(|tag| tag.to_be_bytes()).collect()
}

/// A Void or an unknown tag whose words end with the dictionary, or one word
/// after it.
fn last(random: &mut Random) -> Vec<u16> {
    let skipped = random.between(1, 15);
    let there = skipped - random.below(2);
    let mut group = unknown::skipping(random, skipped, there);
    if random.chance(50) {
        group[0] &= 0x000F;
    }
    group
}

fn signals(random: &mut Random, mode: u8) -> Vec<Vec<u16>> {
    let mut groups = vec![precise(random, 0x4200), precise(random, 0x4210)];
    for tag in [0x4220, 0x4201, 0x4211, 0x5C10, 0x5C20] {
        if random.chance(20) {
            groups.push(precise(random, tag));
        }
    }
    let colours = random.pick(&[1, 1, 1, 2, 3, 3, 4, 7, 8]);
    for _ in 0..colours {
        groups.push(colour(random));
    }
    if random.chance(40) {
        let format = u16::from(mode == 1 && random.chance(50));
        groups.push(vec![0x4100 | format]);
    }
    if random.chance(30) {
        groups.push(vec![space(random)]);
    }
    for _ in 0..random.pick(&[0, 0, 0, 1, 2]) {
        groups.push(vec![0x4000]);
    }
    if random.chance(25) {
        let skipped = random.pick(&[0, 1, 2, 5, 15]);
        let mut group = vec![skipped];
        group.extend((0..skipped).map(|_| random.next() as u16));
        groups.push(group);
    }
    if random.chance(20) {
        for _ in 0..random.pick(&[1, 1, 2, 3]) {
            groups.push(unknown::group(random));
        }
    }
    groups
}

fn precise(random: &mut Random, tag: u16) -> Vec<u16> {
    if random.chance(35) {
        vec![tag, 0x4010]
    } else {
        vec![tag]
    }
}

fn colour(random: &mut Random) -> Vec<u16> {
    if random.chance(25) {
        [precise(random, 0x5C00), precise(random, 0x5000)].concat()
    } else {
        let wavelength = random.pick(&[0x27E, 0x214, 0x1CC, 0x001, 0x3FF]);
        precise(random, 0x5000 | wavelength)
    }
}

/// A space modifier without reserved values.
fn space(random: &mut Random) -> u16 {
    let field = [0, 1, 3];
    let glin = random.pick(&field) << 6;
    let clin = random.pick(&[0, 1, 2, 3]) << 4;
    let cbal = random.pick(&field) << 2;
    0x1100 | glin | clin | cbal | random.pick(&field)
}

/// Adds or takes away what one of the numbers 8 to 12 forbids.
fn spoil(random: &mut Random, groups: &mut Vec<Vec<u16>>) {
    let new = match random.below(14) {
        0 => vec![random.pick(&[0x3000, 0x0100, 0x1200, 0x4300, 0x5400, 0x5D00, 0xC000])],
        1 => vec![random.pick(&[0x1000, 0x1001, 0x100F, 0x4102, 0x4102, 0x410F])],
        2 => vec![random.pick(&[0x4101, 0x4101, 0x1180, 0x1108, 0x1102, 0x11AA])],
        3 => vec![random.pick(&[0x4010, 0x5000, 0x5C00])],
        4 => vec![
            0x5C00,
            random.pick(&[0x0000, 0x4000, 0x527E, 0x1000, 0x3000]),
        ],
        5 => vec![random.pick(&[0x4000, 0x4200]), 0x4010, 0x4010],
        6 | 7 => vec![random.pick(&[0x4200, 0x4210, 0x5C10, 0x4100, 0x1155])],
        8 => vec![0x527E; 9],
        9 => vec![0x4000; random.between(20, 33)],
        10 | 11 => unknown::misplaced(random),
        _ => return incomplete(random, groups),
    };
    groups.push(new);
}

/// Takes X, Y or every colour away. An unknown tag of the same category is none
/// of them.
fn incomplete(random: &mut Random, groups: &mut Vec<Vec<u16>>) {
    let (gone, other) = random.pick(&[(0x4200, 0x4202), (0x4210, 0x4212), (0x5000, 0x5C01)]);
    let category = if gone == 0x5000 { 0xF000 } else { 0xFFFF };
    groups.retain(|group| group[0] & category != gone);
    if random.chance(40) {
        groups.push(precise(random, other));
    }
}

/// Fills groups up with tags that skip until there are `most` words or octets.
fn stretch<T: Clone>(groups: &mut Vec<Vec<T>>, most: usize, skips_15: T, skips_none: T) {
    let mut length: usize = groups.iter().map(Vec::len).sum();
    while length < most {
        let mut group = vec![skips_none.clone()];
        if length + 16 <= most {
            group = vec![skips_15.clone(); 16];
        }
        length += group.len();
        groups.push(group);
    }
}

/// Dimmer tags, filled up with Void tags to whole words.
fn dimmer(random: &mut Random) -> Vec<u8> {
    let mut groups = match random.below(10) {
        0 | 1 => Vec::new(),
        2 | 3 => vec![whole(random)],
        4 => vec![vec![0x43, 0xFF, 0xFF, random.pick(&[1, 3])]; random.pick(&[31, 32, 33])],
        _ => subsets(random),
    };
    if random.chance(25) {
        spoil_dimmer(random, &mut groups);
    }
    if random.chance(20) {
        let skipped = random.pick(&[0, 1, 2, 15]);
        groups.push([vec![skipped], random.octets(usize::from(skipped))].concat());
    }
    if random.chance(50) {
        random.shuffle(&mut groups);
    }
    if random.chance(2) {
        stretch(&mut groups, 1_020, 0x0F, 0x00);
    }
    let mut tags = groups.concat();
    if random.chance(3) && !tags.is_empty() {
        tags.pop();
    }
    while tags.len() % 4 != 0 {
        let place = if random.chance(50) { 0 } else { tags.len() };
        tags.insert(place, 0x00);
    }
    tags
}

fn whole(random: &mut Random) -> Vec<u8> {
    let [high, low] = base(random).to_be_bytes();
    vec![0x42, high, low]
}

fn base(random: &mut Random) -> u16 {
    match random.below(6) {
        0 => 0xFFFF,
        1 => random.pick(&[1, 2, 510, 511, 512]),
        _ => random.between(1, 512) as u16,
    }
}

/// Tags 43 with disjoint ranges that rise, some of them dropped.
fn subsets(random: &mut Random) -> Vec<Vec<u8>> {
    let mut groups = Vec::new();
    let mut next = random.pick(&[1, 1, 2, 100]);
    for _ in 0..random.pick(&[1, 2, 3, 5, 20]) {
        let count = random.pick(&[1, 1, 2, 3, 12, 40, 255]);
        let mut mapped = next;
        if random.chance(15) {
            mapped = 0xFFFF;
        } else if next + u16::from(count) > 513 {
            break;
        } else {
            next += u16::from(count) + random.pick(&[0, 0, 1, 30]);
        }
        let [high, low] = mapped.to_be_bytes();
        groups.push(vec![0x43, high, low, count]);
    }
    groups
}

/// Adds what one of the numbers 13 and 14 forbids.
fn spoil_dimmer(random: &mut Random, groups: &mut Vec<Vec<u8>>) {
    let new = match random.below(8) {
        0 => vec![random.pick(&[0x10, 0x41, 0x44, 0x40, 0xC0, 0xFF])],
        1 => vec![0x42, 0x00, 0x00],
        2 => vec![0x42, 0x02, 0x01],
        3 => vec![0x43, 0x00, 0x01, 0x00],
        4 => vec![0x43, 0x02, 0x00, 0x02],
        5 => vec![random.pick(&[0x01, 0x0F, 0x42, 0x43])],
        6 => whole(random),
        _ => {
            let again = groups.first().cloned();
            again.unwrap_or_else(|| vec![0x43, 0x00, 0x01, 0x02])
        }
    };
    groups.push(new);
}
