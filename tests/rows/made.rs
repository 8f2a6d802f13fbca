//! Layouts and mappings that no check gives, made by a host itself: what
//! include/mewkoast.h says of them at mewkoast_draw and mewkoast_levels, worked
//! out by hand.

use crate::calls::{self, DimmerMapping, SampleLayout};
use crate::tally::Tally;

const BEFORE: i32 = -7;

/// A layout with these roles and no wavelengths.
fn layout(roles: &[u8], width: u8) -> SampleLayout {
    let mut layout = SampleLayout::NONE;
    layout.roles[..roles.len()].copy_from_slice(roles);
    layout.width = width;
    layout
}

/// A row with these slots set, shutter 1 unless it is among them.
fn row(slots: &[(usize, i32)]) -> [i32; 24] {
    let mut row = [0; 24];
    row[5] = 1;
    for (slot, value) in slots {
        row[*slot] = *value;
    }
    row
}

/// Draws octets into rows for two points: the rows expected first, the others
/// as they were.
fn drawn(
    tally: &mut Tally,
    what: &str,
    layout: SampleLayout,
    octets: &[u8],
    rows: &[[i32; 24]],
    lit_points: usize,
) {
    let mut expected = rows.concat();
    expected.resize(48, BEFORE);
    let mut given = [BEFORE; 48];
    let returned = calls::draw(layout, octets, &mut given);
    tally.case(given[..] == expected[..] && returned == lit_points, || {
        format!("{what}: lit {returned}, rows {given:?}")
    });
}

pub fn layouts(tally: &mut Tally) {
    let mut octets = vec![0; 64];
    octets[..2].copy_from_slice(&[0xFF, 2]);
    octets[33] = 3;
    let two = [row(&[(0, -256), (8, 512)]), row(&[(8, 768)])];
    drawn(tally, "width 200", layout(&[1, 9], 200), &octets, &two, 2);
    drawn(tally, "width 32", layout(&[1, 9], 32), &octets, &two, 2);
    drawn(tally, "width 0", layout(&[1, 9], 0), &octets, &[], 0);
    let first = [row(&[(0, 256), (8, 768)])];
    drawn(
        tally,
        "one role twice",
        layout(&[1, 1, 9], 3),
        &[1, 2, 3],
        &first,
        1,
    );
    let closed = [row(&[(5, 0), (8, 768)])];
    let both = layout(&[65, 66, 9], 3);
    drawn(tally, "66 before 65", both, &[0xC0, 0, 3], &closed, 1);
    let unlisted = layout(&[6, 38, 25, 32, 57, 64, 67, 255], 8);
    drawn(tally, "roles of no slot", unlisted, &[9; 8], &[row(&[])], 0);
    let alone = layout(&[1, 34, 42, 39, 40, 50], 6);
    let x = [row(&[(0, 256)])];
    drawn(tally, "precision alone", alone, &[1, 9, 9, 9, 9, 9], &x, 0);
    let mut coloured = layout(&[9], 1);
    coloured.waves = [1, 2, 3, 4, 5, 6, 7, 8];
    coloured.colours = 200;
    let waves: Vec<(usize, i32)> = (0..8).map(|k| (16 + k, 64 * (k as i32 + 1))).collect();
    drawn(tally, "colours 200", coloured, &[0], &[row(&waves)], 0);
}

/// A mapping with these bases and counts.
fn mapping(subsets: &[(u16, u8)], count: u8) -> DimmerMapping {
    let mut mapping = DimmerMapping::NONE;
    for (place, (base, count)) in subsets.iter().enumerate() {
        mapping.bases[place] = *base;
        mapping.counts[place] = *count;
    }
    mapping.count = count;
    mapping
}

/// Places levels by a mapping: these at the front, the others as they were.
fn placed(
    tally: &mut Tally,
    what: &str,
    mapping: DimmerMapping,
    octets: &[u8],
    front: &[u8],
    written: usize,
) {
    let mut expected = [7; 1024];
    expected[..front.len()].copy_from_slice(front);
    let mut given = [7; 1024];
    let returned = calls::levels(mapping, 4, octets, &mut given);
    tally.case(given == expected && returned == written, || {
        format!("{what}: {returned} written, {:?}", &given[..40])
    });
}

pub fn mappings(tally: &mut Tally) {
    let singles: Vec<(u16, u8)> = (1..=32).map(|base| (base, 1)).collect();
    let levels: Vec<u8> = (100..132).collect();
    placed(
        tally,
        "count 200",
        mapping(&singles, 200),
        &levels,
        &levels,
        32,
    );
    let overlap = mapping(&[(1, 2), (2, 1)], 2);
    placed(tally, "overlap", overlap, &[1, 2, 3], &[1, 3], 3);
    let mut beside = mapping(&[(1, 2)], 1);
    beside.base = 400;
    placed(tally, "a base beside", beside, &[5, 6], &[5, 6], 2);
    for (base, count) in [(0, 1), (513, 1), (600, 1), (1, 0), (500, 14), (0xFFFF, 0)] {
        let wrong = mapping(&[(1, 1), (base, count)], 2);
        let octets = vec![1; 1 + usize::from(count)];
        placed(
            tally,
            &format!("subset {base} {count}"),
            wrong,
            &octets,
            &[],
            0,
        );
    }
    for base in [513, 0xFFFE] {
        let mut wrong = DimmerMapping::NONE;
        wrong.base = base;
        placed(tally, &format!("base {base}"), wrong, &[], &[], 0);
        placed(tally, &format!("base {base}, a level"), wrong, &[1], &[], 0);
    }
}
