//! Dimmer levels: document 01, "Dimmer tags, modes 4 and 6" and checks 13,
//! 14 and 21.

/// Document 01, "Dimmer tags": the base that drops its octets.
const DROP: u16 = 0xFFFF;

/// The places of both modes together.
pub const PLACES: usize = 1024;

/// One tag 43.
#[derive(Clone, Copy, Debug, PartialEq, Eq)]
pub struct Subset {
    pub base: u16,
    pub count: u16,
}

/// What the dimmer tags say.
#[derive(Clone, Debug, PartialEq, Eq)]
pub enum Map {
    /// No tag 43: all levels from this base on.
    Whole(u16),
    /// The tags 43 in order; there is at least one.
    Subsets(Vec<Subset>),
}

/// Checks 13 and 14: at each tag 13, then 14, then the next tag.
pub fn check(tags: &[u8]) -> Result<Map, u32> {
    let mut base = None;
    let mut subsets: Vec<Subset> = Vec::new();
    let mut rest = tags;
    while let [tag, data @ ..] = rest {
        rest = match (*tag, data) {
            (0x00..=0x0F, _) => data.get(usize::from(*tag)..).ok_or(13u32)?,
            (0x42, [high, low, after @ ..]) => {
                let new = whole(*high, *low).ok_or(13u32)?;
                if base.is_some() || !subsets.is_empty() {
                    return Err(14);
                }
                base = Some(new);
                after
            }
            (0x43, [high, low, count, after @ ..]) => {
                let new = subset(*high, *low, *count).ok_or(13u32)?;
                if base.is_some() || subsets.len() == 32 || overlaps(&subsets, new) {
                    return Err(14);
                }
                subsets.push(new);
                after
            }
            _ => return Err(13),
        };
    }
    if subsets.is_empty() {
        Ok(Map::Whole(base.unwrap_or(1)))
    } else {
        Ok(Map::Subsets(subsets))
    }
}

/// The base of a tag 42, if it is in range.
fn whole(high: u8, low: u8) -> Option<u16> {
    let base = u16::from_be_bytes([high, low]);
    ((1..=512).contains(&base) || base == DROP).then_some(base)
}

/// The base and count of a tag 43, if they are in range.
fn subset(high: u8, low: u8, count: u8) -> Option<Subset> {
    let base = whole(high, low)?;
    let count = u16::from(count);
    let fits = base == DROP || base + count <= 513;
    (count >= 1 && fits).then_some(Subset { base, count })
}

/// True if the new range shares a level with an earlier one.
fn overlaps(subsets: &[Subset], new: Subset) -> bool {
    let mapped = |subset: &Subset| subset.base != DROP;
    mapped(&new)
        && subsets
            .iter()
            .filter(|old| mapped(old))
            .any(|old| old.base < new.base + new.count && new.base < old.base + old.count)
}

/// Check 21, then the levels to their places in mode 4 or 6. Gives the count
/// of levels written.
pub fn place(map: &Map, mode: u32, levels: &[u8], places: &mut [u8; PLACES]) -> Result<usize, u32> {
    match map {
        Map::Whole(base) => {
            if *base != DROP && usize::from(*base) + levels.len() > 513 {
                return Err(21);
            }
            Ok(copy(mode, *base, levels, places))
        }
        Map::Subsets(subsets) => {
            let sum: usize = subsets.iter().map(|subset| usize::from(subset.count)).sum();
            if levels.len() != sum {
                return Err(21);
            }
            let mut written = 0;
            let mut rest = levels;
            for subset in subsets {
                let (part, after) = rest.split_at(usize::from(subset.count));
                written += copy(mode, subset.base, part, places);
                rest = after;
            }
            Ok(written)
        }
    }
}

/// Level number b is place b - 1 in mode 4 and place 511 + b in mode 6.
fn copy(mode: u32, base: u16, levels: &[u8], places: &mut [u8; PLACES]) -> usize {
    if base == DROP {
        return 0;
    }
    let start = if mode == 4 {
        usize::from(base) - 1
    } else {
        511 + usize::from(base)
    };
    places[start..start + levels.len()].copy_from_slice(levels);
    levels.len()
}
