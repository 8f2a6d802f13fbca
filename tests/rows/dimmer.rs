//! mewkoast_mapping and mewkoast_levels against the second decoder.

use crate::calls::{self, DimmerMapping};
use crate::tally::{hexadecimal, refusal, Outcome, Tally};
use decoder::dimmer::{check, place, Map, PLACES};

/// Octets after the 1,024 places that must stay as they were.
const GUARD: usize = 64;

/// A mapping accepted by both sides.
pub struct Accepted {
    pub expected: Map,
    given: DimmerMapping,
}

/// True if accepted tags hold a 42. The decoder's answer does not tell no 42
/// from 42 with base 1, but the header does.
fn has_base(tags: &[u8]) -> bool {
    let mut rest = tags;
    while let [tag, data @ ..] = rest {
        match tag {
            0x42 => return true,
            0x43 => rest = &data[3..],
            _ => rest = &data[usize::from(*tag)..],
        }
    }
    false
}

/// The mapping as the header describes it.
fn described(map: &Map, tags: &[u8]) -> DimmerMapping {
    let mut mapping = DimmerMapping::NONE;
    match map {
        Map::Whole(base) if has_base(tags) => mapping.base = *base,
        Map::Whole(_) => {}
        Map::Subsets(subsets) => {
            mapping.count = subsets.len() as u8;
            for (place, subset) in subsets.iter().enumerate() {
                mapping.bases[place] = subset.base;
                mapping.counts[place] = subset.count as u8;
            }
        }
    }
    mapping
}

/// Offers dimmer tags to both sides; gives the mapping if both accept it and
/// describe it alike. Where they are refused the mapping is all 0.
pub fn compare_mapping(tally: &mut Tally, tags: &[u8]) -> Option<Accepted> {
    let given = calls::mapping(tags);
    let expected = check(tags);
    let number = *expected.as_ref().err().unwrap_or(&0);
    let same = match &expected {
        Ok(map) => given.number == 0 && given.dimmer == described(map, tags),
        Err(number) => u32::from(given.number) == *number && given.dimmer == DimmerMapping::NONE,
    };
    tally.case(same, || {
        let (shown, dimmer) = (hexadecimal(tags), given.dimmer);
        let answer = given.number;
        format!("mapping tags {shown}: {answer} {dimmer:?}, expected {number}")
    });
    match expected {
        Err(number) => {
            tally.outcome(refusal(number));
            None
        }
        Ok(expected) => {
            tally.outcome(Outcome::Mapping);
            let given = given.dimmer;
            same.then_some(Accepted { expected, given })
        }
    }
}

/// Puts levels to places on both sides, into a slice that is `more` longer
/// than the 1,024 places.
pub fn compare_levels(
    tally: &mut Tally,
    accepted: &Accepted,
    mode: u8,
    levels: &[u8],
    more: usize,
) {
    let mut given: Vec<u8> = (0..PLACES + more + GUARD)
        .map(|place| (place * 167 + 91) as u8)
        .collect();
    let unchanged = given.clone();
    let mut expected: [u8; PLACES] = unchanged[..PLACES].try_into().expect("1,024 places");
    let result = place(&accepted.expected, u32::from(mode), levels, &mut expected);
    let count = result.unwrap_or(0);
    let lent = &mut given[..PLACES + more];
    let returned = calls::levels(accepted.given, mode, levels, lent);
    let same =
        returned == count && given[..PLACES] == expected && given[PLACES..] == unchanged[PLACES..];
    tally.case(same, || {
        let (map, shown) = (&accepted.expected, hexadecimal(levels));
        format!("levels mode {mode} {map:?} octets {shown}: {returned}, expected {result:?}")
    });
    tally.outcome(match result {
        Err(_) => Outcome::Refused21,
        Ok(count) if count < levels.len() => Outcome::Dropped,
        Ok(_) if mode == 4 => Outcome::Placed4,
        Ok(_) => Outcome::Placed6,
    });
}
