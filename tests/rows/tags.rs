//! Dimmer tags by hand: document 01, "Dimmer tags" and checks 13 and 14.

/// Several in a row stand in one line, which is shorter to read.
#[rustfmt::skip]
pub const HAND_MADE: &[&str] = &[
    // No tag, skips alone, skips to the end and past it.
    "", "00", "00 00 00", "01 FF", "01", "02 42", "03 42 00 09", "0F", "0E 43 43 43",
    "0F 00 00 00 00 00 00 00 00 00 00 00 00 00 00 00",
    // A skipped tag does not count, the one after it does.
    "03 42 00 09 42 02 00", "04 43 00 01 05 43 00 01 05", "42 00 01 03 42 00 01",
    // Unknown octets, alone, before and after a tag.
    "10", "40", "41", "44", "4F", "50", "FF", "42 00 01 10", "10 42 00 01", "43 00 01 01 41",
    // 42: cut, range, drop.
    "42", "42 00", "42 01", "42 00 00", "42 00 01", "42 01 00", "42 01 FF", "42 02 00",
    "42 02 01", "42 FF FE", "42 FF FF", "42 FF 00", "42 00 FF", "42 01 FE 00",
    // 43: cut, range, count 0, drop.
    "43", "43 00", "43 00 01", "43 00 01 00", "43 00 00 01", "43 00 01 01", "43 00 01 FF",
    "43 01 02 FF", "43 01 03 FF", "43 02 00 01", "43 02 00 02", "43 02 01 01", "43 01 FF 02",
    "43 01 FF 03", "43 FF FF 00", "43 FF FF 01", "43 FF FF FF", "43 FF FE 01",
    // Repeated 42 and mixing: check 13 comes before 14 at each tag.
    "42 00 01 42 00 01", "42 FF FF 42 FF FF", "42 00 01 42 00 00", "42 00 01 42 00",
    "42 00 01 43 00 01 01", "42 FF FF 43 FF FF 01", "42 00 01 43 00 01 00", "42 00 01 43 00 01",
    "43 00 01 01 42 00 09", "43 FF FF 01 42 FF FF", "43 00 01 01 42 02 01", "43 00 01 01 00 42 00",
    // Ranges beside each other, overlapping, equal, within each other.
    "43 00 01 02 43 00 03 01", "43 00 01 02 43 00 03 01 43 00 02 01", "43 00 03 01 43 00 01 02",
    "43 00 01 02 43 00 02 01", "43 00 02 02 43 00 01 01", "43 00 02 02 43 00 01 02",
    "43 00 05 05 43 00 05 05", "43 00 01 14 43 00 05 05", "43 00 05 05 43 00 01 14",
    "43 00 01 FF 43 01 00 FF 43 01 FF 02", "43 00 01 FF 43 00 FF 01", "43 01 FF 02 43 02 00 01",
    // Dropped ranges overlap nothing.
    "43 FF FF 09 43 FF FF 09 43 00 01 09", "43 FF FF FF 43 01 00 FF 43 FF FF FF",
    "43 00 01 01 43 FF FF 01 43 00 01 01",
    // A refusal at the first tag is not hidden by a later one.
    "43 00 01 01 43 00 01 01 44", "44 43 00 01 01 43 00 01 01",
];
