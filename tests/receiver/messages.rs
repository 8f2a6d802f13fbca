//! Messages made by hand for the records that a host changed.

/// Document 01, "Bench table", a.
pub const FRAME: [u8; 46] = [
    0x00, 0x2E, 0xC5, 0x02, 0, 0, 0, 0, 0x04, 0x11, 0x01, 0x02, 0x42, 0x00, 0x40, 0x10, 0x42, 0x10,
    0x40, 0x10, 0x52, 0x7E, 0x52, 0x14, 0x51, 0xCC, 0x00, 0x00, 0x10, 0x00, 0x00, 0x64, 0x80, 0, 0,
    0x01, 0, 0, 0, 0x7F, 0xFF, 0xFF, 0xFF, 0x00, 0x80, 0x00,
];

/// Void chunks that route channel 1 to mode 1, channel 2 to mode 2, channel 3
/// to mode 4 with two tags 43, channel 4 to mode 6 with a tag 42 and channel 6
/// to mode 0.
pub const ROUTINGS: [[u8; 20]; 5] = [
    routing([0xC1, 1], [0x42, 0x00, 0x42, 0x10, 0x52, 0x7E, 0x00, 0x00]),
    routing([0xC2, 2], [0x42, 0x00, 0x42, 0x10, 0x52, 0x7E, 0x00, 0x00]),
    routing([0xC3, 4], [0x43, 0x00, 0x01, 0x02, 0x43, 0x00, 0x03, 0x01]),
    routing([0xC4, 6], [0x42, 0x00, 0x05, 0x00, 0x00, 0x00, 0x00, 0x00]),
    routing([0xC6, 0], [0; 8]),
];

const fn routing(channel_mode: [u8; 2], words: [u8; 8]) -> [u8; 20] {
    let [channel, mode] = channel_mode;
    let [a, b, c, d, e, f, g, h] = words;
    [
        0, 20, channel, 0, 0, 0, 0, 0, 2, 0x01, 0, mode, a, b, c, d, e, f, g, h,
    ]
}

/// A Void chunk without data.
pub fn keep_alive(channel: usize) -> [u8; 8] {
    [0, 8, 0x80 | channel as u8, 0, 0, 0, 0, 0]
}

/// The frame above on another channel.
pub fn frame(channel: usize) -> [u8; 46] {
    let mut octets = FRAME;
    octets[2] = 0xC0 | channel as u8;
    octets
}

/// So many levels, each another number, with these match bits.
pub fn levels(channel: usize, match_bits: u8, count: usize) -> Vec<u8> {
    let mut octets = ((12 + count) as u16).to_be_bytes().to_vec();
    octets.extend([0x80 | channel as u8, 0x18, 0, 0, 0, 0]);
    octets.extend([match_bits << 4, 0, 0, 0]);
    octets.extend((0..count).map(|place| (place * 7 + 3) as u8));
    octets
}

/// The first fragment of a frame of three octets a sample: its header, with
/// match bits 0, and a sample.
pub fn first_fragment(channel: usize) -> [u8; 15] {
    let second = 0x80 | channel as u8;
    [0, 15, second, 0x03, 0, 0, 0, 9, 0, 0, 0, 0x64, 1, 2, 3]
}

/// A sequel with these octets; `last` marks it as the last.
pub fn sequel(channel: usize, timestamp: u32, last: bool, data: &[u8]) -> Vec<u8> {
    let second = 0x80 | u8::from(last) << 6 | channel as u8;
    let mut octets = ((8 + data.len()) as u16).to_be_bytes().to_vec();
    octets.extend([second, 0xC0]);
    octets.extend(timestamp.to_be_bytes());
    octets.extend(data);
    octets
}

/// Closes a channel with a Void chunk.
pub fn close(channel: usize) -> [u8; 12] {
    [0, 12, 0xC0 | channel as u8, 0, 0, 0, 0, 0, 0, 0x02, 0, 0]
}
