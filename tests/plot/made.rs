//! Makes messages by hand, from source document 003, and helps to say what is
//! expected of a stream of them.

use crate::field;
use crate::program::{Plot, Stream};
use crate::tally::same;

pub const VOID: u8 = 0x00;
pub const WAVE: u8 = 0x01;
pub const FRAME: u8 = 0x02;
pub const FIRST: u8 = 0x03;
pub const SEQUEL: u8 = 0xC0;

/// X and Y of one octet, and red.
pub const SMALL: &[u16] = &[0x4200, 0x4210, 0x527E];

/// The tags of 003, 3.4.11: X, Y with precision, and three colours.
pub const USUAL: &[u16] = &[0x4200, 0x4010, 0x4210, 0x4010, 0x527E, 0x5214, 0x51CC];

/// A message of these octets after the header.
fn message(cclf: bool, channel: u8, kind: u8, timestamp: u32, octets: &[u8]) -> Vec<u8> {
    let size = u16::try_from(8 + octets.len()).unwrap();
    let mut message = size.to_be_bytes().to_vec();
    message.extend([0x80 | u8::from(cclf) << 6 | channel, kind]);
    message.extend(timestamp.to_be_bytes());
    message.extend(octets);
    message
}

/// A message without configuration.
pub fn plain(channel: u8, kind: u8, timestamp: u32, data: &[u8]) -> Vec<u8> {
    message(false, channel, kind, timestamp, data)
}

/// The last sequel of a frame in fragments.
pub fn last(channel: u8, timestamp: u32, data: &[u8]) -> Vec<u8> {
    message(true, channel, SEQUEL, timestamp, data)
}

/// A message that routes its channel to a mode.
pub fn routed(
    channel: u8,
    kind: u8,
    timestamp: u32,
    mode: u8,
    tags: &[u16],
    data: &[u8],
) -> Vec<u8> {
    let words = tags.len().div_ceil(2);
    let mut octets = vec![u8::try_from(words).unwrap(), 0x01, 0x00, mode];
    octets.extend(tags.iter().flat_map(|tag| tag.to_be_bytes()));
    octets.resize(4 + 4 * words, 0);
    octets.extend(data);
    message(true, channel, kind, timestamp, &octets)
}

/// A routing to frames, or to waves, with nothing to draw.
pub fn frames(channel: u8, tags: &[u16]) -> Vec<u8> {
    routed(channel, VOID, 0, 2, tags, &[])
}

pub fn waves(channel: u8, tags: &[u16]) -> Vec<u8> {
    routed(channel, VOID, 0, 1, tags, &[])
}

/// The chunk header with a duration of 100 microseconds, and samples.
pub fn chunk(samples: &[u8]) -> Vec<u8> {
    [&[0, 0, 0, 100], samples].concat()
}

/// So many samples of X, Y and red that differ from one another, some dark.
pub fn small(count: usize, salt: usize) -> Vec<u8> {
    let sample = |number: usize| {
        let red = if number % 3 == 2 {
            0
        } else {
            255 - number % 90
        };
        [number * 7 + salt, number * 11 + salt * 5, red].map(|value| value as u8)
    };
    (0..count).flat_map(sample).collect()
}

/// What is expected of the channel's sheet by hand: the lines of each field.
pub fn cells(plot: &mut Plot, stream: &Stream, channel: u8, lines: &[usize]) {
    let sheet = field::sheet(&stream.told, channel);
    let told: Vec<usize> = sheet.iter().map(|one| one.field.lines.len()).collect();
    let name = format!("{}, cells of channel {channel} by hand", stream.name);
    plot.tally
        .case(&name, same("lines:", &lines.to_vec(), &told));
}

/// The numbers of all messages by hand.
pub fn numbers(plot: &mut Plot, stream: &Stream, expected: &[u32]) {
    let messages = &stream.told.messages;
    let told: Vec<u32> = messages.iter().map(|one| one.reply.number).collect();
    let name = format!("{}, numbers by hand", stream.name);
    plot.tally.case(&name, same("", &expected.to_vec(), &told));
}
