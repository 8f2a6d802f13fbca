//! The octets of a channel message, in the order of document 003: header (2.1),
//! configuration (2.2 and 3.4), data chunk (5.1 and 5.2).

use crate::shapes::Sample;

/// The tags of 003, 3.4.4 to 3.4.8, that the show uses.
pub const PRECISION: u16 = 0x4010;
pub const HINT: u16 = 0x4100;
pub const X: u16 = 0x4200;
pub const Y: u16 = 0x4210;
pub const RED: u16 = 0x527E;
pub const GREEN: u16 = 0x5214;
pub const BLUE: u16 = 0x51CC;

/// Space modifiers (3.4.4). Both say: aspect ratio 1:1, white balanced,
/// correlated in time. The colours are visually linear in the first, and
/// linear in power in the second.
pub const VISUAL: u16 = 0x1165;
pub const POWER: u16 = 0x1155;

/// Fills a tag array to a 32-bit boundary (3.4.2).
const VOID_TAG: u16 = 0x0000;

/// Every message of the show is on this channel.
const CHANNEL: u8 = 1;

/// Bit 0 of CNL is always 1; bit 1, CCLF, says that a configuration follows.
const CHANNEL_MESSAGE: u8 = 0x80;
const CCLF: u8 = 0x40;

/// The flags of CFL (2.2).
const CLOSE: u8 = 0x02;
const ROUTING: u8 = 0x01;

const LASER: u8 = 1;

/// Service modes (2.2). The chunk types of waves and frames (2.1) happen to
/// have the same numbers: 0x01 goes with mode 1, 0x02 with mode 2.
pub const WAVES: u8 = 0x01;
pub const FRAMES: u8 = 0x02;
const VOID_CHUNK: u8 = 0x00;

/// What a routing tells the projector, and the chunks after it follow.
pub struct Setting {
    pub mode: u8,
    /// The match bits, 0 to 3: SDM in the routing, SCM in each chunk.
    pub matching: u8,
    pub tags: &'static [u16],
}

/// A message with samples. With `routed` it carries the configuration too.
pub fn samples(
    setting: &Setting,
    routed: bool,
    time: u32,
    duration: u32,
    samples: &[Sample],
) -> Vec<u8> {
    let configuration = if routed { routing(setting) } else { Vec::new() };
    let data = chunk(setting, duration, samples);
    message(setting.mode, time, &configuration, &data)
}

/// A message without a data section that closes the channel. Without Routing,
/// 2.2 wants the other fields of the configuration header to be 0.
pub fn close(time: u32) -> Vec<u8> {
    message(VOID_CHUNK, time, &[0, CLOSE, 0, 0], &[])
}

/// 2.1: Total Size, CNL, chunk type, timestamp; then what is handed over.
fn message(chunk_type: u8, time: u32, configuration: &[u8], data: &[u8]) -> Vec<u8> {
    let size = 8 + configuration.len() + data.len();
    let size = u16::try_from(size).expect("a message of the show is short");
    let cclf = if configuration.is_empty() { 0 } else { CCLF };
    let mut octets = size.to_be_bytes().to_vec();
    octets.push(CHANNEL_MESSAGE | cclf | CHANNEL);
    octets.push(chunk_type);
    octets.extend(time.to_be_bytes());
    octets.extend(configuration);
    octets.extend(data);
    octets
}

/// 2.2: SCWC, CFL, service, mode; then two tags in each configuration word.
fn routing(setting: &Setting) -> Vec<u8> {
    let mut tags = setting.tags.to_vec();
    if tags.len() % 2 == 1 {
        tags.push(VOID_TAG);
    }
    let words = u8::try_from(tags.len() / 2).expect("a dictionary of the show is short");
    let flags = setting.matching << 4 | ROUTING;
    let mut octets = vec![words, flags, LASER, setting.mode];
    octets.extend(tags.iter().flat_map(|tag| tag.to_be_bytes()));
    octets
}

/// 5.1 and 5.2: the flags with SCM, the duration in 24 bits, the samples.
fn chunk(setting: &Setting, duration: u32, samples: &[Sample]) -> Vec<u8> {
    let mut octets = (duration & 0x00FF_FFFF).to_be_bytes().to_vec();
    octets[0] = setting.matching << 4;
    for sample in samples {
        put_sample(&mut octets, setting.tags, sample);
    }
    octets
}

/// 3.4.1: the octets of a sample stand in the order of the tags that describe
/// them. Values are left aligned in 16 bits; a precision tag takes the lower
/// half of the value before it (3.4.5). Other tags have no octet.
fn put_sample(octets: &mut Vec<u8>, tags: &[u16], sample: &Sample) {
    let mut lower = 0;
    for &tag in tags {
        let value = match tag {
            X => sample.x.to_be_bytes(),
            Y => sample.y.to_be_bytes(),
            RED => [sample.colour[0], 0],
            GREEN => [sample.colour[1], 0],
            BLUE => [sample.colour[2], 0],
            // The colour scale is in bits 0 and 1 of the hint (3.4.6).
            HINT => [sample.scale << 6, 0],
            PRECISION => [lower, 0],
            _ => continue,
        };
        octets.push(value[0]);
        lower = value[1];
    }
}
