//! The messages that are measured. Each has the messages before it that open
//! its channel; it has no configuration itself, except in the routing cases. A
//! frame in fragments is measured whole, from its first to its last.

pub const VOID: u8 = 0x00;
const WAVE: u8 = 0x01;
pub const FRAME: u8 = 0x02;
const FIRST: u8 = 0x03;
const LEVELS: u8 = 0x18;
const SEQUEL: u8 = 0xC0;

/// The fragments of a frame that is split.
const FRAGMENTS: usize = 4;

pub struct Case {
    pub name: String,
    /// The part of the picture that it stands in, with times of one size.
    pub panel: &'static str,
    /// Offered once, in order, before the measurement.
    pub opening: Vec<Vec<u8>>,
    /// What is measured: one message, or the fragments of a frame in order.
    pub messages: Vec<Vec<u8>>,
    /// The number of the last reply that is expected.
    pub number: u32,
}

/// The name of a layout, its tags in mode 1, and the octets of a sample.
pub type Layout = (&'static str, &'static [u16], usize);

pub const LAYOUTS: [Layout; 3] = [
    // IDN-Stream, 3.4.11: X and Y with precision, three colours.
    (
        "sparse",
        &[0x4200, 0x4010, 0x4210, 0x4010, 0x527E, 0x5214, 0x51CC],
        7,
    ),
    // 3.4.10 without the second X: hint, intensity, six colours, X and Y.
    (
        "usual",
        &[
            0x4101, 0x5C10, 0x527E, 0x5214, 0x51CC, 0x51BD, 0x5241, 0x51E8, 0x4200, 0x4010, 0x4210,
            0x4010,
        ],
        12,
    ),
    // Every signal, eight colours, four of them with a precise prefix.
    (
        "full",
        &[
            0x4101, 0x4200, 0x4010, 0x4210, 0x4010, 0x4220, 0x4010, 0x4201, 0x4010, 0x4211, 0x4010,
            0x5C10, 0x4010, 0x5C20, 0x527E, 0x4010, 0x5214, 0x4010, 0x51CC, 0x51BD, 0x5C00, 0x4010,
            0x5000, 0x5C00, 0x4010, 0x5000, 0x5C00, 0x4010, 0x5000, 0x5C00, 0x4010, 0x5000,
        ],
        32,
    ),
];

/// Every case, in the order of the table.
pub fn all() -> Vec<Case> {
    let mut cases = Vec::new();
    let mut add = |panel, list: Vec<Case>| {
        cases.extend(list.into_iter().map(|case| Case { panel, ..case }));
    };
    let layouts = |kind, points| LAYOUTS.map(|layout| samples(kind, points, layout)).into();
    add("waves of 20 points", layouts(WAVE, 20));
    add("waves of 100 points", layouts(WAVE, 100));
    add("frames of 2 points", layouts(FRAME, 2));
    add("frames of 480 points", layouts(FRAME, 480));
    let split = LAYOUTS.map(|layout| split(samples(FRAME, 480, layout)));
    add("frames of 480 points in 4 fragments", split.into());
    let dimmers = [
        levels("levels, 512 from base 1", &[]),
        levels("levels, 512 in 32 ranges", &ranges()),
    ];
    add("dimmer levels", dimmers.into());
    add("keep-alive and refusal", vec![keep_alive(), refused()]);
    let routings = [route(LAYOUTS[0]), route(LAYOUTS[2]), route_levels()];
    add("routings", routings.into());
    let wave = || samples(WAVE, 100, LAYOUTS[0]);
    add(
        "wave of 100 points, sparse, among open channels",
        among("wave", &wave),
    );
    add(
        "keep-alive among open channels",
        among("keep-alive", &keep_alive),
    );
    cases
}

fn samples(kind: u8, points: usize, layout: Layout) -> Case {
    let (name, tags, width) = layout;
    let what = if kind == WAVE { "wave" } else { "frame" };
    let mut data = vec![0, 0, 0x03, 0xE8];
    data.extend(octets(points * width));
    Case {
        name: format!("{what}, {points} points, {name}"),
        panel: "",
        // The modes of waves and frames have the numbers of their types.
        opening: vec![routing(0, 1, kind, &words(kind, tags))],
        messages: vec![plain(0, kind, &data)],
        number: 0,
    }
}

/// The frame of a case in fragments of about one length, which cut samples.
fn split(whole: Case) -> Case {
    let data = &whole.messages[0][8..];
    let mut messages = Vec::new();
    for (place, part) in data.chunks(data.len().div_ceil(FRAGMENTS)).enumerate() {
        let kind = if place == 0 { FIRST } else { SEQUEL };
        let mut message = plain(0, kind, part);
        // Timestamps count up from the first one's; CCLF marks the last.
        message[7] += place as u8;
        if place + 1 == FRAGMENTS {
            message[2] |= 0x40;
        }
        messages.push(message);
    }
    Case {
        name: format!("{}, in {FRAGMENTS}", whole.name),
        messages,
        ..whole
    }
}

fn levels(name: &str, tags: &[u8]) -> Case {
    let mut data = vec![0; 4];
    data.extend(octets(512));
    Case {
        name: name.to_string(),
        panel: "",
        opening: vec![routing(0, 1, 4, tags)],
        messages: vec![plain(0, LEVELS, &data)],
        number: 0,
    }
}

/// A Void chunk on an open channel: every check that it meets is short, so
/// that its cost is what every message costs.
fn keep_alive() -> Case {
    Case {
        name: "keep-alive".to_string(),
        messages: vec![plain(0, VOID, &[])],
        ..samples(WAVE, 100, LAYOUTS[0])
    }
}

/// Total Size is wrong: the check after the record's own is the last.
fn refused() -> Case {
    let mut message = plain(0, VOID, &[]);
    message[1] += 1;
    Case {
        name: "refused by 2".to_string(),
        messages: vec![message],
        number: 2,
        ..keep_alive()
    }
}

fn route(layout: Layout) -> Case {
    let (name, tags, _) = layout;
    routed(name, routing(0, 1, WAVE, &words(WAVE, tags)))
}

fn route_levels() -> Case {
    routed("32 ranges", routing(0, 1, 4, &ranges()))
}

fn routed(name: &str, message: Vec<u8>) -> Case {
    Case {
        name: format!("routing, {name}"),
        panel: "",
        opening: Vec::new(),
        messages: vec![message],
        number: 0,
    }
}

/// A message on a channel of mode 1 while so many channels are open; another
/// one cannot have mode 1 (check 15).
fn among(what: &str, case: &dyn Fn() -> Case) -> Vec<Case> {
    let open = |open: u8, name: String, opened: &dyn Fn(u8) -> Vec<u8>| {
        let mut case = case();
        case.opening.extend((1..open).map(opened));
        Case { name, ..case }
    };
    let mut cases = vec![open(1, format!("{what}, 1 open"), &opened_frame)];
    for number in [8, 32, 64] {
        let name = format!("{what}, {number} open, frames");
        cases.push(open(number, name, &opened_frame));
    }
    for number in [8, 32, 64] {
        let name = format!("{what}, {number} open, dimmers");
        cases.push(open(number, name, &opened_dimmer));
    }
    cases
}

fn opened_frame(channel: u8) -> Vec<u8> {
    routing(channel, 1, 2, &words(FRAME, LAYOUTS[2].1))
}

fn opened_dimmer(channel: u8) -> Vec<u8> {
    routing(channel, 1, 4, &ranges())
}

/// 32 tags 43 of 16 levels each.
pub fn ranges() -> Vec<u8> {
    (0u16..32)
        .flat_map(|range| {
            let [high, low] = (1 + 16 * range).to_be_bytes();
            [0x43, high, low, 16]
        })
        .collect()
}

/// Tags as octets; the hint with a shutter (4101) is for waves alone.
pub fn words(kind: u8, tags: &[u16]) -> Vec<u8> {
    tags.iter()
        .map(|tag| match *tag {
            0x4101 if kind == FRAME => 0x4100,
            other => other,
        })
        .flat_map(u16::to_be_bytes)
        .collect()
}

/// A message with Routing, its tags filled up to whole words, and a Void chunk.
pub fn routing(channel: u8, service: u8, mode: u8, tags: &[u8]) -> Vec<u8> {
    let mut tags = tags.to_vec();
    while tags.len() % 4 != 0 {
        tags.push(0);
    }
    let mut rest = vec![(tags.len() / 4) as u8, 0x01, service, mode];
    rest.extend(tags);
    sized(0xC0 | channel, VOID, &rest)
}

/// A message without configuration.
pub fn plain(channel: u8, kind: u8, data: &[u8]) -> Vec<u8> {
    sized(0x80 | channel, kind, data)
}

fn sized(second: u8, kind: u8, rest: &[u8]) -> Vec<u8> {
    let mut message = ((8 + rest.len()) as u16).to_be_bytes().to_vec();
    message.extend([second, kind, 0, 0, 0, 9]);
    message.extend(rest);
    message
}

/// A fixed sequence, so that every run measures the same samples.
fn octets(count: usize) -> Vec<u8> {
    let mut state = 0x2545_F491u32;
    (0..count)
        .map(|_| {
            state ^= state << 13;
            state ^= state >> 17;
            state ^= state << 5;
            (state >> 11) as u8
        })
        .collect()
}
