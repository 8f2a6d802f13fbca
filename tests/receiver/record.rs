//! Where things stand in the octets of a record: 64 states, 64 match bits, 64
//! sizes (the octets of a sample, or the number of ranges), 64 counts of
//! colours, then an area for each channel. Words have their low octet first.

use crate::calls::Receiver;
use std::ops::Range;

pub const CHANNELS: usize = 64;

/// The state of an open channel is its mode + 1; 0 is a closed one.
pub const KNOWN: [u8; 6] = [0, 1, 2, 3, 5, 7];
pub const VOID: u8 = 1;
pub const FRAMES: u8 = 3;
pub const GRAPHIC: [u8; 2] = [2, FRAMES];
pub const DIMMER: [u8; 2] = [5, 7];

/// The octets of an area that a layout takes: roles, wavelengths, space.
pub const LAYOUT: usize = 50;
const AREA: usize = 98;
const COUNTS: usize = 64;
const BASE: usize = 96;

/// One channel of a record.
pub struct Channel<'a> {
    record: &'a mut Receiver,
    number: usize,
}

pub fn channel(record: &mut Receiver, number: usize) -> Channel<'_> {
    Channel { record, number }
}

pub fn state(record: &Receiver, number: usize) -> u8 {
    record.channels[number]
}

pub fn match_bits(record: &Receiver, number: usize) -> u8 {
    record.channels[CHANNELS + number]
}

pub fn size(record: &Receiver, number: usize) -> u8 {
    record.channels[2 * CHANNELS + number]
}

pub fn colours(record: &Receiver, number: usize) -> u8 {
    record.channels[3 * CHANNELS + number]
}

/// What the numbers of what is gathered say: the first is 0 where it is no frame.
pub fn shown(gathered: &[u32]) -> Option<[u32; 4]> {
    let numbers: [u32; 4] = gathered.try_into().unwrap();
    (numbers[0] != 0).then_some(numbers)
}

fn area_of(number: usize) -> Range<usize> {
    let start = 4 * CHANNELS + AREA * number;
    start..start + AREA
}

/// The base and count of each range of a dimmer channel.
pub fn ranges(record: &Receiver, number: usize) -> Vec<(u16, u8)> {
    let area = &record.channels[area_of(number)];
    (0..usize::from(size(record, number)))
        .map(|place| {
            let base = u16::from_le_bytes([area[2 * place], area[2 * place + 1]]);
            (base, area[COUNTS + place])
        })
        .collect()
}

impl Channel<'_> {
    pub fn set_state(&mut self, state: u8) {
        self.record.channels[self.number] = state;
    }

    pub fn set_match_bits(&mut self, bits: u8) {
        self.record.channels[CHANNELS + self.number] = bits;
    }

    pub fn set_size(&mut self, size: u8) {
        self.record.channels[2 * CHANNELS + self.number] = size;
    }

    pub fn set_colours(&mut self, colours: u8) {
        self.record.channels[3 * CHANNELS + self.number] = colours;
    }

    pub fn area(&mut self) -> &mut [u8] {
        &mut self.record.channels[area_of(self.number)]
    }

    pub fn set_range(&mut self, place: usize, base: u16, count: u8) {
        let area = self.area();
        area[2 * place..2 * place + 2].copy_from_slice(&base.to_le_bytes());
        area[COUNTS + place] = count;
    }

    /// The base of a channel without ranges.
    pub fn set_base(&mut self, base: u16) {
        self.area()[BASE..].copy_from_slice(&base.to_le_bytes());
    }
}
