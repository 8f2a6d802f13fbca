//! What a host lends: slices with a margin on either side that no call may
//! touch, and a record of which the three arrays are lent like them.

use crate::calls::{self, Arrays, Outcome, Receiver};
use decoder::chunk;
use decoder::receiver::Reply;

/// Elements on either side of a slice lent.
const MARGIN: usize = 24;

/// A slice to lend, with a margin on either side, all of it a pattern.
#[derive(Clone, PartialEq)]
pub struct Lent<T> {
    all: Vec<T>,
    length: usize,
}

impl<T: Copy + PartialEq> Lent<T> {
    pub fn new(length: usize, pattern: impl Fn(u32) -> T) -> Lent<T> {
        let whole = (length + 2 * MARGIN) as u32;
        Lent {
            all: (0..whole).map(pattern).collect(),
            length,
        }
    }

    /// A copy of elements, with a margin of one.
    pub fn of(elements: &[T], margin: T) -> Lent<T> {
        let margin = [margin; MARGIN];
        Lent {
            all: [&margin, elements, &margin].concat(),
            length: elements.len(),
        }
    }

    pub fn slice(&mut self) -> &mut [T] {
        &mut self.all[MARGIN..MARGIN + self.length]
    }

    pub fn read(&self) -> &[T] {
        &self.all[MARGIN..MARGIN + self.length]
    }

    /// Puts elements in from the start, as many as there is room for.
    pub fn put(&mut self, from: &[T]) {
        let common = from.len().min(self.length);
        self.slice()[..common].copy_from_slice(&from[..common]);
    }

    /// Lends so many of the elements from here on, at most all that there were
    /// at first. Their values stay.
    pub fn cut(&mut self, length: usize) {
        assert!(length + 2 * MARGIN <= self.all.len());
        self.length = length;
    }

    /// True if what is lent and its margins hold the same. The elements behind
    /// are left out, so that a short slice of a long buffer is compared fast.
    pub fn same(&self, other: &Lent<T>) -> bool {
        let around = self.length + 2 * MARGIN;
        self.length == other.length && self.all[..around] == other.all[..around]
    }
}

/// The rows, the levels and the assembly slice of one message.
#[derive(Clone, PartialEq)]
pub struct Slices {
    pub rows: Lent<i32>,
    pub levels: Lent<u8>,
    pub assembly: Lent<u8>,
}

/// Another number for each place and salt.
fn mixed(place: u32, salt: u32) -> u32 {
    place.wrapping_mul(0x85EB_CA6B) ^ salt
}

impl Slices {
    /// Of these lengths, with another pattern for each salt.
    pub fn new(lent: chunk::Lent, salt: u32) -> Slices {
        Slices {
            rows: Lent::new(lent.rows, |place| mixed(place, salt) as i32),
            levels: Lent::new(lent.levels, |place| (mixed(place, salt) >> 9) as u8),
            assembly: Lent::new(lent.assembly, |place| (mixed(place, salt) >> 17) as u8),
        }
    }

    /// The same without an assembly slice.
    pub fn rows_and_levels(lent: chunk::Lent, salt: u32) -> Slices {
        Slices::new(
            chunk::Lent {
                assembly: 0,
                ..lent
            },
            salt,
        )
    }

    /// For the next message: other rows and levels, and so much of the assembly
    /// slice, which keeps its octets.
    pub fn renew(&mut self, next: &Slices, assembly: usize) {
        self.rows.clone_from(&next.rows);
        self.levels.clone_from(&next.levels);
        self.assembly.cut(assembly);
    }

    /// The same with a copy of these octets as the assembly slice.
    pub fn assembling(lent: chunk::Lent, salt: u32, octets: &[u8]) -> Slices {
        Slices {
            assembly: Lent::of(octets, salt as u8),
            ..Slices::rows_and_levels(lent, salt)
        }
    }

    /// For a frame of two points, for every level, and for a frame of some
    /// points in fragments.
    pub fn small() -> Slices {
        let lent = chunk::Lent {
            rows: 48,
            levels: 1024,
            assembly: 64,
        };
        Slices::new(lent, 5)
    }

    /// By value, with these slices lent.
    pub fn message(&mut self, receiver: &Receiver, octets: &[u8]) -> Outcome {
        calls::message(
            receiver,
            octets,
            self.rows.slice(),
            self.levels.slice(),
            self.assembly.slice(),
        )
    }
}

/// A record that is changed in place.
#[derive(Clone, PartialEq)]
pub struct Record {
    pub channels: Lent<u8>,
    pub meters: Lent<u64>,
    pub gathered: Lent<u32>,
}

/// How long the arrays of a record are.
#[derive(Clone, Copy, Debug, PartialEq)]
pub struct Lengths {
    pub channels: usize,
    pub meters: usize,
    pub gathered: usize,
}

impl Lengths {
    pub const RECORD: Lengths = Lengths {
        channels: 6528,
        meters: 3,
        gathered: 4,
    };
}

impl Record {
    /// Arrays of these lengths that hold no receiver.
    pub fn new(lengths: Lengths) -> Record {
        let pattern = |place: u32| u64::from(place + 1).wrapping_mul(0x9E37_79B9_7F4A_7C15);
        Record {
            channels: Lent::new(lengths.channels, |place| {
                place.wrapping_mul(0x9E37_79B1) as u8 | 1
            }),
            meters: Lent::new(lengths.meters, pattern),
            gathered: Lent::new(lengths.gathered, |place| (pattern(place) >> 20) as u32),
        }
    }

    /// A copy of a record, as far as arrays of these lengths hold it.
    pub fn cut(from: &Receiver, lengths: Lengths) -> Record {
        let mut record = Record::new(lengths);
        record.channels.put(&from.channels);
        record.meters.put(&from.meters);
        record.gathered.put(&from.gathered);
        record
    }

    pub fn of(from: &Receiver) -> Record {
        Record::cut(from, Lengths::RECORD)
    }

    /// True if every octet is that of the record, and the margins are kept.
    pub fn holds(&self, record: &Receiver) -> bool {
        *self == Record::of(record)
    }

    pub fn arrays(&mut self) -> Arrays<'_> {
        Arrays {
            channels: self.channels.slice(),
            meters: self.meters.slice(),
            gathered: self.gathered.slice(),
        }
    }

    pub fn begin(&mut self, readings: [u64; 3]) -> Reply {
        calls::begin_on(self.arrays(), readings).own()
    }

    pub fn offer(&mut self, octets: &[u8], lent: &mut Slices) -> Reply {
        let reply = calls::offer_on(
            self.arrays(),
            octets,
            lent.rows.slice(),
            lent.levels.slice(),
            lent.assembly.slice(),
        );
        reply.own()
    }

    /// Without rows and levels, with an assembly slice that has no margin.
    pub fn offer_assembly(&mut self, octets: &[u8], assembly: &mut [u8]) -> Reply {
        calls::offer_on(self.arrays(), octets, &mut [], &mut [], assembly).own()
    }

    pub fn readings(&self) -> [u64; 3] {
        calls::readings_on(self.meters.read())
    }
}
