//! The two builds of the receiver, and what a call to one of them gives.
//!
//! Both are given copies of one record and of one assembly slice. A build from
//! before request C-12 gets the meters and the channels of it, which have had
//! one layout since. Where a request changes that, another way of giving both
//! the same state is needed here, such as a record of each build that the same
//! accepted routings opened.

use crate::calls::{self, Outcome, Receiver, Span};
use crate::earlier;
use crate::lent::{Lengths, Record, Slices};
use decoder::chunk::Lent;
use decoder::receiver::Reply;

/// The calls of one build: start and message by value and in place, and the
/// data section.
struct Build {
    start: fn([u64; 3]) -> Outcome,
    message: fn(&Receiver, &[u8], &mut Slices) -> Outcome,
    begin: fn(&mut Record, [u64; 3]) -> Reply,
    offer: fn(&mut Record, &[u8], &mut Slices) -> Reply,
    section: fn(&[u8]) -> Span,
}

/// The earlier build, then the present one.
const BUILDS: [Build; 2] = [
    Build {
        start: earlier::start,
        message: earlier::message,
        begin: earlier::begin,
        offer: earlier::offer,
        section: earlier::data_section,
    },
    Build {
        start: calls::start,
        message: |receiver, octets, lent| lent.message(receiver, octets),
        begin: Record::begin,
        offer: Record::offer,
        section: calls::data_section,
    },
];

/// What a call gave: the reply, and the record and the slices after it; and
/// where the data section of the message stands.
pub struct Given {
    pub reply: Reply,
    pub record: Record,
    pub slices: Slices,
    pub section: Span,
}

/// What one build gave for the same start or message in each of the two ways.
pub struct Ways {
    pub in_place: Given,
    pub by_value: Given,
}

impl Build {
    fn start(&self, readings: [u64; 3]) -> Ways {
        let lent = Lent {
            rows: 0,
            levels: 0,
            assembly: 0,
        };
        let none = Slices::new(lent, 0);
        let section = (self.section)(&[]);
        let started = (self.start)(readings);
        let value = &started.receiver;
        // What the record held before must not matter.
        let mut record = Record::new(Lengths::RECORD);
        Ways {
            in_place: Given {
                reply: (self.begin)(&mut record, readings),
                record,
                slices: none.clone(),
                section,
            },
            by_value: Given {
                reply: started.reply.own(),
                record: Record::of(value),
                slices: none,
                section,
            },
        }
    }

    fn offer(&self, record: &Receiver, octets: &[u8], lent: &Slices) -> Ways {
        let (mut first, mut second) = (lent.clone(), lent.clone());
        let mut in_place = Record::of(record);
        let section = (self.section)(octets);
        let next = (self.message)(record, octets, &mut second);
        Ways {
            in_place: Given {
                reply: (self.offer)(&mut in_place, octets, &mut first),
                record: in_place,
                slices: first,
                section,
            },
            by_value: Given {
                reply: next.reply.own(),
                record: Record::of(&next.receiver),
                slices: second,
                section,
            },
        }
    }
}

impl Ways {
    /// Puts the record and the assembly slice that the call in place left into
    /// `record` and at the start of `assembly`.
    pub fn hand_on(&self, record: &mut Receiver, assembly: &mut [u8]) {
        let left = &self.in_place.record;
        record.channels.copy_from_slice(left.channels.read());
        record.meters.copy_from_slice(left.meters.read());
        record.gathered.copy_from_slice(left.gathered.read());
        let octets = self.in_place.slices.assembly.read();
        assembly[..octets.len()].copy_from_slice(octets);
    }
}

/// True if every call of one build is other code than that of the other one.
pub fn are_two() -> bool {
    let mut pairs = earlier::addresses().into_iter().zip(calls::addresses());
    pairs.all(|(before, now)| before != now)
}

/// True if the earlier build takes a record of the present lengths, in the form
/// of its calls that was found: it gives number 1 for others, and in another
/// form it sets other readings.
pub fn records_alike() -> bool {
    let mut record = Record::new(Lengths::RECORD);
    let readings = [5, 6, 7];
    earlier::begin(&mut record, readings).number == 0 && record.meters.read() == readings
}

/// Starts both.
pub fn start(readings: [u64; 3]) -> [Ways; 2] {
    BUILDS.map(|build| build.start(readings))
}

/// Offers one message to both, with equal slices and on equal records.
pub fn offer(record: &Receiver, octets: &[u8], lent: &Slices) -> [Ways; 2] {
    BUILDS.map(|build| build.offer(record, octets, lent))
}
