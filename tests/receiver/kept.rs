//! A receiver with the slices that its host lends, by value, in place and the
//! second one, and what a message gives in each way.

use crate::calls;
use crate::lent::{Record, Slices};
use crate::record::shown;
use crate::tally::Tally;
use decoder::receiver::{Gathering, Receiver, Reply};

/// What a message gives, whichever way it is offered.
pub struct Given<'a> {
    pub reply: Reply,
    pub readings: [u64; 3],
    /// The numbers of the frame that is being gathered; none if there is none.
    gathered: Option<[u32; 4]>,
    slices: &'a Slices,
}

impl Given<'_> {
    pub fn same(&self, expected: &Given, name: &str, tally: &mut Tally) -> bool {
        let (reply, wanted) = (self.reply, expected.reply);
        let mut same = tally.same(reply == wanted, || {
            format!("{name}: {reply:?}, expected {wanted:?}")
        });
        let (readings, wanted) = (self.readings, expected.readings);
        same &= tally.same(readings == wanted, || {
            format!("{name}: readings {readings:?}, expected {wanted:?}")
        });
        let (gathered, wanted) = (self.gathered, expected.gathered);
        same &= tally.same(gathered == wanted, || {
            format!("{name}: gathered {gathered:?}, expected {wanted:?}")
        });
        let (slices, wanted) = (self.slices, expected.slices);
        for (same_slice, which) in [
            (slices.rows == wanted.rows, "rows"),
            (slices.levels == wanted.levels, "levels"),
            (slices.assembly.same(&wanted.assembly), "assembly slice"),
        ] {
            same &= tally.same(same_slice, || format!("{name}: the {which}"));
        }
        same
    }
}

/// The numbers that a record has of what the second receiver gathers:
/// include/mewkoast.h has their order.
pub fn numbers(held: Gathering) -> [u32; 4] {
    let octets = u32::try_from(held.octets).unwrap();
    [
        u32::from(held.channel) + 1,
        octets,
        held.timestamp,
        held.sequel,
    ]
}

/// A receiver, and the slices that its host lends: rows and levels are other
/// ones for each message, the assembly slice is a part of one buffer.
#[derive(Clone)]
pub struct Kept<R> {
    pub receiver: R,
    pub slices: Slices,
}

impl<R> Kept<R> {
    pub fn new(receiver: R, slices: &Slices) -> Kept<R> {
        Kept {
            receiver,
            slices: slices.clone(),
        }
    }
}

impl Kept<calls::Receiver> {
    pub fn offer(&mut self, octets: &[u8]) -> Given<'_> {
        let next = self.slices.message(&self.receiver, octets);
        self.receiver = next.receiver;
        Given {
            reply: next.reply.own(),
            readings: calls::readings(&self.receiver),
            gathered: shown(&self.receiver.gathered),
            slices: &self.slices,
        }
    }
}

impl Kept<Record> {
    pub fn offer(&mut self, octets: &[u8]) -> Given<'_> {
        Given {
            reply: self.receiver.offer(octets, &mut self.slices),
            readings: self.receiver.readings(),
            gathered: shown(self.receiver.gathered.read()),
            slices: &self.slices,
        }
    }
}

impl Kept<Receiver> {
    pub fn offer(&mut self, octets: &[u8]) -> Given<'_> {
        let Slices {
            rows,
            levels,
            assembly,
        } = &mut self.slices;
        let lent = (rows.slice(), levels.slice(), assembly.slice());
        Given {
            reply: self.receiver.message(octets, lent.0, lent.1, lent.2),
            readings: self.receiver.readings(),
            gathered: self.receiver.gathering().map(numbers),
            slices: &self.slices,
        }
    }
}
