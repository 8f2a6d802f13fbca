//! Arrays of other lengths than a record's lent to the calls in place: "get
//! number 1, and nothing is written", and "a meter that is not lent is read as
//! 0" (include/mewkoast.h).

use crate::calls::{self, Receiver};
use crate::lent::{Lengths, Lent, Record, Slices};
use crate::messages::{first_fragment, keep_alive, FRAME, ROUTINGS};
use crate::set_calls;
use crate::tally::Tally;
use decoder::receiver::{Reply, LIMIT};
use decoder::set::SetReply;

/// Lengths around those of a record, of each array.
const CHANNELS: [usize; 6] = [6528, 0, 1, 64, 6527, 6529];
const METERS: [usize; 5] = [3, 0, 1, 2, 4];
const GATHERED: [usize; 5] = [4, 0, 1, 3, 5];

/// Offers messages to a record of which arrays are cut or longer.
pub fn offer(record: &Receiver, tally: &mut Tally) {
    for channels in CHANNELS {
        for meters in METERS {
            for gathered in GATHERED {
                let lengths = Lengths {
                    channels,
                    meters,
                    gathered,
                };
                if lengths != Lengths::RECORD {
                    refuses(&Record::cut(record, lengths), tally);
                }
            }
        }
    }
    readings(record, tally);
}

fn refuses(given: &Record, tally: &mut Tally) {
    begin(given, tally);
    message(given, &FRAME, tally);
    message(given, &first_fragment(5), tally);
    message(given, &keep_alive(5), tally);
    message(given, &[], tally);
    set(given, &[], tally);
    set(given, &[0], tally);
    set(given, &ROUTINGS.concat(), tally);
}

fn begin(given: &Record, tally: &mut Tally) {
    for readings in [[0; 3], [1, 2, 3], [LIMIT + 1, 0, 0]] {
        let mut lent = given.clone();
        let reply = lent.begin(readings);
        refused(reply, lent == *given, "begin", given, tally);
    }
}

fn message(given: &Record, octets: &[u8], tally: &mut Tally) {
    let (mut lent, mut slices) = (given.clone(), Slices::small());
    let reply = lent.offer(octets, &mut slices);
    let kept = lent == *given && slices == Slices::small();
    refused(reply, kept, "offer", given, tally);
}

/// Request C-14: number 1 at place 0, also for the empty list.
fn set(given: &Record, octets: &[u8], tally: &mut Tally) {
    let mut lent = given.clone();
    let SetReply { place, number } = set_calls::patch_on(lent.arrays(), octets).own();
    let reply = Reply {
        number,
        ..Reply::default()
    };
    tally.sets.lengths += 1;
    let kept = place == 0 && lent == *given;
    refused(reply, kept, "a set at place 0", given, tally);
}

fn refused(reply: Reply, kept: bool, what: &str, given: &Record, tally: &mut Tally) {
    let expected = Reply {
        number: 1,
        ..Reply::default()
    };
    let lengths = Lengths {
        channels: given.channels.read().len(),
        meters: given.meters.read().len(),
        gathered: given.gathered.read().len(),
    };
    tally.lengths += 1;
    tally.same(reply == expected && kept, || {
        format!("{what} on lengths {lengths:?}: {reply:?}, unchanged: {kept}")
    });
}

/// Of any number of meters, also of those above the limit.
fn readings(record: &Receiver, tally: &mut Tally) {
    for meters in [record.meters, [5, 6, 7], [LIMIT + 1, u64::MAX, 0]] {
        for length in 0..=meters.len() + 2 {
            let mut lent = Lent::new(length, |place| u64::from(place) + 1000);
            lent.put(&meters);
            let mut expected = [0; 3];
            let common = length.min(meters.len());
            expected[..common].copy_from_slice(&meters[..common]);
            let given = calls::readings_on(lent.read());
            tally.lengths += 1;
            tally.same(given == expected, || {
                format!("readings of {length} meters: {given:?}, not {expected:?}")
            });
        }
    }
}
